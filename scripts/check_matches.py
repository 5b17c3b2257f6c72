#!/usr/bin/env python3
"""Compares what `rip match` prints of made discs with the matches that the definitions of docs/FORMATS.md give.

Of each disc the sums at fifty offsets are computed number by number, and stand in a response, with blocks of other discs
between. The matches at all offsets are computed from sums of all samples up to a place, in response_matches.py; at the
fifty these have to be the same.

`check_matches.py PROGRAM [SEED]` runs that program; without one, only the definitions are compared. Ends with 0 only if
all is so.
"""

import random
import struct
import subprocess
import sys
import tempfile
from pathlib import Path

import response_matches as response
from expected_cases import header

OFFSETS = 50
# the sectors of each track of these discs, and as many others by chance
DISCS = [[40], [5], [31, 6], [12, 1, 40], [3, 20, 7, 2], [2, 2, 2]]
OTHERS = 14


def sheet_of(starts):
    lines = ['FILE "disc.wav" WAVE']
    for t, start in enumerate(starts, 1):
        lines += [f"TRACK {t:02} AUDIO", f"INDEX 01 {start // 4500:02}:{start // 75 % 60:02}:{start % 75:02}"]
    return "\n".join(lines) + "\n"


def made_response(chance, layout, samples):
    """A block for each of the chosen offsets, every third with the sums v2, and some blocks of another disc."""
    tracks, *ids = response.ids_of(layout)
    offsets = sorted(chance.sample(range(-response.FARTHEST, response.FARTHEST + 1), OFFSETS - 3) + [-response.FARTHEST, 0, response.FARTHEST])
    sums = response.first_sums(layout, samples)
    blocks = b""
    for number, offset in enumerate(offsets):
        pairs = [response.plain_sums(layout, samples, t, offset) for t in range(1, tracks + 1)]
        for t, (v1, _) in enumerate(pairs, 1):
            if v1 != sums[t, offset]:
                sys.exit(f"check_matches: track {t} of {layout} at {offset}: {v1:08x} and {sums[t, offset]:08x}")
        if number % 7 == 3:
            blocks += struct.pack("<BIII", tracks, ids[0] ^ 1, *ids[1:]) + bytes(9 * tracks)
        blocks += struct.pack("<BIII", tracks, *ids)
        blocks += b"".join(struct.pack("<BII", number, pair[number % 3 == 2], chance.getrandbits(32)) for pair in pairs)
    return blocks


def check_disc(chance, lengths, program):
    starts = [sum(lengths[:t]) for t in range(len(lengths))]
    layout = 0, tuple(starts), sum(lengths)
    words = [chance.getrandbits(16) for _ in range(1176 * layout[2])]
    data = made_response(chance, layout, response.samples_of(words))
    wanted = response.printed(response.matches_of(layout, words, response.blocks_of(data))) + "\n"
    if program:
        with tempfile.TemporaryDirectory() as folder:
            folder = Path(folder)
            (folder / "disc.wav").write_bytes(header(len(words)) + struct.pack(f"<{len(words)}H", *words))
            (folder / "disc.cue").write_text(sheet_of(starts))
            (folder / response.response_name("/", layout)[1:]).write_bytes(data)
            run = subprocess.run([program, "match", "disc.cue", "./"], cwd=folder, capture_output=True, text=True)
            if (run.returncode, run.stdout) != (0, wanted):
                sys.exit(f"check_matches: {layout}: printed {run.returncode}\n{run.stdout}wanted\n{wanted}")
    return wanted.count("\n") - 1


def main():
    program = str(Path(sys.argv[1]).resolve()) if len(sys.argv) > 1 else None
    chance = random.Random(int(sys.argv[2]) if len(sys.argv) > 2 else 17)
    discs = DISCS + [[chance.randint(1, 40) for _ in range(chance.randint(1, 6))] for _ in range(OTHERS)]
    found = sum(check_disc(chance, lengths, program) for lengths in discs)
    print(f"{len(discs)} discs, {found} matches: " + ("printed as the definitions give them" if program else "the definitions agree"))


if __name__ == "__main__":
    main()
