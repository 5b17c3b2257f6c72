#!/usr/bin/env python3
"""Runs trials of discs, shifts and hits by chance, and compares each with what has to come of it.

Hits fall into all columns in turn, each into another word, so 11,760 of them strike each column once. Up to 47,040 hits
no column has more than four wrong words, and the rip is mended; with more some column has five, and an offset could
be near only by a chance too small to be met.
`check_trials.py [PROGRAM [COUNT [SEED]]]` runs that program, else the one that `scripts/rip` built. Ends with 0 only if
all is so.
"""

import random
import subprocess
import sys
from pathlib import Path

COLUMNS = 11_760
MOST = 4 * COLUMNS


def made_trial(chance):
    # (shorter columns would have as many words as parity words, or fewer)
    sectors = chance.choice([chance.randint(110, 300), chance.randint(110, 2_000)])
    hits = chance.choice([0, 1, chance.randint(0, MOST), MOST, chance.randint(MOST + 1, 58_800)])
    return sectors, chance.randrange(2**32), chance.randint(-5_879, 5_879), hits


def wanted_text(sectors, seed, shift, hits):
    first = f"trial sectors {sectors} seed {seed} shift {shift:+} hits {hits}\n"
    if hits > MOST:
        return first + "none\n"
    return first + f"offset {shift:+} errors {hits} columns {min(hits, COLUMNS)}\nsame yes\n"


def main():
    given = sys.argv[1:]
    program = str(Path(given[0]).resolve()) if given else str(Path(__file__).resolve().parent.parent / "bin" / "rip")
    count = int(given[1]) if given[1:] else 100
    chance = random.Random(int(given[2]) if given[2:] else 6)
    for _ in range(count):
        trial = made_trial(chance)
        words = ["trial", *map(str, trial)]
        run = subprocess.run([program, *words], capture_output=True, text=True, check=False)
        if (run.returncode, run.stdout) != (0, wanted_text(*trial)):
            sys.exit(f"check_trials: rip {' '.join(words)}: ends with {run.returncode}, prints {run.stdout!r}")
    print(f"{count} trials: as predicted")


main()
