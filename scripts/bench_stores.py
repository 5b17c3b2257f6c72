#!/usr/bin/env python3
"""Times `check`, `list` and `merge` on made stores of N records of 188 kB, beside `sha256sum` of the same files.

    scripts/bench_stores.py PROGRAM [N]     N is 2000 if it isn't given

The records are made by their form alone: their parity and seal are bytes by chance. Two stores of N records have half of
them in common, and one is merged into the other. Each line is the best of three: seconds of processor time and of the
clock, MB of records for a second of the clock, and peak memory in MB. Ends with 1 where an answer, or what stands after a
merge, isn't what it has to be. Needs 950 kB of room for each of the N records in the folder for temporary files.
"""

import hashlib
import random
import shutil
import struct
import subprocess
import sys
import tempfile
from pathlib import Path

import expected_cases as cases

PARITY = 8
TIMES = 3

failed = False


def layout_of(number):
    """The layout of a disc of two tracks, another one for each number."""
    return 0, (0, 1_000 + number % 10_000), 20_000 + number // 10_000


def record_of(number):
    """A record, its parity and its seal by chance."""
    pregap, starts, sectors = layout_of(number)
    body = b"RIPPAR02" + struct.pack("<HBBII", PARITY, len(starts), 0, pregap, sectors) + struct.pack(f"<{len(starts)}I", *starts)
    body += random.Random(number).randbytes(2 * cases.STRIDE * PARITY + 32)
    return body + hashlib.sha256(body).digest()


def make_store(folder, numbers):
    folder.mkdir()
    for number in numbers:
        (folder / f"{cases.store_key(layout_of(number))}.rpar").write_bytes(record_of(number))


def once(words, folder):
    """Runs a program, and answers what it took, by GNU time, whose own memory is small, and what it printed."""
    with open(folder / "text", "w") as text:
        subprocess.run(["/usr/bin/time", "-o", folder / "told", "-f", "%U %S %e %M", *words], cwd=folder, stdout=text, check=False)
    user, system, clock, memory = map(float, (folder / "told").read_text().splitlines()[-1].split())
    return (user + system, clock, memory / 1024), (folder / "text").read_text().splitlines()


def best(name, words, folder, size, wanted, before=None):
    """Prints the best of three runs, each of which has to print so many lines, and this line last."""
    global failed
    runs = []
    for _ in range(TIMES):
        if before:
            before()
        took, lines = once(words, folder)
        runs.append(took)
        if wanted and (len(lines), lines[-1]) != wanted:
            failed = True
            print(f"  {name} prints {len(lines)} lines, and last {lines[-1:]}, not {wanted}")
    used, clock, memory = min(runs)
    print(f"{name:36} {used:8.2f} {clock:8.2f} {size / 1e6 / max(clock, 0.01):8.0f} {memory:8.1f}", flush=True)


def held(folder):
    return {path.name: hashlib.sha256(path.read_bytes()).digest() for path in folder.iterdir()}


def main():
    global failed
    program, count = str(Path(sys.argv[1]).resolve()), int(sys.argv[2]) if sys.argv[2:] else 2000
    common = count // 2
    with tempfile.TemporaryDirectory() as name:
        folder = Path(name)
        make_store(folder / "A", range(count))
        make_store(folder / "B", range(count - common, 2 * count - common))
        from_a, from_b = held(folder / "A"), held(folder / "B")
        names = sorted(f"A/{own}" for own in from_a)
        size = count * (folder / names[0]).stat().st_size
        last = max(names, key=str.encode)
        print(f"{'command':36} {'seconds':>8} {'clock':>8} {'MB/s':>8} {'MB':>8}")
        best(f"check, {count} records", [program, "check", "A/"], folder, size, (1, f"checked {count} bad 0"))
        best("  sha256sum of the same files", ["sha256sum", *names], folder, size, None)
        line = cases.record_line((folder / last).read_bytes(), last)
        best(f"list, {count} records", [program, "list", "A/"], folder, size, (count, line))

        def anew():
            shutil.rmtree(folder / "C", ignore_errors=True)
            shutil.copytree(folder / "B", folder / "C")

        text = f"merged {count - common} same {common} differs 0 skipped 0"
        best(f"merge, {count} into {count}, {common} the same", [program, "merge", "A/", "C/"], folder, size, (count + 1, text), anew)
        if held(folder / "C") != from_a | from_b or held(folder / "A") != from_a:
            failed = True
            print("  the merged store isn't the records of both")
    sys.exit(1 if failed else 0)


if __name__ == "__main__":
    main()
