#!/usr/bin/env python3
"""Times a batch of N small discs beside N runs that do the same, one after another.

    scripts/bench_batch.py PROGRAM [N]     N is 200 if it isn't given

Each disc has 100 sectors, and its words are by chance. A list registers all of them and then verifies them, so it has 2 N
discs; with N above 500 it is cut into lists of 1,000 discs. Each line is the best of three: seconds of processor time and
of the clock, and peak memory in MB. The last line has the peak memory of batches of few and of many discs. Ends with 1
where the batch's parts aren't what the runs print, or its records aren't theirs.
"""

import random
import subprocess
import sys
import tempfile
from pathlib import Path

import expected_cases as cases

SECTORS = 100
TIMES = 3
MOST_DISCS = 1000


def words_of(number):
    return [["register", f"{number}.wav", f"{number}.rpar"], ["verify", f"{number}.wav", f"{number}.rpar"]]


def list_of(discs):
    return "".join(f"[[disc]]\nwords = {str(words).replace(chr(39), chr(34))}\n" for words in discs)


def took(words, folder):
    """Seconds of processor time and of the clock, peak memory, and what was printed."""
    with open(folder / "text", "wb") as text:
        subprocess.run(["/usr/bin/time", "-o", folder / "told", "-f", "%U %S %e %M", *words], cwd=folder, stdout=text, check=False)
    user, system, clock, memory = map(float, (folder / "told").read_text().splitlines()[-1].split())
    return user + system, clock, memory / 1024, (folder / "text").read_bytes()


def anew(work):
    for record in work.glob("*.rpar"):
        record.unlink()


def records(work):
    return {record.name: record.read_bytes() for record in work.glob("*.rpar")}


def batches(program, work, discs):
    """All discs by lists of at most 1,000, and the parts that were printed."""
    processor = clock = memory = 0.0
    parts = b""
    for start in range(0, len(discs), MOST_DISCS):
        (work / "list.toml").write_text(list_of(discs[start : start + MOST_DISCS]))
        spent = took([program, "batch", "list.toml"], work)
        processor, clock, memory = processor + spent[0], clock + spent[1], max(memory, spent[2])
        parts += b"".join(line for line in spent[3].splitlines(True) if not line.startswith((b"disc ", b"batch ")))
    return processor, clock, memory, parts


def runs(program, work, discs):
    """Each disc by a run of its own, by one shell."""
    commands = "\n".join(" ".join([f"'{program}'", *words]) for words in discs)
    (work / "runs.sh").write_text(commands + "\n")
    return took(["sh", "runs.sh"], work)


def main():
    if len(sys.argv) not in (2, 3):
        sys.exit(__doc__.split("\n\n")[1].strip())
    program = str(Path(sys.argv[1]).resolve())
    count = int(sys.argv[2]) if len(sys.argv) == 3 else 200
    failed = False
    with tempfile.TemporaryDirectory() as name:
        work = Path(name)
        for number in range(count):
            audio = random.Random(number).randbytes(2352 * SECTORS)
            (work / f"{number}.wav").write_bytes(cases.header(len(audio) // 2) + audio)
        discs = [words for number in range(count) for words in words_of(number)]
        best = {}
        for told, call in (("batch", batches), ("runs", runs)):
            tries = []
            for _ in range(TIMES):
                anew(work)
                tries.append((call(program, work, discs), records(work)))
            best[told] = min(tries, key=lambda tried: tried[0][0])
            spent = best[told][0]
            print(f"{told:6} {len(discs)} discs: processor {spent[0]:.2f} clock {spent[1]:.2f} memory {spent[2]:.1f}")
        if best["batch"][0][3] != best["runs"][0][3] or best["batch"][1] != best["runs"][1]:
            print("the batch isn't what the runs are")
            failed = True
        few, many = ([["verify", "0.wav", "0.rpar"]] * times for times in (10, MOST_DISCS))
        print(f"memory of a batch of 10 discs {batches(program, work, few)[2]:.1f}, of 1,000 {batches(program, work, many)[2]:.1f}")
    sys.exit(failed)


main()
