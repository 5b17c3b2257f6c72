#!/usr/bin/env python3
"""Runs most commands on small inputs, with each allocation refused in turn, and sees what stands then.

For each number N the program is run with its Nth allocation refused, and again with that and all later ones. The
program has to end by itself, and then

- with 40 it printed nothing, and nothing but the output's `.part` changed;
- with 30 or 31, where the allocation was one inside a call of the real folder, it printed the line of that fault, and
  nothing but the `.part` changed;
- with 32, where it was one inside printing, the output stands whole;
- else it did what it does with memory enough.

After 40, 30 or 31 the same command is run with memory enough over what was left, and has to do what it does in a new
folder.

Of a batch, with 40 the whole parts of its first discs went out; with 29 a disc ended in the fault of an allocation inside
a call of the folder; and whatever its number, each file but a `.part` is as it was or as the whole batch leaves it.

The allocations are those of the C library's malloc, calloc, realloc and aligned_alloc, which a small library in front of
it counts (LD_PRELOAD, made by `cc`). `check_memory.py PROGRAM` runs that program; else the one that `scripts/rip` built.
Ends with 0 only if all is so.
"""

import random
import re
import shutil
import struct
import subprocess
import sys
import tempfile
from pathlib import Path

TOP = Path(__file__).resolve().parent.parent
SECTOR_BYTES = 2_352

# Counts allocations from the program's start; the one with the number REFUSE_NTH answers none, and with REFUSE_ALL all
# later ones too. Then the file REFUSE_MARK is made.
COUNTER = r"""
#include <errno.h>
#include <fcntl.h>
#include <stddef.h>
#include <stdlib.h>
#include <unistd.h>
extern void *__libc_malloc(size_t), *__libc_calloc(size_t, size_t), *__libc_realloc(void *, size_t), *__libc_memalign(size_t, size_t);
static long count, nth;
static int all;
__attribute__((constructor)) static void begin(void) {
    const char *number = getenv("REFUSE_NTH");
    nth = number ? atol(number) : 0;
    all = getenv("REFUSE_ALL") != NULL;
    count = 0;
}
static int refused(void) {
    count++;
    if (nth == 0 || (all ? count < nth : count != nth)) return 0;
    int mark = open(getenv("REFUSE_MARK"), O_CREAT | O_WRONLY, 0600);
    if (mark >= 0) close(mark);
    errno = ENOMEM;
    return 1;
}
void *malloc(size_t n) { return refused() ? NULL : __libc_malloc(n); }
void *calloc(size_t n, size_t m) { return refused() ? NULL : __libc_calloc(n, m); }
void *realloc(void *p, size_t n) { return refused() ? NULL : __libc_realloc(p, n); }
void *aligned_alloc(size_t a, size_t n) { return refused() ? NULL : __libc_memalign(a, n); }
int posix_memalign(void **p, size_t a, size_t n) {
    if (refused()) return ENOMEM;
    *p = __libc_memalign(a, n);
    return *p ? 0 : ENOMEM;
}
"""

COMMANDS = [
    "register disc.wav new.rpar",
    "register rips/disc.cue store/",
    "repair second.wav disc.rpar out.wav",
    "repair second.wav disc.rpar out.wav --offset=17",
    "repair disc.wav disc.rpar second.wav",
    "verify second.wav disc.rpar",
    "verify rips/disc.cue disc.rpar --offset=0",
    "offsets second.wav disc.rpar",
    "sums rips/disc.cue",
    "sums store",
    "list store/",
    "check store/",
    "merge store/ more/",
    "trial 30 7 0 0",
    "trial 100 7 -17 4",
    "batch list.toml",
]

FAULTS = {30: b"read fault\n", 31: b"write fault\n"}


# The discs of the list: one that reads, one that writes, and one that reads what was written.
LIST = """[[disc]]
words = ["sums", "rips/disc.cue"]
[[disc]]
words = ["register", "disc.wav", "new.rpar"]
[[disc]]
words = ["verify", "second.wav", "new.rpar", "--offset=17"]
"""


def wav(audio):
    head = b"RIFF" + struct.pack("<I", 36 + len(audio)) + b"WAVEfmt "
    return head + struct.pack("<IHHIIHH", 16, 1, 2, 44_100, 176_400, 4, 16) + b"data" + struct.pack("<I", len(audio)) + audio


def make_files(folder, program):
    """A disc of 100 sectors and its record, a rip of it that is 17 samples late and has a wrong word, a sheet, two stores, of which
    one has a good and two bad records and the other none, and a list of discs."""
    audio = random.Random(4).randbytes(100 * SECTOR_BYTES)
    late = bytearray(bytes(17 * 4) + audio[: -17 * 4])
    late[100_000] ^= 1
    (folder / "disc.wav").write_bytes(wav(audio))
    (folder / "second.wav").write_bytes(wav(bytes(late)))
    (folder / "store").mkdir()
    (folder / "rips").mkdir()
    (folder / "rips" / "01.wav").write_bytes(wav(audio[: 40 * SECTOR_BYTES]))
    (folder / "rips" / "02.wav").write_bytes(wav(audio[40 * SECTOR_BYTES :]))
    tracks = "".join(f'FILE "0{n}.wav" WAVE\nTRACK 0{n} AUDIO\nINDEX 01 00:00:00\n' for n in (1, 2))
    (folder / "rips" / "disc.cue").write_text(tracks)
    for rec in ("disc.rpar", "store/"):
        subprocess.run([program, "register", "disc.wav", rec], cwd=folder, check=True, capture_output=True)
    shutil.copyfile(folder / "disc.rpar", folder / "store" / "misnamed.rpar")
    (folder / "store" / "none.rpar").write_bytes(b"")
    (folder / "more").mkdir()
    (folder / "list.toml").write_text(LIST)


def held(folder):
    return {str(path.relative_to(folder)): path.read_bytes() for path in folder.rglob("*") if path.is_file()}


def but_part(files):
    return {name: content for name, content in files.items() if not name.endswith(".part")}


class Runs:
    """The runs of one command over a folder, each over the same files."""

    def __init__(self, program, counter, work, files, command):
        self.program = program
        self.counter = counter
        self.work = work
        self.files = files
        self.command = command
        self.numbers = {}

    def fresh(self):
        folder = self.work / "folder"
        shutil.rmtree(folder, ignore_errors=True)
        shutil.copytree(self.files, folder)
        return folder

    def run(self, folder, nth, all_later):
        """The number with which the program ends, what it prints, and whether an allocation was refused."""
        mark = self.work / "mark"
        mark.unlink(missing_ok=True)
        setting = {"LD_PRELOAD": str(self.counter), "REFUSE_NTH": str(nth), "REFUSE_MARK": str(mark)}
        if all_later:
            setting["REFUSE_ALL"] = "1"
        ran = subprocess.run([self.program, *self.command.split()], cwd=folder, env=setting, capture_output=True, timeout=60, check=False)
        return ran.returncode, ran.stdout, mark.exists()

    def wrong(self, text):
        sys.exit(f"check_memory: `rip {self.command}`: {text}")

    def check_one(self, nth, all_later, wanted):
        """Whether the allocation with this number, which was refused, was there at all."""
        folder = self.fresh()
        before = but_part(held(folder))
        number, printed, was_refused = self.run(folder, nth, all_later)
        if not was_refused:
            return False
        after = but_part(held(folder))
        told = f"allocation {nth}{' and later' if all_later else ''} refused: ends with {number}, prints {printed!r}"
        if self.command.startswith("batch "):
            if self.is_wrong_batch(number, printed, before, after, wanted):
                self.wrong(told)
            self.numbers[number] = self.numbers.get(number, 0) + 1
            return True
        if number == 40 and (printed or after != before):
            self.wrong(told)
        elif number in FAULTS and (printed != FAULTS[number] or after != before):
            self.wrong(told)
        elif number == 32 and after != wanted[2]:
            self.wrong(told)
        elif number not in (30, 31, 32, 40) and (number, printed, after) != wanted:
            self.wrong(told)
        self.numbers[number] = self.numbers.get(number, 0) + 1
        if number in (30, 31, 40):
            number, printed, _ = self.run(folder, 0, False)
            if (number, printed, but_part(held(folder))) != wanted:
                self.wrong(f"after {told}: the same command ends with {number}, prints {printed!r}")
        return True

    def is_wrong_batch(self, number, printed, before, after, wanted):
        """Whether a batch ended so by no refused allocation."""
        if any(content not in (before.get(name), wanted[2].get(name)) for name, content in after.items()) or before.keys() - after.keys():
            return True
        parts = re.split(rb"(?m)^(?=disc |batch )", wanted[1])
        if number == 40:
            return printed not in [b"".join(parts[:count]) for count in range(len(parts))]
        if number == 30:
            return printed != FAULTS[30] or after != before
        if number == 29 and printed != wanted[1]:
            return not re.search(rb"(read|write) fault\n", printed) or not re.search(rb"^batch discs 3 failed [123]\n$", printed, re.M)
        return number != 32 and (number, printed, after) != wanted

    def check(self):
        folder = self.fresh()
        number, printed, _ = self.run(folder, 0, False)
        wanted = (number, printed, but_part(held(folder)))
        if number == 40:
            self.wrong("ends with 40 where memory is there")
        count = 0
        for all_later in (False, True):
            nth = 1
            while self.check_one(nth, all_later, wanted):
                nth += 1
            count = max(count, nth - 1)
        if count and 40 not in self.numbers:
            self.wrong("no refusal ends with 40")
        ended = ", ".join(f"{times} with {number}" for number, times in sorted(self.numbers.items()))
        print(f"rip {self.command}: {count} allocations, each refused alone, and with all later ones; ended {ended}")


def main():
    program = str(Path(sys.argv[1]).resolve()) if sys.argv[1:] else str(TOP / "bin" / "rip")
    if not Path(program).exists():
        sys.exit("no program: call scripts/rip once, or name one")
    with tempfile.TemporaryDirectory() as name:
        work = Path(name)
        counter = work / "counter.so"
        subprocess.run(["cc", "-shared", "-fPIC", "-O1", "-o", str(counter), "-x", "c", "-"], input=COUNTER, text=True, check=True)
        files = work / "files"
        files.mkdir()
        make_files(files, program)
        for command in COMMANDS:
            Runs(program, counter, work, files, command).check()


main()
