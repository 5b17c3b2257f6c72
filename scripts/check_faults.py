#!/usr/bin/env python3
"""Runs the program on real files that fail, change, have other names or belong to another run, and sees what stands then.

    check_faults.py [--rounds=200] [--kills=1000] [--only=WORD] [PROGRAM]

PROGRAM is the built program, else the one that `scripts/rip` built. `--only=WORD` runs the cases whose name begins so.
The cases are:

- race: two and four runs at once on one output, 200 rounds each: every success stands over a whole file, and every
  other run tells a fault or that the output exists;
- alias: the output's `.part` is a file that the run reads, by another spelling, a symbolic or a hard link;
- special: a pipe, a device, a socket, a folder, a link that leads nowhere and one that leads to itself under each name;
- names: a file in a folder's place and a folder in a file's, a name below a file, links that lead nowhere;
- change: a rip that is overwritten, cut or replaced while it is read (the program is stopped meanwhile);
- appear: a file, a link or a folder that gets the output's name during the run (held back by `strace`);
- kill: SIGKILL at 1,000 random moments of `register` and `repair`, SIGINT and SIGTERM at 100 each;
- calls: SIGKILL, and a failure, at each system call that the program makes (by `strace`);
- full: a full disk at every stage of writing (a small tmpfs where it can be mounted, and a limit on a file's length);
- shut: a folder that can't be written, and a closed or full output.

After each, every finished file is as before or whole, nothing else is left but the `.part`, and the next run works. What
this machine can't do is skipped with a line that says so. It prints counts, and ends with 1 at the first harm.
"""

import hashlib
import os
import random
import resource
import shutil
import signal
import socket
import stat
import struct
import subprocess
import sys
import tempfile
import time
from pathlib import Path

TOP = Path(__file__).resolve().parent.parent
SECTOR_BYTES = 2_352
SECTORS = 300
LATE_SAMPLES = 17
SECONDS = 20
WHOLE, EXISTS, READ_FAULT, WRITE_FAULT, SINK_FAULT, MISSING = 0, 17, 30, 31, 32, 11
NOBODY = 65_534
REGISTER = ["register", "disc.wav", "out.rpar"]
REPAIR = ["repair", "late.wav", "disc.rpar", "out.wav"]


def harm(text):
    print(f"check_faults: HARM: {text}", flush=True)
    sys.exit(1)


def wav(audio):
    head = b"RIFF" + struct.pack("<I", 36 + len(audio)) + b"WAVEfmt "
    return head + struct.pack("<IHHIIHH", 16, 1, 2, 44_100, 176_400, 4, 16) + b"data" + struct.pack("<I", len(audio)) + audio


def has_digest(record):
    """Whether the last 32 bytes are the SHA-256 of those before."""
    return len(record) > 32 and hashlib.sha256(record[:-32]).digest() == record[-32:]


def tree(folder):
    """What stands in a folder: each name with its kind, and its bytes or where it leads."""
    found = {}
    for path in sorted(folder.rglob("*")):
        name, kind = str(path.relative_to(folder)), path.lstat().st_mode
        if stat.S_ISREG(kind):
            found[name] = path.read_bytes()
        elif stat.S_ISLNK(kind):
            found[name] = "link " + os.readlink(path)
        else:
            found[name] = f"kind {stat.S_IFMT(kind):o}"
    return found


def but_part(found):
    return {name: held for name, held in found.items() if not name.endswith(".part")}


class Bench:
    """The program, a folder of small discs, and what an undisturbed run writes."""

    def __init__(self, program, work, rounds, kills):
        self.work, self.rounds, self.kills = work, rounds, kills
        self.program = work / "rip"
        shutil.copy(program, self.program)
        self.program.chmod(0o755)
        self.chance = random.Random(22)
        self.strace = shutil.which("strace")
        self.files = work / "files"
        self.make_files()
        folder = self.fresh()
        for words in (["register", "disc.wav", "disc.rpar"], ["register", "other.wav", "other.rpar"]):
            if self.run(words, folder)[0] != WHOLE:
                sys.exit("check_faults: the program registers nothing here")
        self.record, self.other_record = (folder / "disc.rpar").read_bytes(), (folder / "other.rpar").read_bytes()
        if not has_digest(self.record) or not has_digest(self.other_record):
            harm("a record's digest isn't that of its bytes")
        (self.files / "disc.rpar").write_bytes(self.record)
        self.seconds = {words[0]: min(self.timed(words) for _ in range(5)) for words in (REGISTER, REPAIR)}

    def timed(self, words):
        """How many seconds an undisturbed run takes."""
        folder = self.fresh()
        begun = time.monotonic()
        if self.run(words, folder)[0] != WHOLE:
            sys.exit(f"check_faults: the program can't {words[0]} here")
        return time.monotonic() - begun

    def make_files(self):
        """A disc, another one of its layout, and a rip of the first that is late and has wrong words."""
        length = SECTORS * SECTOR_BYTES
        audio, other = random.Random(4).randbytes(length), random.Random(5).randbytes(length)
        late = bytes(LATE_SAMPLES * 4) + audio[: -LATE_SAMPLES * 4]
        hurt = bytearray(late)
        for place in (100_000, 100_002, 150_001):
            hurt[place] ^= 1
        (self.files / "store").mkdir(parents=True)
        (self.files / "s").mkdir()
        (self.files / "disc.wav").write_bytes(wav(audio))
        (self.files / "other.wav").write_bytes(wav(other))
        (self.files / "late.wav").write_bytes(wav(bytes(hurt)))
        self.mended = wav(late)

    def fresh(self):
        folder = self.work / "folder"
        shutil.rmtree(folder, ignore_errors=True)
        shutil.copytree(self.files, folder, symlinks=True)
        return folder

    def new_log(self):
        log = self.work / "log"
        log.unlink(missing_ok=True)
        return log

    def start(self, words, folder, before=(), **how):
        how.setdefault("stdout", subprocess.PIPE)
        how.setdefault("stderr", subprocess.PIPE)
        return subprocess.Popen([*before, str(self.program), *words], cwd=folder, stdin=subprocess.DEVNULL, **how)

    def end(self, running, told):
        """The number, the text and the lines of standard error of a run that ends."""
        try:
            text, lines = running.communicate(timeout=SECONDS)
        except subprocess.TimeoutExpired:
            running.kill()
            running.communicate()
            harm(f"{told} doesn't end")
        return running.returncode, (text or b"").decode(), (lines or b"").decode()

    def wait(self, words):
        """A random moment of a run."""
        time.sleep(self.chance.random() * self.seconds[words[0]])

    def run(self, words, folder, **how):
        return self.end(self.start(words, folder, **how), " ".join(words))

    def wanted(self, words):
        """The output's name in a folder, and the bytes of a whole one."""
        return (words[-1], self.record) if words[0] == "register" else (words[-1], self.mended)

    def see_next(self, words, folder, told):
        """The output stands whole or not at all, nothing else but a part was left, and the same command works then."""
        name, whole = self.wanted(words)
        found = but_part(tree(folder))
        if found.get(name, whole) != whole:
            harm(f"{told}: {name} isn't whole")
        if {key: held for key, held in found.items() if key != name} != but_part(tree(self.files)):
            harm(f"{told}: another file changed")
        stood = name in found
        number, text, lines = self.run(words, folder)
        if number != (EXISTS if stood else WHOLE):
            harm(f"{told}: the next run ends with {number}, {text!r} {lines!r}")
        if (folder / name).read_bytes() != whole:
            harm(f"{told}: {name} isn't whole after the next run")
        return stood


def race(bench):
    """Several runs at once on one output."""
    name = bench.run(["sums", "disc.wav"], bench.fresh())[1]
    key = [line[4:] for line in name.splitlines() if line.startswith("key ")][0]
    stored = f"store/{key}.rpar"
    first, second = ["register", "disc.wav", "store/"], ["register", "other.wav", "store/"]
    for told, runs, output in (
        ("two register one disc", [first] * 2, stored),
        ("four register one disc", [first] * 4, stored),
        ("two register two discs of one key", [first, second], stored),
        ("two repair to one file", [REPAIR] * 2, "out.wav"),
        ("four repair to one file", [REPAIR] * 4, "out.wav"),
    ):
        numbers = {}
        for _ in range(bench.rounds):
            folder = bench.fresh()
            running = [bench.start(words, folder) for words in runs]
            ended = [bench.end(one, told)[0] for one in running]
            for number in ended:
                numbers[number] = numbers.get(number, 0) + 1
            if ended.count(WHOLE) > 1 or any(number not in (WHOLE, EXISTS, WRITE_FAULT) for number in ended):
                harm(f"{told}: they end with {ended}")
            won = [words for words, number in zip(runs, ended) if number == WHOLE]
            whole = {"disc.wav": bench.record, "other.wav": bench.other_record, "late.wav": bench.mended}
            found = but_part(tree(folder))
            rest = {key: held for key, held in found.items() if key != output}
            if rest != but_part(tree(bench.files)):
                harm(f"{told}: another file changed")
            if (found.get(output) != whole[won[0][1]]) if won else (output in found):
                harm(f"{told}: they end with {ended} over a file that isn't whole")
            if bench.run(runs[0], folder)[0] != (EXISTS if won else WHOLE):
                harm(f"{told}: the next run doesn't work")
        counts = ", ".join(f"{times} with {number}" for number, times in sorted(numbers.items()))
        print(f"race: {told}: {bench.rounds} rounds; ended {counts}")


def alias(bench):
    """A part that the run reads by another spelling or link."""

    def copied(name, to):
        return lambda folder: shutil.copy(folder / name, folder / to)

    def linked(name, to, how):
        return lambda folder: how(folder / name if how is os.link else name, folder / to)

    def sheet(folder):
        shutil.copy(folder / "late.wav", folder / "s" / "o.wav.part")
        (folder / "s" / "x.cue").write_text('FILE "o.wav.part" WAVE\nTRACK 01 AUDIO\nINDEX 01 00:00:00\n')

    def in_folder(folder):
        copied("late.wav", "o.wav.part")(folder)
        os.symlink(".", folder / "here")

    repair, here = ["disc.rpar", "o.wav"], str(bench.work / "folder")
    cases = [
        ("plain spelling", copied("late.wav", "o.wav.part"), ["repair", "o.wav.part", *repair]),
        ("./ before the input", copied("late.wav", "o.wav.part"), ["repair", "./o.wav.part", *repair]),
        ("./ before the output", copied("late.wav", "o.wav.part"), ["repair", "o.wav.part", "disc.rpar", "./o.wav"]),
        ("absolute path", copied("late.wav", "o.wav.part"), ["repair", here + "/o.wav.part", *repair]),
        ("by a linked folder", in_folder, ["repair", "here/o.wav.part", *repair]),
        ("by a sheet", sheet, ["repair", "s/x.cue", "disc.rpar", "s/../s/o.wav"]),
        ("symbolic link to the rip", linked("late.wav", "o.wav.part", os.symlink), ["repair", "late.wav", *repair]),
        ("hard link to the rip", linked("late.wav", "o.wav.part", os.link), ["repair", "late.wav", *repair]),
        ("symbolic link to the record", linked("disc.rpar", "o.wav.part", os.symlink), ["repair", "late.wav", *repair]),
        ("hard link to the record", linked("disc.rpar", "o.wav.part", os.link), ["repair", "late.wav", *repair]),
        ("hard link to another file", linked("other.wav", "o.wav.part", os.link), ["repair", "late.wav", *repair]),
        ("link that leads nowhere", linked("s/none", "o.wav.part", os.symlink), ["repair", "late.wav", *repair]),
        ("rip that is the record's part", copied("disc.wav", "o.rpar.part"), ["register", "./o.rpar.part", "o.rpar"]),
        ("link to the rip as the record's part", linked("disc.wav", "o.rpar.part", os.symlink), ["register", "disc.wav", "o.rpar"]),
    ]
    for told, prepare, words in cases:
        folder = bench.fresh()
        prepare(folder)
        before = tree(folder)
        number, _, lines = bench.run(words, folder)
        if number not in (EXISTS, WRITE_FAULT) or (number == WRITE_FAULT and not lines.startswith("rip: ")):
            harm(f"alias, {told}: ends with {number}, {lines!r}")
        if tree(folder) != before:
            harm(f"alias, {told}: something changed")
    print(f"alias: {len(cases)} spellings and links; nothing changed")


def special_files(folder):
    """Ways to put something that is no plain file under a name, each with whether the machine can."""

    def bound(path):
        one = socket.socket(socket.AF_UNIX)
        one.bind(str(path))
        one.close()

    return {
        "pipe": os.mkfifo,
        "link to a pipe": lambda path: (os.mkfifo(folder / "pipe"), os.symlink("pipe" if path.parent == folder else "../pipe", path)),
        "device": lambda path: os.mknod(path, stat.S_IFCHR | 0o666, os.makedev(1, 3)),
        "link to a device": lambda path: os.symlink("/dev/null", path),
        "socket": bound,
        "folder": os.mkdir,
        "link that leads nowhere": lambda path: os.symlink("nowhere", path),
        "link to itself": lambda path: os.symlink(path.name, path),
    }


def special(bench):
    """What is no plain file, under each name."""
    commands = [
        (REGISTER, ["disc.wav", "out.rpar", "out.rpar.part"]),
        (REPAIR, ["late.wav", "disc.rpar", "out.wav", "out.wav.part"]),
        (["verify", "late.wav", "disc.rpar"], ["late.wav", "disc.rpar"]),
        (["sums", "disc.wav"], ["disc.wav"]),
    ]
    count, slowest, skipped = 0, 0.0, set()
    for words, names in commands:
        for name in names:
            for kind in special_files(bench.work):
                folder = bench.fresh()
                (folder / name).unlink(missing_ok=True)
                try:
                    special_files(folder)[kind](folder / name)
                except OSError as error:
                    skipped.add(f"{kind} ({error.strerror})")
                    continue
                before = tree(folder)
                begun = time.monotonic()
                number, text, _ = bench.run(words, folder)
                slowest = max(slowest, time.monotonic() - begun)
                told = f"special, {kind} as {name} of {words[0]}"
                if number not in (MISSING, 15, EXISTS, READ_FAULT, WRITE_FAULT):
                    harm(f"{told}: ends with {number}, {text!r}")
                if but_part(tree(folder)) != but_part(before) or (name.endswith(".part") and tree(folder) != before):
                    harm(f"{told}: something changed")
                count += 1
    if skipped:
        print(f"special: skipped, since this machine makes none: {', '.join(sorted(skipped))}")
    print(f"special: {count} cases, the slowest in {slowest:.2f} s; nothing changed")
    if slowest > 1:
        harm("special: one took more than a second")


def names(bench):
    """Names that no file can have, or another kind than is wanted."""
    cases = [
        (["register", "disc.wav", "store"], EXISTS, "exists store\n"),
        (["register", "disc.wav", "none/"], WRITE_FAULT, "write fault\n"),
        (["register", "disc.wav", "disc.wav/"], WRITE_FAULT, "write fault\n"),
        (["register", "disc.wav", "disc.wav/x.rpar"], WRITE_FAULT, "write fault\n"),
        (["register", "disc.wav", "x" * 251], WRITE_FAULT, "write fault\n"),
        (["register", "disc.wav/x", "new.rpar"], MISSING, "missing disc.wav/x\n"),
        (["register", "x" * 300, "new.rpar"], MISSING, f"missing {'x' * 300}\n"),
        (["register", "store", "new.rpar"], READ_FAULT, "read fault\n"),
        (["register", "gone.wav", "new.rpar"], MISSING, "missing gone.wav\n"),
        (["register", "zero.cue", "new.rpar"], MISSING, "missing zero\0.wav\n"),
        (["verify", "disc.wav", "store"], READ_FAULT, "read fault\n"),
        (["verify", "disc.wav", "disc.rpar/x"], 15, "no record disc.rpar/x\n"),
        (["repair", "late.wav", "disc.rpar", "store"], EXISTS, "exists store\n"),
        (["repair", "late.wav", "disc.rpar", "gone.wav"], WRITE_FAULT, "write fault\n"),
    ]
    for words, number, text in cases:
        folder = bench.fresh()
        os.symlink("nowhere", folder / "gone.wav")
        (folder / "zero.cue").write_bytes(b'FILE "zero\0.wav" WAVE\nTRACK 01 AUDIO\nINDEX 01 00:00:00\n')
        before = but_part(tree(folder))
        ended = bench.run(words, folder)
        if ended[:2] != (number, text):
            harm(f"names: rip {' '.join(words)} ends with {ended[0]}, {ended[1]!r}, wanted {number}, {text!r}")
        if (number in (READ_FAULT, WRITE_FAULT)) != (ended[2].startswith("rip: ") and ended[2].count("\n") == 1):
            harm(f"names: rip {' '.join(words)} tells {ended[2]!r}")
        if but_part(tree(folder)) != before:
            harm(f"names: rip {' '.join(words)} changed something")
    print(f"names: {len(cases)} cases; each ended as it has to, nothing changed")


def overwrite(path):
    with path.open("r+b") as rip:
        rip.seek(60_000)
        rip.write(bytes(100_000))


def cut(path):
    os.truncate(path, 90_000)


def replace(path):
    new = path.with_name("new.wav")
    new.write_bytes(wav(bytes(SECTORS * SECTOR_BYTES)))
    os.replace(new, path)


def change(bench):
    """A rip that changes while it is read: no output is of both."""
    for words, rip in ((REGISTER, "disc.wav"), (REPAIR, "late.wav")):
        name, whole = bench.wanted(words)
        for told, how in (("overwritten", overwrite), ("cut", cut), ("replaced", replace)):
            numbers = {}
            folder = bench.fresh()
            how(folder / rip)
            changed = bench.run(words, folder)[0]
            whole_changed = (folder / name).read_bytes() if changed == WHOLE else None
            for _ in range(max(bench.rounds // 2, 1)):
                folder = bench.fresh()
                running = bench.start(words, folder)
                bench.wait(words)
                running.send_signal(signal.SIGSTOP)
                how(folder / rip)
                running.send_signal(signal.SIGCONT)
                number = bench.end(running, f"change, {told}")[0]
                numbers[number] = numbers.get(number, 0) + 1
                stands = (folder / name).read_bytes() if (folder / name).exists() else None
                if number == WHOLE and stands not in (whole, whole_changed):
                    harm(f"change, {rip} {told}: success over an output of neither content")
                if number != WHOLE and stands is not None:
                    harm(f"change, {rip} {told}: ends with {number}, and {name} stands")
                if number not in (WHOLE, changed, READ_FAULT, WRITE_FAULT):
                    harm(f"change, {rip} {told}: ends with {number}")
            counts = ", ".join(f"{times} with {number}" for number, times in sorted(numbers.items()))
            print(f"change: {words[0]}, {rip} {told}: ended {counts}")
    if not bench.strace:
        print("change: skipped at each read, since strace isn't installed")
        return
    change_at_reads(bench)


def change_at_reads(bench):
    """The same with each read of the second reading held back in turn."""
    reads = 0
    for nth in range(1, 60):
        folder = bench.fresh()
        log = bench.new_log()
        held = [bench.strace, "-f", "-o", str(log), "-e", "trace=pread64", "-e", f"inject=pread64:delay_enter=150000:when={nth}"]
        running = bench.start(REPAIR, folder, before=held)
        wait_for(lambda: log.exists() and log.read_text().count("pread64(") >= nth, running)
        if running.poll() is None:
            overwrite(folder / "late.wav")
        number = bench.end(running, "change at a read")[0]
        lines = log.read_text().count("pread64(")
        if lines < nth:
            break
        reads += 1
        stands = (folder / "out.wav").read_bytes() if (folder / "out.wav").exists() else None
        if number == WHOLE and stands != bench.mended:
            harm(f"change at read {nth}: success over an output of both contents")
        if number != WHOLE and stands is not None:
            harm(f"change at read {nth}: ends with {number}, and out.wav stands")
    print(f"change: the rip overwritten at each of {reads} reads of repair; no output is of both contents")


def wait_for(holds, running):
    until = time.monotonic() + SECONDS
    while not holds() and running.poll() is None and time.monotonic() < until:
        time.sleep(0.002)


def appear(bench):
    """An output that appears during the run isn't replaced."""
    if not bench.strace:
        print("appear: skipped, since strace isn't installed")
        return
    kinds = {
        "file": lambda path: path.write_bytes(b"precious"),
        "link that leads nowhere": lambda path: os.symlink("nowhere", path),
        "folder": os.mkdir,
    }
    count = 0
    for words in (REGISTER, REPAIR):
        for kind, make in kinds.items():
            for call in ("fsync", "linkat,link", "rename,renameat,renameat2"):
                folder = bench.fresh()
                log = bench.new_log()
                held = [bench.strace, "-f", "-o", str(log), "-e", f"trace={call}", "-e", f"inject={call}:delay_enter=150000"]
                running = bench.start(words, folder, before=held)
                wait_for(lambda: log.exists() and "(" in log.read_text(), running)
                output = folder / words[-1]
                if running.poll() is not None:
                    bench.end(running, "appear")
                    continue
                try:
                    make(output)
                except FileExistsError:
                    bench.end(running, "appear")
                    continue
                before = but_part(tree(folder))
                number, _, lines = bench.end(running, "appear")
                told = f"appear, {kind} at {call} of {words[0]}"
                if number != WRITE_FAULT or not lines.startswith("rip: "):
                    harm(f"{told}: ends with {number}, {lines!r}")
                if but_part(tree(folder)) != before:
                    harm(f"{told}: it was replaced")
                count += 1
    print(f"appear: {count} cases; none was replaced")


def kill(bench):
    """A signal at random moments, which counts where it ended the run."""
    for signed, times in ((signal.SIGKILL, bench.kills), (signal.SIGINT, bench.kills // 10), (signal.SIGTERM, bench.kills // 10)):
        counts = {"the output whole": 0, "a part alone": 0, "nothing": 0}
        runs = 0
        while sum(counts.values()) < times and runs < 10 * times:
            words = (REGISTER, REPAIR)[runs % 2]
            runs += 1
            folder = bench.fresh()
            running = bench.start(words, folder)
            bench.wait(words)
            running.send_signal(signed)
            number = bench.end(running, "a killed run")[0]
            has_part = (folder / (words[-1] + ".part")).exists()
            stood = bench.see_next(words, folder, f"kill, {signed.name} in {words[0]}")
            if number == -signed:
                counts["the output whole" if stood else "a part alone" if has_part else "nothing"] += 1
        left = ", ".join(f"{many} {what}" for what, many in counts.items())
        print(f"kill: {signed.name} ended {sum(counts.values())} of {runs} runs and left {left}; the next run worked")


def calls_of(bench, words):
    """How often an undisturbed run makes each system call."""
    log = bench.new_log()
    bench.end(bench.start(words, bench.fresh(), before=[bench.strace, "-o", str(log)]), "strace")
    counts = {}
    for line in log.read_text().splitlines():
        call = line.split("(")[0]
        if "(" in line and call.isidentifier() and call not in ("execve", "exit_group"):
            counts[call] = counts.get(call, 0) + 1
    return counts


def calls(bench):
    """SIGKILL and failures at each system call."""
    if not bench.strace:
        print("calls: skipped, since strace isn't installed")
        return
    failing = {"write": ["ENOSPC", "EIO"], "fsync": ["EIO", "ENOSPC"], "openat": ["EACCES", "EIO"], "flock": ["ENOLCK"], "ftruncate": ["EIO"]}
    failing |= {"link": ["EPERM", "EIO"], "unlink": ["EIO"], "rename": ["EIO"], "pread64": ["EIO"], "statx": ["EIO", "EACCES"]}
    for words in (REGISTER, REPAIR):
        killed, failed, numbers = 0, 0, {}
        for call, times in calls_of(bench, words).items():
            for nth in range(1, times + 1):
                for what in ["signal=KILL"] + [f"error={code}" for code in failing.get(call, [])]:
                    folder = bench.fresh()
                    held = [bench.strace, "-o", "/dev/null", "-e", f"trace={call}", "-e", f"inject={call}:{what}:when={nth}"]
                    number = bench.end(bench.start(words, folder, before=held), f"{what} at {call} {nth}")[0]
                    told = f"calls, {what} at {call} {nth} of {words[0]}"
                    stood = bench.see_next(words, folder, told)
                    if number == WHOLE and not stood:
                        harm(f"{told}: success without an output")
                    if what == "signal=KILL":
                        killed += 1
                    else:
                        failed += 1
                        numbers[number] = numbers.get(number, 0) + 1
        counts = ", ".join(f"{times} with {number}" for number, times in sorted(numbers.items()))
        print(f"calls: {words[0]}: killed at {killed} calls, {failed} failing calls ended {counts}; the next run worked")


def full(bench):
    """A full disk at every stage of writing."""
    for words in (REGISTER, REPAIR):
        name, whole = bench.wanted(words)
        numbers = {}
        for limit in [*range(0, len(whole), 8_191), len(whole) - 1, len(whole)]:
            folder = bench.fresh()

            def narrow(limit=limit):
                signal.signal(signal.SIGXFSZ, signal.SIG_IGN)
                resource.setrlimit(resource.RLIMIT_FSIZE, (limit, limit))

            number = bench.run(words, folder, preexec_fn=narrow)[0]
            if number != (WHOLE if limit >= len(whole) else WRITE_FAULT):
                harm(f"full: {words[0]} with files of at most {limit} bytes ends with {number}")
            bench.see_next(words, folder, f"full, limit {limit}")
            numbers[number] = numbers.get(number, 0) + 1
        counts = ", ".join(f"{times} with {number}" for number, times in sorted(numbers.items()))
        print(f"full: {words[0]} under a limit of each length: ended {counts}; the next run worked")
    small = bench.work / "small"
    small.mkdir(exist_ok=True)
    try:
        for words in (REGISTER, REPAIR):
            full_disk(bench, small, words)
    except (subprocess.CalledProcessError, FileNotFoundError):
        print("full: skipped on a small tmpfs, since none can be mounted here")


def full_disk(bench, small, words):
    name, whole = bench.wanted(words)
    files, numbers = bench.fresh(), {}
    inputs = [str(files / word) for word in words[1:-1]]
    for pages in range(1, len(whole) // 4_096 + 3):
        size = pages * 4_096
        subprocess.run(["mount", "-t", "tmpfs", "-o", f"size={size}", "tmpfs", str(small)], check=True, capture_output=True)
        try:
            command = [words[0], *inputs, name]
            number, _, lines = bench.run(command, small)
            numbers[number] = numbers.get(number, 0) + 1
            stands = (small / name).read_bytes() if (small / name).exists() else None
            if number not in (WHOLE, WRITE_FAULT) or (number == WHOLE) != (stands == whole) or (number != WHOLE and stands is not None):
                harm(f"full disk of {size} bytes: {words[0]} ends with {number}, {lines!r}")
            if number == WRITE_FAULT:
                subprocess.run(["mount", "-o", f"remount,size={8 * len(whole)}", str(small)], check=True, capture_output=True)
                if bench.run(command, small)[0] != WHOLE or (small / name).read_bytes() != whole:
                    harm(f"full disk of {size} bytes: the next run of {words[0]} doesn't work")
        finally:
            subprocess.run(["umount", str(small)], check=False, capture_output=True)
    counts = ", ".join(f"{times} with {number}" for number, times in sorted(numbers.items()))
    print(f"full: {words[0]} on a disk of each size up to the output's: ended {counts}; the next run worked")


def shut(bench):
    """A folder that can't be written, and a closed or full output."""
    bench.work.chmod(0o755)
    for words in (REGISTER, REPAIR):
        folder = bench.fresh()
        folder.chmod(0o555)
        before = tree(folder)

        def drop():
            if os.getuid() == 0:
                os.setgroups([])
                os.setgid(NOBODY)
                os.setuid(NOBODY)

        number, _, lines = bench.run(words, folder, preexec_fn=drop)
        folder.chmod(0o755)
        if number != WRITE_FAULT or lines != f"rip: {words[-1]}.part: Permission denied\n":
            harm(f"shut: {words[0]} in a folder that can't be written ends with {number}, {lines!r}")
        if tree(folder) != before:
            harm(f"shut: {words[0]} in a folder that can't be written changed something")
        bench.see_next(words, folder, "shut")
    outputs = {
        "closed": {"preexec_fn": lambda: os.close(1), "stdout": None},
        "closed with standard error": {"preexec_fn": lambda: (os.close(1), os.close(2)), "stdout": None, "stderr": None},
        "all closed": {"preexec_fn": lambda: (os.close(0), os.close(1), os.close(2)), "stdout": None, "stderr": None},
    }
    if os.path.exists("/dev/full"):
        outputs["full"] = {"stdout": os.open("/dev/full", os.O_WRONLY)}
    for told, how in outputs.items():
        for words in (REGISTER, REPAIR):
            folder = bench.fresh()
            number = bench.run(words, folder, **how)[0]
            if number != SINK_FAULT:
                harm(f"shut: {words[0]} with an output that is {told} ends with {number}")
            if not bench.see_next(words, folder, f"shut, output {told}"):
                harm(f"shut: {words[0]} with an output that is {told} wrote nothing")
            folder = bench.fresh()
            os.mkdir(folder / (words[-1] + ".part"))
            before = tree(folder)
            if bench.run(words, folder, **how)[0] != SINK_FAULT or tree(folder) != before:
                harm(f"shut: a write fault of {words[0]} with an output that is {told}")
    print(f"shut: a folder that can't be written, and {len(outputs)} outputs that take nothing; nothing was lost")


CASES = [race, alias, special, names, change, appear, kill, calls, full, shut]


def main():
    rounds, kills, only, program = 200, 1_000, "", None
    for word in sys.argv[1:]:
        if word.startswith("--rounds="):
            rounds = int(word[len("--rounds=") :])
        elif word.startswith("--kills="):
            kills = int(word[len("--kills=") :])
        elif word.startswith("--only="):
            only = word[len("--only=") :]
        elif word.startswith("-") or program:
            sys.exit(__doc__)
        else:
            program = Path(word).resolve()
    program = program or TOP / "bin" / "rip"
    if not program.exists():
        sys.exit("no program: call scripts/rip once, or name one")
    with tempfile.TemporaryDirectory(prefix="check_faults_") as name:
        bench = Bench(program, Path(name), rounds, kills)
        for case in CASES:
            if case.__name__.startswith(only):
                begun = time.monotonic()
                case(bench)
                print(f"{case.__name__}: in {time.monotonic() - begun:.0f} s", flush=True)
    print("check_faults: no harm")


main()
