#!/usr/bin/env python3
"""Times each command on a made disc of 95,312 sectors (21 minutes, 224 MB), with the other programs that do the same work
beside it, in one table: par2, shntool, whipper, sha256sum and cp, where they are there.

    scripts/bench.py [PROGRAM]           that program, else the one that `scripts/rip` built
    scripts/bench.py --parity [PROGRAM]  each number of parity words and each kind of damage too
    scripts/bench.py --long [PROGRAM]    a scratch at the start and one at the end of a disc of 74 minutes too
    scripts/bench.py --silence [PROGRAM] all offsets of 200 silent sectors, 30 of them damaged, too

Each line is the best of three: the number that the program ended with, seconds of processor time and of the clock, MB of
audio (or of records) for a second of processor time, and peak memory in MB. The line of another program stands below the
command that it is compared with, and ends with the ratio: rip's seconds for one of its own. It ends with 1 where a mended
file isn't the original, or a program ended otherwise than it should. Needs 3 GB of room in the folder for temporary files,
6 GB with --long.
"""

import hashlib
import os
import random
import shutil
import struct
import subprocess
import sys
import tempfile
from pathlib import Path

import bench_stores as stores

SECTORS = 95_312
LONG = 333_000
SECTOR_BYTES = 2_352
STRIDE = 11_760
LATE = 667
HITS = 200
TIMES = 3
TRACKS = 10
RECORDS = 200
BATCH = 4
# So many sectors in a row, all wrong, have no more wrong words in a column than the parity words mend.
SCRATCH = {4: 15, 8: 35, 16: 75, 32: 155}

failed = False


def wav(path, words):
    head = b"RIFF" + struct.pack("<I", 36 + len(words)) + b"WAVEfmt "
    head += struct.pack("<IHHIIHH", 16, 1, 2, 44_100, 176_400, 4, 16) + b"data" + struct.pack("<I", len(words))
    path.write_bytes(head + words)


def complain(text):
    global failed
    failed = True
    print(f"  {text}")


def once(words, folder):
    """Runs a program, and answers what it took, by GNU time, whose own memory is small."""
    told = folder / "told"
    with open(folder / "text", "w") as text:
        subprocess.run(["/usr/bin/time", "-o", told, "-f", "%U %S %e %M %x", *words], cwd=folder, stdout=text, stderr=text, check=False)
    user, system, clock, memory, number = told.read_text().splitlines()[-1].split()
    return float(user) + float(system), float(clock), int(memory) / 1024, int(number)


def best(name, words, folder, audio, wanted=0, before=None, after=None, rip=None):
    """Prints the best of three runs; `before` makes each run's files, and `after` looks at what it left. Where it is another
    program that runs, `rip` is the seconds of the command beside it."""
    if shutil.which(words[0]) is None:
        print(f"{name:46} isn't installed")
        return 0.0
    runs = []
    for _ in range(TIMES):
        if before:
            before()
        runs.append(once(words, folder))
        if after:
            after()
    used, clock, memory, number = min(runs)
    ratio = f"{rip / max(used, 0.01):8.2f}" if rip else ""
    print(f"{name:46} {number:>3} {used:8.2f} {clock:8.2f} {audio / 1e6 / max(used, 0.01):8.0f} {memory:8.1f}{ratio}", flush=True)
    if any(run[3] != wanted for run in runs):
        complain(f"ended otherwise than with {wanted}")
    return used


def first_version(record):
    """The same record without its seal."""
    body = b"RIPPAR01" + record[8:-64]
    return body + hashlib.sha256(body).digest()


def late(disc):
    return bytes(4 * LATE) + disc[: -4 * LATE]


def struck(words, chance, hits):
    """Words that lie in columns at the offset LATE, so many of them flipped, no two in one column and place."""
    rip = bytearray(words)
    first, last = STRIDE + 2 * LATE, len(words) // 2 - 4 * STRIDE
    for place in chance.sample(range(first, last), hits):
        rip[2 * place] ^= 0x55
    return bytes(rip)


def scratched(words, chance, first, sectors):
    rip = bytearray(words)
    at, size = first * SECTOR_BYTES, sectors * SECTOR_BYTES
    rip[at : at + size] = chance.randbytes(size)
    return bytes(rip)


def scattered(words, chance, parity):
    """In each column as many wrong words as it can mend, at places by chance."""
    rip = bytearray(words)
    column = len(words) // 2 // STRIDE - 2
    for j in range(STRIDE):
        for k in chance.sample(range(column), parity // 2):
            rip[2 * (STRIDE + 2 * LATE + k * STRIDE + j)] ^= 0x55
    return bytes(rip)


def mended(folder, program, rec, rip, original, name, audio):
    """`verify` and `repair` of a damaged rip, and the seconds of both."""
    verify = best(f"  verify {name}", [program, "verify", rip, rec], folder, audio, 23)
    out, right = folder / "out.wav", (folder / original).read_bytes()

    def look():
        if not out.exists() or out.read_bytes() != right:
            complain("the mended file isn't the original")

    repair = best(f"  repair {name}", [program, "repair", rip, rec, "out.wav"], folder, audio, 0, lambda: out.unlink(missing_ok=True), look)
    out.unlink(missing_ok=True)
    return verify, repair


def make_disc(folder):
    """The disc, the same late, and that with wrong words or a scratch."""
    chance = random.Random(11)
    disc = chance.randbytes(SECTORS * SECTOR_BYTES)
    wav(folder / "disc.wav", disc)
    wav(folder / "late.wav", late(disc))
    wav(folder / "words.wav", struck(late(disc), chance, HITS))
    wav(folder / "scratch.wav", scratched(late(disc), chance, SECTORS // 2, SCRATCH[8]))
    return disc


def gone(folder, pattern):
    """What removes the files of a pattern."""

    def remove():
        for old in folder.glob(pattern):
            old.unlink()

    return remove


def parity_beside(program, folder, disc):
    """`register`, `verify` and `repair`, and par2 on the same file: as much parity, in blocks of one word for each column."""
    audio, quiet = len(disc), ["-q", "-q", "-t1"]
    peer = folder / "par2"
    peer.mkdir()
    wav(peer / "disc.wav", disc)
    took = best("register", [program, "register", "disc.wav", "8.rpar"], folder, audio, 0, gone(folder, "8.rpar"))
    best("    par2 create, 8 blocks of 23,520 bytes", ["par2", "create", *quiet, "-s23520", "-c8", "disc.par2", "disc.wav"], peer, audio, 0, gone(peer, "disc*.par2"), rip=took)
    best("    sha256sum", ["sha256sum", "disc.wav"], folder, audio, rip=took)
    took = best("verify the same file", [program, "verify", "disc.wav", "8.rpar"], folder, audio)
    best("    par2 verify", ["par2", "verify", *quiet, "disc.par2"], peer, audio, rip=took)
    best("    sha256sum", ["sha256sum", "disc.wav"], folder, audio, rip=took)
    print(f"late by {LATE} samples, with damage:")
    mended(folder, program, "8.rpar", "words.wav", "late.wav", f"{HITS} wrong words", audio)
    verify, repair = mended(folder, program, "8.rpar", "scratch.wav", "late.wav", f"{SCRATCH[8]} sectors in a row", audio)
    damaged = scratched(disc, random.Random(12), SECTORS // 2, SCRATCH[8])

    def damage():
        wav(peer / "disc.wav", damaged)
        gone(peer, "disc.wav.*")()

    best("    par2 verify, the scratch, not late", ["par2", "verify", *quiet, "disc.par2"], peer, audio, 1, damage, rip=verify)
    best("    par2 repair, the scratch, not late", ["par2", "repair", *quiet, "disc.par2"], peer, audio, 0, damage, rip=repair)
    if shutil.which("par2") and (peer / "disc.wav").read_bytes()[44:] != disc:
        complain("par2: the mended file isn't the original")
    shutil.rmtree(peer)
    best("  offsets of the scratch", [program, "offsets", "scratch.wav", "8.rpar"], folder, audio)


def batch_beside(program, folder, audio):
    """A batch that verifies the file some times, and so many runs."""
    (folder / "list.toml").write_text('[[disc]]\nwords = ["verify", "disc.wav", "8.rpar"]\n' * BATCH)
    took = best(f"batch, {BATCH} times verify", [program, "batch", "list.toml"], folder, BATCH * audio)
    runs = "\n".join([f"'{program}' verify disc.wav 8.rpar"] * BATCH)
    best(f"    {BATCH} runs of rip", ["sh", "-c", runs], folder, BATCH * audio, rip=took)


def upgrade_alone(program, folder, audio):
    sealed = (folder / "8.rpar").read_bytes()

    def old():
        (folder / "old.rpar").write_bytes(first_version(sealed))

    def look():
        if (folder / "old.rpar").read_bytes() != sealed:
            complain("the record isn't that of the disc")

    best("upgrade", [program, "upgrade", "disc.wav", "old.rpar"], folder, audio, 0, old, look)


def sums_beside(program, folder, audio):
    """`sums` and `match`, and whipper's sums of the same track."""
    took = best("sums", [program, "sums", "disc.wav"], folder, audio)
    best("    accuraterip-checksum (whipper)", ["accuraterip-checksum", "disc.wav", "1", "1"], folder, audio, rip=took)
    make_response(folder, program)
    took = best("match, at 0 and at one other offset", [program, "match", "disc.wav", "response"], folder, audio)
    best("    accuraterip-checksum (whipper), at 0 alone", ["accuraterip-checksum", "disc.wav", "1", "1"], folder, audio, rip=took)


def tracks_beside(program, folder, audio):
    """`split` and `join`, and shntool's on the same tracks."""
    sheet, each = 'FILE "disc.wav" WAVE\n', SECTORS // TRACKS
    for track in range(TRACKS):
        minutes, rest = divmod(track * each, 75 * 60)
        sheet += f"  TRACK {track + 1:02} AUDIO\n    INDEX 01 {minutes:02}:{rest // 75:02}:{rest % 75:02}\n"
    (folder / "disc.cue").write_text(sheet)
    own, peer = folder / "own", folder / "peer"

    def anew(*folders):
        def make():
            for made in folders:
                shutil.rmtree(made, ignore_errors=True)
                made.mkdir()

        return make

    anew(own, peer)()
    took = best(f"split into {TRACKS} tracks", [program, "split", "disc.cue", "own/"], folder, audio, 0, anew(own))
    best("    shnsplit", ["shnsplit", "-q", "-O", "always", "-d", "peer", "-f", "disc.cue", "disc.wav"], folder, audio, 0, anew(peer), rip=took)
    sheets = list(own.glob("*.cue"))
    took = best("join them again", [program, "join", f"own/{sheets[0].name}", "joined.wav"], folder, audio, 0, gone(folder, "joined*"))
    if (folder / "joined.wav").read_bytes() != (folder / "disc.wav").read_bytes():
        complain("the joined file isn't the disc")
    tracks = sorted(f"own/{track.name}" for track in own.glob("*.wav"))
    best("    shnjoin", ["shnjoin", "-q", "-O", "always", "-a", "peer/joined", *tracks], folder, audio, rip=took)
    for made in (own, peer):
        shutil.rmtree(made)
    gone(folder, "joined*")()


def stores_beside(program, folder):
    """`list`, `check` and `merge` of a store, and what reads or copies the same files."""
    stores.make_store(folder / "A", range(RECORDS))
    names = sorted(f"A/{record.name}" for record in (folder / "A").iterdir())
    size = sum((folder / name).stat().st_size for name in names)

    def empty():
        shutil.rmtree(folder / "B", ignore_errors=True)
        (folder / "B").mkdir()

    for command in ("list", "check"):
        took = best(f"{command}, {RECORDS} records", [program, command, "A/"], folder, size)
        best("    sha256sum of them", ["sha256sum", *names], folder, size, rip=took)
    took = best(f"merge, {RECORDS} records into an empty store", [program, "merge", "A/", "B/"], folder, size, 0, empty)
    best("    cp -n of them", ["cp", "-n", *names, "B/"], folder, size, 0, empty, rip=took)


def each_parity(program, folder):
    """Each number of parity words, and each kind of damage."""
    chance = random.Random(15)
    disc = (folder / "disc.wav").read_bytes()[44:]
    audio = len(disc)
    for parity in [4, 8, 16, 32]:
        rec = f"{parity}.rpar"
        best(f"register, {parity} parity words", [program, "register", "disc.wav", rec, f"--npar={parity}"], folder, audio, 0, gone(folder, rec))
        wav(folder / "scratch.wav", scratched(late(disc), chance, SECTORS // 2, SCRATCH[parity]))
        wav(folder / "scatter.wav", scattered(late(disc), chance, parity))
        kinds = [("words.wav", f"{HITS} wrong words"), ("scratch.wav", f"{SCRATCH[parity]} sectors in a row"), ("scatter.wav", f"{parity // 2} words of each column")]
        best("  verify the same file", [program, "verify", "disc.wav", rec], folder, audio)
        for rip, name in kinds:
            mended(folder, program, rec, rip, "late.wav", name, audio)
        best("  verify at the given offset", [program, "verify", "words.wav", rec, f"--offset={LATE}"], folder, audio, 23)
        if parity == 32:
            continue
        (folder / "old.rpar").write_bytes(first_version((folder / rec).read_bytes()))
        print("  by a record without a seal:")
        best("  verify the same file", [program, "verify", "disc.wav", "old.rpar"], folder, audio)
        mended(folder, program, "old.rpar", "words.wav", "late.wav", kinds[0][1], audio)


def commands(program, folder):
    """Each command once, and its peers below it."""
    disc = make_disc(folder)
    parity_beside(program, folder, disc)
    upgrade_alone(program, folder, len(disc))
    sums_beside(program, folder, len(disc))
    tracks_beside(program, folder, len(disc))
    stores_beside(program, folder)
    batch_beside(program, folder, len(disc))
    best("trial 1000 7 -17 4", [program, "trial", "1000", "7", "-17", "4"], folder, 1_000 * SECTOR_BYTES)


def long_disc(program, folder):
    chance = random.Random(13)
    disc = b"".join(chance.randbytes(1_000 * SECTOR_BYTES) for _ in range(LONG // 1_000))
    wav(folder / "disc.wav", disc)
    wav(folder / "late.wav", late(disc))
    print(f"{LONG} sectors:")
    best("register, 8 parity words", [program, "register", "disc.wav", "long.rpar"], folder, len(disc), 0, lambda: (folder / "long.rpar").unlink(missing_ok=True))
    for name, first in [("at the start", 100), ("at the end", LONG - 200)]:
        wav(folder / "scratch.wav", scratched(late(disc), chance, first, SCRATCH[8]))
        mended(folder, program, "long.rpar", "scratch.wav", "late.wav", f"{SCRATCH[8]} sectors {name}", len(disc))


def silence(program, folder):
    chance = random.Random(14)
    disc = bytes(200 * SECTOR_BYTES)
    wav(folder / "silent.wav", disc)
    wav(folder / "noise.wav", scratched(disc, chance, 80, 30))
    best("register 200 silent sectors", [program, "register", "silent.wav", "silent.rpar"], folder, len(disc), 0, lambda: (folder / "silent.rpar").unlink(missing_ok=True))
    (folder / "old.rpar").write_bytes(first_version((folder / "silent.rpar").read_bytes()))
    for rec, name in [("old.rpar", "no seal"), ("silent.rpar", "a seal")]:
        for rip in ["silent.wav", "noise.wav"]:
            best(f"  offsets of {rip}, {name}", [program, "offsets", rip, rec], folder, len(disc))
            lines = len((folder / "text").read_text().splitlines())
            if lines != 11_759:
                complain(f"{lines} offsets")


def make_response(folder, program):
    """A response with the sum of the late rip, so that the disc matches at an offset other than 0."""
    told = subprocess.run([program, "sums", "late.wav"], cwd=folder, capture_output=True, text=True, check=True).stdout
    ids = [int(number, 16) for number in told.split()[1].split("-")[1:]]
    v1 = int(told.split(" v1 ")[1].split()[0], 16)
    (folder / "response").write_bytes(struct.pack("<BIIIBII", 1, *ids, 1, v1, 0))


def main():
    words = [word for word in sys.argv[1:] if not word.startswith("--")]
    top = Path(__file__).resolve().parent.parent
    program = str(Path(words[0]).resolve()) if words else str(top / "bin" / "rip")
    if not os.access("/usr/bin/time", os.X_OK):
        sys.exit("GNU time isn't installed")
    if not os.access(program, os.X_OK):
        sys.exit("no program: call scripts/rip once, or name one")
    with tempfile.TemporaryDirectory() as name:
        folder = Path(name)
        print(f"{'command':46} {'end':>3} {'seconds':>8} {'clock':>8} {'MB/s':>8} {'MB':>8}{'ratio':>8}")
        commands(program, folder)
        if "--parity" in sys.argv:
            each_parity(program, folder)
        if "--silence" in sys.argv:
            silence(program, folder)
        if "--long" in sys.argv:
            long_disc(program, folder)
    sys.exit(1 if failed else 0)


main()
