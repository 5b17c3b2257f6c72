#!/usr/bin/env python3
"""Runs the examples of README.md and docs/, and sees that they print what they say.

- A session is an indented block in which `$ ` stands before each command; what a command prints stands behind it. All
  sessions of a document are run in one shell, in a folder with the made files below. The sessions behind a line
  `<!-- needs TOOL -->`, up to the next paragraph, are left out where one of these tools isn't there.
- The examples of the manual page are run in such a folder too, and `man` has to read the page without a warning.
- Each row of the tables of exit codes, in docs/GUIDE.md and docs/FORMATS.md, has to be met by a run that ends with its
  code, and each of these runs has to print what its row says. The manual page names the same codes.
- Files, crates, definitions and lemmas that the documents name have to be there.
- README.md has at most 2,400 words, and none of its sentences more than 40. Code and tables aren't counted as sentences.

`check_docs.py PROGRAM` runs that program; else the one that `scripts/rip` built. Without a program it looks at the names
and at README.md's words, and says so. Ends with 0 only if all is so.
"""

import hashlib
import json
import os
import random
import re
import shutil
import struct
import subprocess
import sys
import tempfile
from pathlib import Path

import response_matches as response

TOP = Path(__file__).resolve().parent.parent
SECTOR_BYTES = 2_352
STRIDE_BYTES = 2 * 11_760
SAMPLE_BYTES = 4

# Each answer of the program once, on the files that `make_files` makes: how it is caused, and its number. The words
# `> /dev/full` stand for an output that takes nothing, and `\xff` is a word that is no text.
ANSWERS = [
    ("register disc.wav disc.rpar", 0),
    ("register short.wav short.rpar", 0),
    ("register silent.wav silent.rpar", 0),
    ("verify disc.wav disc.rpar", 0),
    ("offsets second.wav disc.rpar", 0),
    ("offsets silent.wav silent.rpar", 0),
    ("repair second.wav disc.rpar out.wav", 0),
    ("sums rips/disc.cue", 0),
    ("match rips/disc.cue responses/", 0),
    ("upgrade disc.wav old.rpar", 0),
    ("split rips/disc.cue tracks/", 0),
    ("join rips/disc.cue joined.wav", 0),
    ("register disc.wav store/", 0),
    ("register second.wav others/", 0),
    ("list store/", 0),
    ("check store/", 0),
    ("merge store/ copies/", 0),
    ("merge store/ copies/", 0),
    ("merge store/ others/", 0),
    ("merge bad/ copies/", 0),
    ("batch done.toml", 0),
    ("trial 100 7 -17 4", 0),
    ("trial 100 7 -17 47041", 0),
    ("trial 30 7 0 0", 0),
    ("", 10),
    ("verify disc.wav", 10),
    ("verify disc.wav disc.rpar --offset=5880", 10),
    ("list store", 10),
    ("check store/ -", 10),
    ("merge store/", 10),
    ("merge store/ copies/ --offset=0", 10),
    ("batch", 10),
    ("batch done.toml done.toml", 10),
    ("sums gone.wav", 11),
    ("sums gone.cue", 11),
    ("batch gone.toml", 11),
    ("sums rips/data.cue", 12),
    ("verify disc.flac disc.rpar", 13),
    ("sums cut.wav", 13),
    ("register odd.wav odd.rpar", 14),
    ("register none.wav none.rpar", 14),
    ("register rips/late.cue late.rpar", 14),
    ("register rips/order.cue order.rpar", 14),
    ("register tiny.wav tiny.rpar", 14),
    ("verify disc.wav gone.rpar", 15),
    ("verify disc.wav disc.wav", 16),
    ("verify disc.wav cut.rpar", 16),
    ("verify disc.wav torn.rpar", 16),
    ("register disc.wav disc.rpar", 17),
    ("repair second.wav.part disc.rpar second.wav", 17),
    ("verify short.wav disc.rpar", 18),
    ("upgrade disc.wav old.rpar", 19),
    ("verify rips/both.cue disc.rpar", 18),
    ("verify other.wav disc.rpar", 20),
    ("verify silent.wav silent.rpar", 21),
    ("verify other.wav disc.rpar --offset=0", 22),
    ("verify second.wav disc.rpar", 23),
    ("verify silent.wav other.rpar --offset=0", 24),
    ("match disc.wav responses/", 25),
    ("match disc.wav disc.wav", 26),
    ("match disc.wav disc.flac", 26),
    ("check bad/", 27),
    ("batch disc.flac", 28),
    ("batch empty.toml", 28),
    ("batch long.toml", 28),
    ("batch many.toml", 28),
    ("batch wordless.toml", 28),
    ("batch again.toml", 28),
    ("batch some.toml", 29),
    ("sums rips", 30),
    ("batch rips", 30),
    ("list strange/", 30),
    ("register disc.wav none/disc.rpar", 31),
    ("sums disc.wav > /dev/full", 32),
    ("batch done.toml > /dev/full", 32),
    ("sums \xff", 33),
]

# What no run here causes: want of memory, which scripts/check_memory.py does, and a rip of more than 99 minutes.
NOT_CAUSED = {40}

# The documents whose sessions are run, and those whose names are looked up.
RUN = ("README.md", "docs/GUIDE.md", "docs/FORMATS.md", "docs/FAQ.md")
NAMING = (*RUN, "docs/ARCHITECTURE.md", "docs/PROOF.md", "docs/BENCHMARKS.md", "docs/DECISIONS.md", "docs/CONTRIBUTING.md", "CHANGELOG.md")

problems = []


def fail(text):
    problems.append(text)
    print(f"check_docs: {text}", file=sys.stderr)


# ---- the files


def wav(audio):
    head = b"RIFF" + struct.pack("<I", 36 + len(audio)) + b"WAVEfmt "
    return head + struct.pack("<IHHIIHH", 16, 1, 2, 44_100, 176_400, 4, 16) + b"data" + struct.pack("<I", len(audio)) + audio


def second_rip(disc):
    """The same audio 30 samples late, with four wrong words, all of one column."""
    late = bytearray(bytes(30 * SAMPLE_BYTES) + disc[: -30 * SAMPLE_BYTES])
    for stride in (1_000, 2_000, 3_000, 4_000):
        late[stride * STRIDE_BYTES + 2 * 5 + 30 * SAMPLE_BYTES] ^= 0x55
    return bytes(late)


# Where the commands of a session are looked for, behind `rip` itself.
TOOLS = "/usr/bin:/bin"

# What README.md may have.
MOST_WORDS = 2_400
LONGEST_SENTENCE = 40

SHEET = 'FILE "01.wav" WAVE\n  TRACK 01 AUDIO\n    INDEX 01 00:00:00\nFILE "02.wav" WAVE\n  TRACK 02 AUDIO\n    INDEX 01 00:00:00\n'


def signed(body):
    return bytes(body) + hashlib.sha256(body).digest()


def make_files(program, folder, audio):
    """The files of the examples: a disc of 21 minutes, a record of it without a seal, a later rip of it, a disc of two files and a
    sheet, with a response, and a folder."""
    (folder / "disc.wav").write_bytes(wav(audio))
    subprocess.run([program, "register", "disc.wav", "old.rpar"], cwd=folder, capture_output=True, check=True)
    sealed = bytearray((folder / "old.rpar").read_bytes())
    sealed[7] = ord("1")
    (folder / "old.rpar").write_bytes(signed(sealed[:-64]))
    (folder / "second.wav").write_bytes(wav(second_rip(audio)))
    chance = random.Random(2)
    rips = folder / "rips"
    rips.mkdir()
    one, two = chance.randbytes(250 * SECTOR_BYTES), chance.randbytes(300 * SECTOR_BYTES)
    (rips / "01.wav").write_bytes(wav(one))
    (rips / "02.wav").write_bytes(wav(two))
    (rips / "disc.cue").write_text(SHEET)
    make_response(folder, "responses/", ((0, 12, 1), (664, 4, 0)), one + two)
    make_archive(folder, chance)
    make_odd_files(folder, one, two)


# The small discs of docs/FAQ.md: the sectors of their tracks. The key of the last one begins with a dot.
ARCHIVE = {"Blue Train": [150, 120], "Kind of Blue": [100, 130], "Moanin": [160, 90, 112]}


def tracks_sheet(lengths):
    return "".join(f'FILE "{t:02}.wav" WAVE\n  TRACK {t:02} AUDIO\n    INDEX 01 00:00:00\n' for t in range(1, len(lengths) + 1))


def write_tracks(folder, lengths, audio):
    folder.mkdir(parents=True)
    (folder / "disc.cue").write_text(tracks_sheet(lengths))
    for t, sectors in enumerate(lengths, 1):
        (folder / f"{t:02}.wav").write_bytes(wav(audio[: sectors * SECTOR_BYTES]))
        audio = audio[sectors * SECTOR_BYTES :]


def make_archive(folder, chance):
    """A folder of small discs in tracks, and a later rip of each, 6 samples late: one whole, one with two wrong words, one
    with far more than can be mended."""
    for title, lengths in ARCHIVE.items():
        audio = chance.randbytes(sum(lengths) * SECTOR_BYTES)
        write_tracks(folder / "archive" / title, lengths, audio)
        late = bytearray(bytes(6 * SAMPLE_BYTES) + audio[: -6 * SAMPLE_BYTES])
        if title == "Kind of Blue":
            late[2 * STRIDE_BYTES] ^= 1
            late[3 * STRIDE_BYTES + 500] ^= 1
        if title == "Moanin":
            late[100 * SECTOR_BYTES : 200 * SECTOR_BYTES] = chance.randbytes(100 * SECTOR_BYTES)
        write_tracks(folder / "later" / title, lengths, bytes(late))


def make_odd_files(folder, one, two):
    """Files of the disc of two tracks that some command refuses, or finds unlike the registered rip."""
    odd = folder / "odd"
    # its second track has its first 12 samples twice
    write_tracks(odd / "slipped", [250, 300], one + two[: 12 * SAMPLE_BYTES] + two[: -12 * SAMPLE_BYTES])
    make_response(folder, "odd/responses/", ((0, 9, 0),), one + two)
    (odd / "silent.wav").write_bytes(wav(bytes(100 * SECTOR_BYTES)))
    streamed = bytearray(wav(one + two))
    streamed[40:44] = b"\xff\xff\xff\xff"
    (odd / "streamed.wav").write_bytes(streamed)
    (odd / "café.wav").write_bytes(wav(one + two))
    sheet = 'PERFORMER "André"\nFILE "café.wav" WAVE\n  TRACK 01 AUDIO\n    INDEX 01 00:00:00\n'
    (odd / "latin.cue").write_bytes(sheet.encode("cp1252"))
    (odd / "wide.cue").write_bytes(sheet.encode("utf-16"))
    # two seconds before the first track: in a file, and in none
    (odd / "from-zero.wav").write_bytes(wav(one + two))
    (odd / "from-track.wav").write_bytes(wav((one + two)[150 * SECTOR_BYTES :]))
    (odd / "hidden.cue").write_text('FILE "from-zero.wav" WAVE\nTRACK 01 AUDIO\nINDEX 00 00:00:00\nINDEX 01 00:02:00\n')
    (odd / "pregap.cue").write_text('FILE "from-track.wav" WAVE\nTRACK 01 AUDIO\nPREGAP 00:02:00\nINDEX 01 00:00:00\n')


def make_response(folder, name, pressings, audio):
    """A response for the disc of two tracks, in the folder of this name: a block for each pressing, which is so many samples
    late, has this confidence, and sums v1 (0) or v2 (1)."""
    layout = (0, (0, 250), 550)
    samples = response.samples_of(struct.unpack(f"<{len(audio) // 2}H", audio))
    tracks, *ids = response.ids_of(layout)
    blocks = b""
    for offset, confidence, kind in pressings:
        blocks += struct.pack("<BIII", tracks, *ids)
        for t in range(1, tracks + 1):
            blocks += struct.pack("<BII", confidence, response.plain_sums(layout, samples, t, offset)[kind], 0)
    (folder / name).mkdir()
    (folder / response.response_name(name, layout)).write_bytes(blocks)


def make_refused_files(folder, audio):
    """More files, which some command refuses. The records among them are damaged after the disc is registered."""
    (folder / "other.wav").write_bytes(wav(random.Random(3).randbytes(len(audio))))
    (folder / "silent.wav").write_bytes(wav(bytes(100 * SECTOR_BYTES)))
    (folder / "short.wav").write_bytes(wav(audio[: 200 * SECTOR_BYTES]))
    (folder / "tiny.wav").write_bytes(wav(bytes(29 * SECTOR_BYTES)))
    (folder / "none.wav").write_bytes(wav(b""))
    (folder / "odd.wav").write_bytes(wav(bytes(100 * SECTOR_BYTES + 4)))
    (folder / "disc.flac").write_bytes(b"fLaC\0\0\0\x22" + bytes(34))
    (folder / "cut.wav").write_bytes(wav(bytes(SECTOR_BYTES))[:-1])
    (folder / "second.wav.part").write_bytes((folder / "disc.wav").read_bytes())
    for name in ("tracks", "store", "others", "copies", "bad", "strange"):
        (folder / name).mkdir()
    make_bad_records(folder)
    make_lists(folder)
    rips = folder / "rips"
    (rips / "data.cue").write_text(SHEET.replace("TRACK 01 AUDIO", "TRACK 01 MODE1/2352"))
    (rips / "late.cue").write_text(SHEET.replace("00:00:00", "00:03:26", 1))
    one = 'FILE "01.wav" WAVE\nTRACK 01 AUDIO\nINDEX 01 00:01:00\nTRACK 02 AUDIO\nINDEX 01 00:01:00\n'
    (rips / "order.cue").write_text(one)
    (rips / "both.cue").write_text('FILE "../disc.wav" WAVE\nTRACK 01 AUDIO\nINDEX 01 00:00:00\nTRACK 02 AUDIO\nINDEX 01 00:01:00\n')


def list_of(*discs):
    return "".join(f"[[disc]]\nwords = {json.dumps(words.split())}\n" for words in discs)


def make_lists(folder):
    """Lists of discs: one of which each is done, one of which some aren't, and one for each rule that a list may break."""
    (folder / "done.toml").write_text(list_of("sums rips/disc.cue", "trial 30 7 0 0"))
    (folder / "some.toml").write_text(list_of("sums gone.wav", "sums rips/disc.cue", "verify other.wav disc.rpar"))
    (folder / "empty.toml").write_text("")
    (folder / "long.toml").write_text("#" * 1_048_577)
    (folder / "many.toml").write_text(list_of(*["sums disc.wav"] * 1_001))
    (folder / "wordless.toml").write_text("[[disc]]\nword = ['sums', 'disc.wav']\n")
    (folder / "again.toml").write_text(list_of("sums rips/disc.cue", "batch done.toml"))


def make_bad_records(folder):
    """A store of which no record is good, and a folder that can't be listed."""
    record = bytearray((folder / "old.rpar").read_bytes())
    (folder / "bad" / "misnamed.rpar").write_bytes(record)
    record[1_000] ^= 1
    (folder / "bad" / "torn.rpar").write_bytes(record)
    (folder / "bad" / "none.rpar").write_bytes(b"")
    (folder / "strange" / os.fsdecode(b"\xff.rpar")).write_bytes(b"")


def change_seal(folder):
    """The record of the silent disc, with another seal."""
    record = bytearray((folder / "silent.rpar").read_bytes())
    record[-40] ^= 1
    (folder / "other.rpar").write_bytes(signed(record[:-32]))


def damage_record(folder):
    record = bytearray((folder / "disc.rpar").read_bytes())
    (folder / "cut.rpar").write_bytes(record[:-1])
    record[1_000] ^= 1
    (folder / "torn.rpar").write_bytes(record)


# ---- sessions


def sessions(text):
    """The commands of the indented blocks, each with the lines that are to follow it and the tools that it needs."""
    found = []
    margin = None
    needed = []
    for line in text.splitlines():
        command = re.match(r"( {4,})\$ (.*)", line)
        needs = re.fullmatch(r"\s*<!-- needs ([\w -]+) -->", line)
        if command:
            margin = command.group(1)
            found.append((command.group(2), [], needed))
        elif margin and line.startswith(margin):
            found[-1][1].append(line[len(margin) :])
        else:
            margin = None
            if needs:
                needed = needs.group(1).split()
            elif line.strip():
                needed = []
    return found


def shell(program, folder):
    """A shell in the folder, for which `rip` is the program."""
    (folder.parent / "bin").mkdir(exist_ok=True)
    link = folder.parent / "bin" / "rip"
    if not link.exists():
        link.symlink_to(program)
    path = f"{link.parent}:{TOOLS}"
    return subprocess.Popen(["sh"], cwd=folder, env={"PATH": path}, stdin=subprocess.PIPE, stdout=subprocess.PIPE, stderr=subprocess.STDOUT, text=True)


def told(sh, command):
    """What the shell prints of a command; `$?` is that of the command before."""
    sh.stdin.write(f"(exit $ended); {command}\nended=$?; echo '[[end]]'\n")
    sh.stdin.flush()
    lines = []
    for line in sh.stdout:
        if line == "[[end]]\n":
            break
        lines.append(line.rstrip("\n"))
    return lines


def check_sessions(name, program, work, audio):
    commands = sessions((TOP / name).read_text())
    folder = work / name.replace("/", "_")
    folder.mkdir()
    make_files(program, folder, audio)
    sh = shell(program, folder)
    missing = {tool for _, _, needed in commands for tool in needed if shutil.which(tool, path=TOOLS) is None}
    runnable = [(command, wanted) for command, wanted, needed in commands if not missing.intersection(needed)]
    for command, wanted in runnable:
        found = told(sh, command)
        if found != wanted:
            fail(f"{name}: `{command}` prints {found}, not {wanted}")
    sh.stdin.close()
    sh.wait()
    shutil.rmtree(folder)
    print(f"{name}: {len(runnable)} commands run")
    if missing:
        print(f"{name}: {len(commands) - len(runnable)} commands skipped, for want of {', '.join(sorted(missing))}")


def check_page(program, work, audio):
    page = TOP / "docs" / "rip.1"
    text = page.read_text()
    examples = text.split(".SH EXAMPLES")[1].split(".nf")[1].split(".fi")[0].strip().splitlines()
    folder = work / "page"
    folder.mkdir()
    make_files(program, folder, audio)
    (folder / "store").mkdir()
    (folder / "tracks").mkdir()
    (folder / "discs.toml").write_text(list_of("register rips/disc.cue tracks.rpar"))
    for line in examples:
        words = line.replace("\\-", "-").split()[1:]
        ended = subprocess.run([program, *words], cwd=folder, capture_output=True, check=False).returncode
        if ended not in (0, 23):
            fail(f"docs/rip.1: `{line}` ends with {ended}")
    shutil.rmtree(folder)
    print(f"docs/rip.1: {len(examples)} commands run")
    if shutil.which("man") is None:
        print("man: skipped")
        return
    warned = subprocess.run(["man", "--warnings", "-l", "-E", "UTF-8", str(page)], capture_output=True, text=True, check=False)
    if warned.stderr or warned.returncode:
        fail(f"man: {warned.stderr}")


# ---- the tables of exit codes


def pattern(text):
    """What a text of a table stands for: capitals and `..` stand for any."""
    pieces = [r".+" if re.fullmatch(r"[A-Z]+|\.\.", word) else re.sub(r"X{8}|T{2,3}", r".+", re.escape(word)) for word in text.split(" ")]
    return re.compile(" ".join(pieces))


def rows(name):
    """The rows of the table of exit codes: the code, the texts, and a pattern for each, none where no text is printed."""
    for line in (TOP / name).read_text().split("| Exit code | Text |")[1].splitlines():
        found = re.match(r"\| (\d+) \| ([^|]*) \|", line)
        if found:
            yield int(found.group(1)), found.group(2), [pattern(text) for text in re.findall(r"`([^`]*)`", found.group(2))]


def answer(program, folder, words):
    """The number with which the program ends, and the lines that it prints."""
    words, full, _ = words.partition(" > /dev/full")
    given = [word.encode("latin-1") for word in words.split(" ") if word]
    if full:
        with open("/dev/full", "wb") as output:
            return subprocess.run([program, *given], cwd=folder, stdout=output, stderr=subprocess.DEVNULL, check=False).returncode, []
    run = subprocess.run([program, *given], cwd=folder, capture_output=True, check=False)
    return run.returncode, run.stdout.decode().splitlines()


def row_of(table, number, lines):
    """The row of this number of which each line is one of the texts, and of several that of which each text is a line."""
    fitting = [at for at, row in enumerate(table) if row[0] == number and all(any(text.fullmatch(line) for text in row[2]) for line in lines)]
    whole = [at for at in fitting if all(any(text.fullmatch(line) for line in lines) for text in table[at][2])]
    return (whole + fitting + [None])[0]


def own_lines(number, lines):
    """What a batch prints, without what its discs' commands print."""
    return [line for line in lines if number not in (0, 29) or re.match(r"disc \d+ number \d+$|batch discs ", line)]


def check_answers(program, work, audio):
    tables = {name: list(rows(name)) for name in ("docs/GUIDE.md", "docs/FORMATS.md")}
    met = {name: set() for name in tables}
    folder = work / "answers"
    folder.mkdir()
    make_files(program, folder, audio)
    make_refused_files(folder, audio)
    for words, wanted in ANSWERS:
        number, lines = answer(program, folder, words)
        lines = own_lines(number, lines) if words.startswith("batch") else lines
        if number != wanted:
            fail(f"`rip {words}` ends with {number}, not {wanted}: {lines}")
        for name, table in tables.items():
            at = row_of(table, number, lines)
            if at is None:
                fail(f"{name}: no row for {number} and {lines}, which `rip {words}` prints")
            met[name].add(at)
        if words == "register disc.wav disc.rpar" and wanted == 0:
            damage_record(folder)
        if words == "register silent.wav silent.rpar":
            change_seal(folder)
    for name, table in tables.items():
        for at, (number, text, _) in enumerate(table):
            if at not in met[name] and number not in NOT_CAUSED:
                fail(f"{name}: no run meets the row of {number}, {text}")
    page = {int(number) for number in re.findall(r"^\.B (\d+)$", (TOP / "docs/rip.1").read_text(), re.MULTILINE)}
    for name, table in tables.items():
        if page != {number for number, _, _ in table}:
            fail(f"docs/rip.1 and {name} don't name the same numbers")
    print(f"answers: {len(ANSWERS)} runs, {len(met['docs/GUIDE.md'])} rows of the guide")


# ---- names


def check_names():
    """Files and crates that the documents name, and names of definitions, lemmas and functions."""
    sources = "\n".join(path.read_text() for kind in ("*.rt", "*.antt") for path in (TOP / "crates").rglob(kind) if "out" not in path.parts)
    words = set(re.findall(r"[A-Za-z][A-Za-z0-9_']*(?:-[A-Za-z0-9_']+)*", sources))
    crates = {line.split(":")[0] for line in (TOP / "crates.txt").read_text().splitlines() if line and not line.startswith("#")}
    for crate in crates:
        if f"`{crate}`" not in (TOP / "docs/ARCHITECTURE.md").read_text():
            fail(f"docs/ARCHITECTURE.md doesn't name the crate {crate}")
    for script in (TOP / "scripts").iterdir():
        if script.is_file() and f"`scripts/{script.name}`" not in (TOP / "docs/ARCHITECTURE.md").read_text():
            fail(f"docs/ARCHITECTURE.md doesn't name scripts/{script.name}")
    for name in NAMING:
        text = re.sub(r"^    .*$", "", (TOP / name).read_text(), flags=re.MULTILINE)
        for quoted in re.findall(r"`([^`\n]+)`", text):
            if re.fullmatch(r"(scripts|docs|crates)/[\w./]+|[A-Z]+\.md", quoted) and not (TOP / quoted).exists():
                fail(f"{name} names {quoted}, which isn't there")
            # (one letter behind the low line is an index of mathematics)
            if re.fullmatch(r"[A-Za-z]\w*_\w[\w-]+|(?:[A-Z][a-z]+){2,}", quoted) and quoted not in words and quoted not in crates:
                fail(f"{name} names {quoted}, which no source has")
    print("names: looked up")


# ---- the words of README.md


def sentences(text):
    """The sentences of the paragraphs and of the points of lists, without code blocks, tables and headings."""
    pieces = [[]]
    for line in text.splitlines():
        if re.match(r" {4}|\||#", line) or not line.strip():
            pieces.append([])
        elif re.match(r"- |\d+\. ", line):
            pieces.append([re.sub(r"^(- |\d+\. )", "", line)])
        else:
            pieces[-1].append(line)
    for piece in pieces:
        # (a full stop ends a sentence, also in front of a closing mark, where a blank and a capital, a mark or a figure follow)
        yield from re.split(r"(?<=[.!?])[\"*)]*\s+(?=[A-Z0-9`*(\"])", " ".join(piece))


def check_readme():
    text = (TOP / "README.md").read_text()
    words = len(text.split())
    if words > MOST_WORDS:
        fail(f"README.md has {words} words")
    lengths = [(len([word for word in sentence.split() if re.search(r"\w", word)]), sentence) for sentence in sentences(text)]
    for length, sentence in lengths:
        if length > LONGEST_SENTENCE:
            fail(f"README.md has a sentence of {length} words: {sentence}")
    print(f"README.md: {words} words, the longest sentence has {max(length for length, _ in lengths)}")


def main():
    program = str(Path(sys.argv[1]).resolve()) if sys.argv[1:] else str(TOP / "bin" / "rip")
    check_names()
    check_readme()
    if not Path(program).exists():
        sys.exit("no program: call scripts/rip once, or name one")
    audio = random.Random(1).randbytes(95_312 * SECTOR_BYTES)
    with tempfile.TemporaryDirectory() as name:
        work = Path(name)
        for document in RUN:
            check_sessions(document, program, work, audio)
        check_page(program, work, audio)
        check_answers(program, work, audio)
    sys.exit(1 if problems else 0)


main()
