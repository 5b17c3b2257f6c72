#!/usr/bin/env python3
"""What the worked cases are to print, by the plain definitions of docs/FORMATS.md. `rip` is never run.

    scripts/expected_cases.py                  sees that crates/worked_cases/stdout is what the definitions give
    scripts/expected_cases.py SCRIPT           prints what a script's cases are to print
    .. --search CASE                           decides the searches of the case of this name too, some minutes each

Decided are the words of the command line, what the readers of sheets, WAV files, layouts, records and responses refuse,
the records that are stored, the upkeep of stores, the matches with responses, and batches of these. Sums, trials and other
searches are passed over, and a case is left at a call that fails.
"""

import base64
import functools
import hashlib
import re
import struct
import sys
import tomllib

import column_table as field
import response_matches as response

STRIDE = 11760
HEADER = 44
MOST_SECTORS = 445500
MOST_BYTES = 1048576
MOST_RESPONSE = 65536
ROOM = 1048576  # the bytes that a run's output takes; of a longer text what fits goes out
SLOW = 200  # a record of more sectors isn't computed, unless its case is searched


class Refused(Exception):
    """A status and its text."""


class Undecided(Exception):
    """What a run prints isn't decided here, and it changes no file."""


class Left(Exception):
    """The rest of a case isn't decided here."""


# Files that are made.


def wave(sectors, period):
    words = b"".join(struct.pack("<HH", n % period % 65536, n % period % 65536) for n in range(588 * sectors))
    return header(len(words) // 2) + words


def header(words):
    form = struct.pack("<IHHIIHH", 16, 1, 2, 44100, 176400, 4, 16)
    return b"RIFF" + struct.pack("<I", 36 + 2 * words) + b"WAVEfmt " + form + b"data" + struct.pack("<I", 2 * words)


def escaped(text):
    code = lambda found: b"\n" if found[0] == b"\\n" else bytes([int(found[1], 16)])
    return re.sub(rb"\\n|\\x(..)", code, text.encode())


def changed(kind, file, numbers):
    file = bytearray(file)
    if kind in ("flip", "set"):
        first, *rest = numbers
        for place in rest if kind == "flip" else range(*rest):
            at = HEADER + 2 * place
            (word,) = struct.unpack_from("<H", file, at)
            struct.pack_into("<H", file, at, word ^ first if kind == "flip" else first)
    elif kind == "patch":
        at, *with_bytes = numbers
        file[at : at + len(with_bytes)] = bytes(with_bytes)
    elif kind == "cut":
        file = file[numbers[0] : numbers[1]]
    elif kind == "late":
        file[HEADER:] = (bytes(4 * numbers[0]) + file[HEADER:])[: len(file) - HEADER]
    elif kind == "early":
        file[HEADER:] = file[HEADER + 4 * numbers[0] :] + bytes(4 * numbers[0])
    else:
        raise ValueError(kind)
    return bytes(file)


def made(files, maker):
    kind, _, rest = maker.partition(" ")
    if kind == "bytes":
        return escaped(rest)
    if kind == "join":
        return b"".join(files[name] for name in rest.split(" "))
    if kind == "signed":
        return files[rest] + hashlib.sha256(files[rest]).digest()
    if kind in ("zero", "ramp", "wave"):
        sectors, period = (rest + {"zero": " 1", "ramp": " 65536", "wave": ""}[kind]).split(" ")
        return wave(int(sectors), int(period))
    name, _, rest = rest.partition(" ")
    return changed(kind, files[name], [int(word) for word in rest.split(" ")])


# Words of the command line.


def is_name(word):
    return word != "" and word[0] != "-"


def is_number(digits, low, high):
    return lambda word: bool(re.fullmatch(f"[0-9]{{1,{digits}}}", word)) and low <= int(word) <= high


def is_offset(word):
    return bool(re.fullmatch("[+-]?[0-9]{1,4}", word)) and abs(int(word)) <= 5879


def is_offset_option(word):
    return word.startswith("--offset=") and is_offset(word[len("--offset=") :])


def is_folder(word):
    return is_name(word) and word.endswith("/")


def is_joined(word):
    file = word[word.rfind("/") + 1 :]
    return is_name(word) and file != "" and not set(file) & set('"\r\n')


COMMANDS = {
    "register": ([is_name] * 2, lambda word: word in ("--npar=4", "--npar=8", "--npar=16", "--npar=32")),
    "verify": ([is_name] * 2, is_offset_option),
    "offsets": ([is_name] * 2, None),
    "repair": ([is_name] * 3, is_offset_option),
    "upgrade": ([is_name] * 2, None),
    "match": ([is_name] * 2, None),
    "split": ([is_name, is_folder], None),
    "join": ([is_name, is_joined], None),
    "list": ([is_folder], None),
    "check": ([is_folder], None),
    "merge": ([is_folder] * 2, None),
    "batch": ([is_name], None),
    "sums": ([is_name], None),
    "trial": ([is_number(4, 30, 9000), is_number(10, 0, 2**32 - 1), is_offset, is_number(5, 0, 58800)], None),
}


def check_words(words):
    def usage(word):
        return Refused(10, f"usage word {word}")

    if not words or words[0] not in COMMANDS:
        raise usage(0)
    rules, option = COMMANDS[words[0]]
    for i, rule in enumerate(rules, 1):
        if i >= len(words) or not rule(words[i]):
            raise usage(i)
    rest = words[1 + len(rules) :]
    if rest and (option is None or not option(rest[0])):
        raise usage(1 + len(rules))
    if len(rest) > 1:
        raise usage(2 + len(rules))


# WAV files.


def wav_reading(file):
    """The place and the number of the words, or the kind and the place of the refusal."""
    length = len(file)
    if file[:4] != b"RIFF":
        return "NotRiff", 0
    if file[8:12] != b"WAVE":
        return "NotWave", 8
    at, is_formed = 12, False
    while True:
        if at + 8 > length:
            return ("NoData" if is_formed else "NoFmt"), length
        chunk, (count,) = file[at : at + 4], struct.unpack_from("<I", file, at + 4)
        if chunk == b"fmt " and not is_formed:
            refusal = form_refusal(file, at, count)
            if refusal:
                return refusal
            is_formed = True
        elif chunk == b"data":
            if not is_formed:
                return "NoFmt", at
            if count == 0xFFFFFFFF:
                return "StreamedLength", at + 4
            if at + 8 + count > length:
                return "DataPastEnd", at + 4
            if count % 4:
                return "HalfSample", at + 4
            return at + 8, count // 2
        at += 8 + count + count % 2


def form_refusal(file, at, count):
    if count < 16 or at + 8 + count > len(file):
        return "FmtShort", at
    tag, channels, rate, _, _, bits = struct.unpack_from("<HHIIHH", file, at + 8)
    if tag not in (1, 0xFFFE):
        return "NotPcm", at + 8
    if tag == 0xFFFE and count < 40:
        return "FmtShort", at
    if tag == 0xFFFE and file[at + 32 : at + 48] != bytes.fromhex("0100000000001000800000aa00389b71"):
        return "NotPcm", at + 32
    if channels != 2:
        return "NotStereo", at + 10
    if rate != 44100:
        return "NotCdRate", at + 12
    if bits != 16:
        return "Not16Bit", at + 22
    return None


# Cue sheets.

UNREAD = (b"REM", b"TITLE", b"PERFORMER", b"SONGWRITER", b"CATALOG", b"ISRC", b"FLAGS", b"CDTEXTFILE")


def time_of(text):
    found = re.fullmatch(rb"([0-9]{1,3}):([0-9]{1,2}):([0-9]{1,2})", text.strip(b" \t"))
    if not found or int(found[2]) >= 60 or int(found[3]) >= 75:
        return None
    return (60 * int(found[1]) + int(found[2])) * 75 + int(found[3])


def split_word(text):
    text = text.lstrip(b" \t")
    found = re.match(rb"[^ \t]*", text)
    return found[0], text[found.end() :]


def number_of(text):
    """The number that a line's next word is, or None, and the rest."""
    word, rest = split_word(text)
    return (int(word) if re.fullmatch(rb"[0-9]{1,2}", word) else None), rest


class Sheet:
    def __init__(self):
        self.files, self.tracks, self.pregap = [], [], None
        self.last_index = None  # the number of the last INDEX of the last track
        self.last_time = {}  # of each file, counted from 0, the time of its last INDEX line

    def refusal(self, line):
        """Why this line is refused, or None."""
        command, rest = split_word(line)
        command = command.upper()
        if not command or command in UNREAD:
            return None
        if command == b"POSTGAP":
            return "Postgap"
        lines = {b"FILE": self.file, b"TRACK": self.track, b"INDEX": self.index, b"PREGAP": self.gap}
        return lines[command](rest) if command in lines else "UnknownWord"

    def file(self, rest):
        rest = rest.lstrip(b" \t")
        if rest[:1] == b'"':
            name, mark, rest = rest[1:].partition(b'"')
            if not mark:
                return "BadQuote"
        else:
            name, rest = split_word(rest)
        if not name:
            return "BadQuote"
        try:
            name = name.decode()
        except UnicodeDecodeError:
            return "NameNotText"
        if rest.strip(b" \t").upper() != b"WAVE":
            return "NotWave"
        if len(self.files) >= 100:
            return "TooManyFiles"
        self.files.append(name)
        return None

    def track(self, rest):
        if not self.files:
            return "NoFile"
        number, rest = number_of(rest)
        if number is None:
            return "BadNumber"
        if rest.strip(b" \t").upper() != b"AUDIO":
            return "DataTrack"
        if number != len(self.tracks) + 1:
            return "TrackOrder"
        if self.tracks and self.tracks[-1] is None:
            return "NoIndex01"
        self.tracks.append(None)
        self.last_index = None
        return None

    def index(self, rest):
        if not self.tracks:
            return "NoTrack"
        number, rest = number_of(rest)
        if number is None:
            return "BadNumber"
        time = time_of(rest)
        if time is None:
            return "BadTime"
        numbers = (0, 1) if self.last_index is None else (self.last_index + 1,)
        file = len(self.files) - 1
        if number not in numbers or time < self.last_time.get(file, 0):
            return "IndexOrder"
        self.last_index, self.last_time[file] = number, time
        if number == 1:
            self.tracks[-1] = (file, time)
        return None

    def gap(self, rest):
        if not self.tracks:
            return "NoTrack"
        if self.tracks != [None] or self.pregap is not None:
            return "LatePregap"
        self.pregap = time_of(rest)
        return "BadTime" if self.pregap is None else None


def sheet_reading(text):
    """The sheet, or the line and the kind of its refusal."""
    if len(text) > MOST_BYTES:
        return 0, "SheetTooLong"
    lines = text.removeprefix(b"\xef\xbb\xbf").split(b"\n")
    if not lines[-1]:
        lines.pop()
    sheet = Sheet()
    for count, line in enumerate(lines, 1):
        refusal = sheet.refusal(line.removesuffix(b"\r"))
        if refusal:
            return count, refusal
    if not sheet.tracks:
        return 0, "NoTracks"
    return (0, "NoIndex01") if sheet.tracks[-1] is None else sheet


# Layouts: the pregap, the starts and the sectors.


def layout_of(sheet, counts):
    for file, words in enumerate(counts, 1):
        if words % 1176:
            raise Refused(14, f"layout NotWholeSectors file {file}")
    sectors = [words // 1176 for words in counts]
    starts = []
    for track, (file, time) in enumerate(sheet.tracks, 1):
        if time >= sectors[file]:
            raise Refused(14, f"layout IndexPastEnd track {track}")
        start = sum(sectors[:file]) + time
        if starts and start <= starts[-1]:
            raise Refused(14, f"layout StartOrder track {track}")
        starts.append(start)
    pregap = sheet.pregap or 0
    if pregap + sum(sectors) > MOST_SECTORS:
        raise Refused(14, f"layout TooLong sectors {sum(sectors)}")
    return pregap, tuple(starts), sum(sectors)


def store_key(layout):
    _, starts, sectors = layout
    text = "".join(f"{at - starts[0]:08X}" for at in (*starts[1:], sectors)).ljust(800, "0")
    return base64.b64encode(hashlib.sha1(text.encode()).digest(), b"._").decode().replace("=", "-")


# Records.


def syndromes(parity, words, sectors, start):
    """The sums of the words that stand a stride apart from a start on, each times its power, by Horner's rule."""
    sums = [0] * parity
    for k in range(sectors // 10 - 2):
        word = words[start + k * STRIDE]
        sums = [field.times(sum, field.EXP[m]) ^ word for m, sum in enumerate(sums)]
    return sums


@functools.lru_cache(maxsize=None)
def parity_of(audio, parity):
    """The syndromes of each column."""
    words = struct.unpack(f"<{len(audio) // 2}H", audio)
    return [syndromes(parity, words, len(words) // 1176, STRIDE + j) for j in range(STRIDE)]


def seal_of(words, offset):
    """The SHA-256 of the words that stand in the columns of a rip at an offset."""
    first = STRIDE + 2 * offset
    covered = words[first : first + (len(words) // 1176 // 10 - 2) * STRIDE]
    return hashlib.sha256(struct.pack(f"<{len(covered)}H", *covered)).digest()


def record_of(layout, rows, seal):
    pregap, starts, sectors = layout
    body = b"RIPPAR02" + struct.pack("<HBBII", len(rows[0]), len(starts), 0, pregap, sectors)
    body += struct.pack(f"<{len(starts)}I", *starts)
    body += b"".join(struct.pack(f"<{len(row)}H", *row) for row in rows) + seal
    return body + hashlib.sha256(body).digest()


def record_layout(file):
    """The layout of a record, or why it is none."""
    if file[:8] not in (b"RIPPAR01", b"RIPPAR02"):
        return "Mark"
    if len(file) < 20:
        return f"Length {len(file)} wanted 20"
    parity, tracks, spare, pregap, sectors = struct.unpack_from("<HBBII", file, 8)
    is_sealed = file[:8] == b"RIPPAR02"
    if parity not in (4, 8, 16) and not (is_sealed and parity == 32):
        return f"Npar {parity}"
    if not 1 <= tracks <= 99:
        return f"Tracks {tracks}"
    if spare:
        return f"Spare {spare}"
    length = 20 + 4 * tracks + 2 * STRIDE * parity + (64 if is_sealed else 32)
    if len(file) != length:
        return f"Length {len(file)} wanted {length}"
    starts = struct.unpack_from(f"<{tracks}I", file, 20)
    if any(a >= b for a, b in zip(starts, (*starts[1:], sectors))) or sectors < 30 or pregap + sectors > MOST_SECTORS:
        return "Layout"
    if hashlib.sha256(file[:-32]).digest() != file[-32:]:
        return "Digest"
    return pregap, starts, sectors


# Searches.


def errors_at(words, table, sectors, offset):
    """The wrong words of each column at an offset, or the first column that is too far from the record."""
    parity, c, wrong = len(table[0]), sectors // 10 - 2, {}
    for j, row in enumerate(table):
        sums = syndromes(parity, words, sectors, STRIDE + j + 2 * offset)
        if sums != row:
            wrong[j] = field.errors_within(parity, c, [a ^ b for a, b in zip(sums, row)])
            if wrong[j] is None:
                return j
    return wrong


def mended_words(words, offset, wrong):
    mended = list(words)
    for j, errors in wrong.items():
        for k, flip in errors:
            mended[STRIDE + k * STRIDE + j + 2 * offset] ^= flip
    return mended


def agreeing_offsets(words, table, seal, sectors, offset):
    """Each offset of the range, or the given one, at which the words that fit have the seal, with the wrong words."""
    offsets = range(-5879, 5880) if offset is None else [offset]
    found = [(d, errors_at(words, table, sectors, d)) for d in offsets]
    if offset is not None and isinstance(found[0][1], int):
        raise Refused(22, f"not near column {found[0][1]}")
    near = [(d, wrong) for d, wrong in found if not isinstance(wrong, int)]
    agreeing = [(d, wrong) for d, wrong in near if seal in (None, seal_of(mended_words(words, d, wrong), d))]
    if offset is not None and not agreeing:
        raise Refused(24, "seal differs")
    return agreeing


def candidate_line(offset, wrong):
    return f"offset {offset:+} errors {sum(map(len, wrong.values()))} columns {len(wrong)}"


def search_answer(command, audio, record, tracks, offset, rest, files):
    """The answer of a command that searches."""
    words = struct.unpack(f"<{len(audio) // 2}H", audio)
    sectors, (parity,) = len(words) // 1176, struct.unpack_from("<H", record, 8)
    rows = struct.unpack_from(f"<{STRIDE * parity}H", record, 20 + 4 * tracks)
    table = [list(rows[parity * j : parity * (j + 1)]) for j in range(STRIDE)]
    seal = record[-64:-32] if record[:8] == b"RIPPAR02" else None
    near = agreeing_offsets(words, table, seal, sectors, offset)
    if not near:
        raise Refused(20, "no candidate")
    if command == "offsets":
        return 0, "\n".join(candidate_line(*at) for at in near)
    if len(near) > 1:
        raise Refused(21, f"several {near[0][0]:+} {near[1][0]:+}")
    (at, wrong), line = near[0], candidate_line(*near[0])
    if command == "verify" or command == "upgrade" and wrong:
        return (23, f"{line}\nmendable") if wrong else (0, f"{line}\nverified")
    if command == "upgrade":
        files[rest[1]] = record_of(record_layout(record), table, seal_of(words, at))
        return 0, f"{line}\nupgraded {rest[1]}"
    mended = mended_words(words, at, wrong)
    files[rest[2]] = header(len(mended)) + struct.pack(f"<{len(mended)}H", *mended)
    return 0, f"{line}\nwritten {rest[2]}"


# Stores.


def entries_of(files, folder):
    """The names of the records that stand directly in a folder, in the order of their bytes."""
    names = [name for name in files if name.startswith(folder) and name.endswith(".rpar") and "/" not in name[len(folder) :]]
    return sorted(names, key=str.encode)


def fault_of(files, folder, name):
    """Why an entry is bad, or nothing where it is good."""
    kept = record_layout(files[name])
    if isinstance(kept, str):
        return f"record {kept}"
    key = store_key(kept)
    return "" if name == f"{folder}{key}.rpar" else f"misnamed {key}"


def record_line(file, name):
    _, starts, sectors = record_layout(file)
    version = 2 if file[:8] == b"RIPPAR02" else 1
    return f"{name} version {version} npar {struct.unpack_from('<H', file, 8)[0]} sectors {sectors} tracks {len(starts)}"


def fate_of(files, folder, to, name):
    """What becomes of an entry that is merged, and the name that tells it."""
    out = to + name[len(folder) :]
    if fault_of(files, folder, name):
        return "skipped", name
    if out not in files:
        return "added", out
    return ("same" if files[out] == files[name] else "differs"), out


def upkeep_answer(files, command, folder, to):
    """The answer of `list`, `check` or `merge`."""
    names = entries_of(files, folder)
    if command == "list":
        return 0, "\n".join(record_line(files[name], name) for name in names if not fault_of(files, folder, name))
    if command == "check":
        bad = [f"{name} {fault_of(files, folder, name)}" for name in names if fault_of(files, folder, name)]
        return (27 if bad else 0), "\n".join([*bad, f"checked {len(names)} bad {len(bad)}"])
    fates = [fate_of(files, folder, to, name) for name in names]
    for name, (fate, out) in zip(names, fates):
        if fate == "added":
            files[out] = files[name]
            files.pop(out + ".part", None)
    added, same, differs, skipped = ([fate for fate, _ in fates].count(fate) for fate in ("added", "same", "differs", "skipped"))
    counts = f"merged {added} same {same} differs {differs} skipped {skipped}"
    return 0, "\n".join([*(f"{fate} {name}" for fate, name in fates), counts])


# Commands.


def opened(files, name):
    """The layout of an INPUT, its audio, and the names that are read."""
    sheet, folder, names = Sheet(), "", []
    if name[-4:].lower() == ".cue":
        if name not in files:
            raise Refused(11, f"missing {name}")
        sheet, folder, names = sheet_reading(files[name]), name[: name.rfind("/") + 1], [name]
        if isinstance(sheet, tuple):
            raise Refused(12, f"cue line {sheet[0]} {sheet[1]}")
    else:
        sheet.files, sheet.tracks = [name], [(0, 0)]
    audio, counts = [], []
    for file in sheet.files:
        file = file if file.startswith("/") else folder + file
        if file not in files:
            raise Refused(11, f"missing {file}")
        first, second = wav_reading(files[file])
        if isinstance(first, str):
            raise Refused(13, f"wav {file} at {second} {first}")
        counts.append(second)
        audio.append((file, first, second))
        names.append(file)
    return layout_of(sheet, counts), audio, names


def check_kept(layout, kept):
    pairs = [("pregap", layout[0], kept[0]), ("sectors", layout[2], kept[2]), ("tracks", len(layout[1]), len(kept[1]))]
    pairs += [(f"start {t}", a, b) for t, (a, b) in enumerate(zip(layout[1], kept[1]), 1)]
    for part, rip, record in pairs:
        if rip != record:
            raise Refused(18, f"other layout {part} rip {rip} kept {record}")


def check_free(files, name, names):
    if name in files:
        raise Refused(17, f"exists {name}")
    if name + ".part" in names:
        raise Refused(17, f"exists {name}.part")


def match_answer(files, layout, parts, asked):
    name = response.response_name(asked, layout)
    if name not in files:
        raise Refused(25, f"no response {name}")
    if len(files[name]) > MOST_RESPONSE:
        raise Refused(26, "response TooLong")
    blocks = response.blocks_of(files[name])
    if isinstance(blocks, int):
        raise Refused(26, f"response Cut at {blocks}")
    audio = b"".join(files[file][at : at + 2 * count] for file, at, count in parts)
    words = struct.unpack(f"<{len(audio) // 2}H", audio)
    return 0, response.printed(response.matches_of(layout, words, blocks))


def check_all_free(files, outs, names):
    taken = [out for out in outs if out in files] + [out + ".part" for out in outs if out + ".part" in names]
    if taken:
        raise Refused(17, f"exists {taken[0]}")


def time_text(sectors):
    return f"{sectors // 75 // 60:02}:{sectors // 75 % 60:02}:{sectors % 75:02}"


def sheet_text(pregap, entries):
    """The sheet of tracks, each with the name of its file, if that isn't the one before's, and its time."""
    lines = []
    for track, (file, time) in enumerate(entries, 1):
        lines += [f'FILE "{file}" WAVE'] if file else []
        lines += [f"  TRACK {track:02} AUDIO"]
        lines += [f"    PREGAP {time_text(pregap)}"] if track == 1 and pregap else []
        lines += [f"    INDEX 01 {time_text(time)}"]
    return "".join(f"{line}\n" for line in lines).encode()


def written_anew(files, command, to, layout, parts, names):
    """The answer of `split` or `join`."""
    pregap, starts, sectors = layout
    if command == "split":
        tracks = [f"track{track:02}.wav" for track in range(1, len(starts) + 1)]
        outs, sheet = [to + track for track in tracks], to + "disc.cue"
        cuts, times = [0, *starts[1:], sectors], [starts[0]] + [0] * (len(starts) - 1)
    else:
        tracks = [to[to.rfind("/") + 1 :]] + [""] * (len(starts) - 1)
        outs, sheet = [to], to + ".cue"
        cuts, times = [0, sectors], starts
    check_all_free(files, [*outs, sheet], names)
    audio = b"".join(files[file][at : at + 2 * count] for file, at, count in parts)
    for out, start, end in zip(outs, cuts, cuts[1:]):
        files[out] = header(1176 * (end - start)) + audio[2352 * start : 2352 * end]
    files[sheet] = sheet_text(pregap, zip(tracks, times))
    for out in [*outs, sheet]:
        files.pop(out + ".part", None)
    return 0, f"split {to} tracks {len(starts)}" if command == "split" else f"joined {to} sectors {sectors}"


def list_of(file):
    """The words of each disc of a list."""
    if len(file) > 1_048_576:
        raise Refused(28, "list TooLong")
    try:
        document = tomllib.loads(file.removeprefix(b"\xef\xbb\xbf").decode())
    except (UnicodeDecodeError, tomllib.TOMLDecodeError):
        raise Refused(28, "list NotToml") from None
    discs = document.get("disc")
    if not isinstance(discs, list) or not discs:
        raise Refused(28, "list NoDiscs")
    if len(discs) > 1000:
        raise Refused(28, "list TooMany")
    for number, disc in enumerate(discs, 1):
        words = disc.get("words") if isinstance(disc, dict) else None
        if not isinstance(words, list) or not all(isinstance(word, str) for word in words):
            raise Refused(28, f"list BadDisc {number}")
        if words and words[0] == "batch":
            raise Refused(28, f"list BadWords {number} word 0")
        try:
            check_words(words)
        except Refused as refused:
            raise Refused(28, f"list BadWords {number} word {refused.args[1].split()[-1]}") from None
    return [disc["words"] for disc in discs]


def batch_answer(files, name, is_searched):
    """The answer of `batch`: each disc over the files that the one before left."""
    if name not in files:
        raise Refused(11, f"missing {name}")
    lists, text, failed, undecided = list_of(files[name]), "", 0, False
    for number, words in enumerate(lists, 1):
        try:
            status, told = answer(files, words, is_searched)
        except Refused as refused:
            status, told = refused.args
        except Undecided:
            undecided = True
            continue
        failed += status != 0
        text += f"disc {number} number {status}\n{told}{chr(10) if told else ''}"
        if len(text.encode()) > ROOM:
            return 32, text
    if undecided:
        raise Undecided
    return 29 if failed else 0, f"{text}batch discs {len(lists)} failed {failed}"


def answer(files, words, is_searched):
    """The status and the text of a run."""
    check_words(words)
    command, *rest = words
    if command == "batch":
        return batch_answer(files, rest[0], is_searched)
    if command == "trial":
        raise Undecided
    if command in ("list", "check", "merge"):
        return upkeep_answer(files, command, rest[0], rest[-1])
    layout, parts, names = opened(files, rest[0])
    if command == "sums":
        raise Undecided
    if command == "match":
        return match_answer(files, layout, parts, rest[1])
    if command in ("split", "join"):
        return written_anew(files, command, rest[1], layout, parts, names)
    if layout[2] < 30:
        raise Refused(14, f"layout TooShort sectors {layout[2]}")
    name = rest[1] + (store_key(layout) + ".rpar" if rest[1].endswith("/") else "")
    if command != "register":
        if name not in files:
            raise Refused(15, f"no record {name}")
        kept = record_layout(files[name])
        if isinstance(kept, str):
            raise Refused(16, f"record {kept}")
        check_kept(layout, kept)
    if command == "upgrade":
        if files[name][:8] == b"RIPPAR02":
            raise Refused(19, f"sealed {name}")
        if name + ".part" in [*names, name]:
            raise Refused(17, f"exists {name}.part")
        rest[1] = name
    if command in ("register", "repair"):
        to = name if command == "register" else rest[2]
        check_free(files, to, names + ([name] if command == "repair" else []))
    if (command == "register" and layout[2] > SLOW or command != "register") and not is_searched:
        raise Left if command in ("register", "repair", "upgrade") else Undecided
    audio = b"".join(files[file][at : at + 2 * count] for file, at, count in parts)
    option = rest[-1].partition("=")[2] if rest[-1].startswith("--") else ""
    if command == "register":
        words = struct.unpack(f"<{len(audio) // 2}H", audio)
        files[name] = record_of(layout, parity_of(audio, int(option or 8)), seal_of(words, 0))
        files.pop(f"{name}.part", None)
        return 0, f"registered {name} sectors {layout[2]} npar {option or 8}"
    return search_answer(command, audio, files[name], len(layout[1]), int(option) if option else None, rest, files)


def printed(files, line, is_searched):
    """What a line prints, or None where that isn't decided."""
    words = ["" if word == '""' else word for word in line.split(" ")[1:] if word]
    if line.startswith("show "):
        tell = lambda file: f"{len(file)} bytes {hashlib.sha256(file).hexdigest()}" if file is not None else "none"
        return [f"{name} {tell(files.get(name))}" for name in words]
    try:
        status, text = answer(files, words, is_searched)
    except Refused as refused:
        status, text = refused.args
    except Undecided:
        return None
    lines = text.split("\n") if text else []
    whole = "".join(f"{told}\n" for told in lines).encode()
    if len(whole) > ROOM:
        status, whole = 32, whole[:ROOM]
    if len(whole) > 1000:
        return [line, f"status {status}", f"{len(whole)} bytes {hashlib.sha256(whole).hexdigest()}"]
    return [line, f"status {status}", *lines]


def followed(script, searched):
    """For each case its lines, each with what it prints, up to the one from which nothing is decided."""
    files, is_left, name = {}, False, ""
    for line in script:
        if line.startswith("case "):
            files, is_left, name = {}, False, line[5:]
            yield line, ["", line]
        elif line and line[0] != "#" and not is_left:
            if " = " in line:
                made_name, _, maker = line.partition(" = ")
                files[made_name] = made(files, maker)
                continue
            try:
                if not line.startswith(("run", "show")):
                    raise Left
                yield line, printed(files, line, name in searched)
            except Left:
                is_left = True
                yield line, None


def compare(script, stdout, searched):
    """Sees that each line that is decided prints what it is to print, directly after the one before if that is decided."""
    at = decided = undecided = 0
    may_pass = False
    for line, wanted in followed(script, searched):
        if wanted is None:
            undecided += 1
            may_pass = True
            continue
        while may_pass and at < len(stdout) and stdout[at : at + len(wanted)] != wanted:
            at += 1
        if stdout[at : at + len(wanted)] != wanted:
            sys.exit(f"stdout lacks, at its line {at + 1}: {wanted}")
        at += len(wanted)
        decided += not line.startswith("case ")
        may_pass = False
    print(f"{decided} lines print what the definitions give, {undecided} aren't decided")


def main():
    words = sys.argv[1:]
    searched = [words.pop(i + 1) for i in range(len(words) - 2, -1, -1) if words[i] == "--search"]
    words = [word for word in words if word != "--search"]
    if words:
        for line, wanted in followed(open(words[0]).read().split("\n"), searched):
            print("\n".join(wanted if wanted else [f"{line}: not decided"]))
    else:
        folder = sys.path[0] + "/../crates/worked_cases/"
        script, stdout = (open(folder + name).read().split("\n") for name in ("stdin", "stdout"))
        compare(script, stdout, searched)


if __name__ == "__main__":
    main()
