#!/usr/bin/env python3
"""Compares the ids of discs and the AccurateRip sums of tracks with other programs' answers.

The ids and sums are computed here by their definitions. They are compared with worked examples; for made layouts with
libdiscid (MusicBrainz and FreeDB ids) and whipper (AccurateRip ids); and for made tracks with whipper's checksums. What
isn't installed is skipped (Debian: libdiscid0, whipper).
With `--program PATH` the lines of PATH's command `sums` are compared too.
"""

import base64
import ctypes
import hashlib
import random
import struct
import subprocess
import sys
import tempfile
from pathlib import Path

# Where Debian keeps the modules of packages, for a Python that isn't its own.
sys.path.append("/usr/lib/python3/dist-packages")

LAYOUTS = 400
TRACKS = 150
DISCS = 200
SECTOR = 588


class Layout:
    """A pregap, the starts of the tracks after it, and the sectors of audio."""

    def __init__(self, pregap, starts, sectors):
        self.pregap = pregap
        self.starts = starts
        self.sectors = sectors

    def begins(self):
        return [self.pregap + start for start in self.starts]

    def lead_out(self):
        return self.pregap + self.sectors


def accurip_ids(layout):
    begins, end = layout.begins(), layout.lead_out()
    one = sum(begins) + end
    two = sum(max(begin, 1) * t for t, begin in enumerate(begins, 1)) + end * (len(begins) + 1)
    return one % 2**32, two % 2**32


def second(sector):
    return (sector + 150) // 75


def freedb_id(layout):
    begins = layout.begins()
    digits = sum(int(digit) for begin in begins for digit in str(second(begin)))
    return digits % 255 * 2**24 + (second(layout.lead_out()) - second(begins[0])) * 2**8 + len(begins)


def digest(text):
    code = base64.b64encode(hashlib.sha1(text.encode()).digest()).decode()
    return code.replace("+", ".").replace("/", "_").replace("=", "-")


def musicbrainz_text(layout):
    begins = layout.begins()
    fields = [begin + 150 for begin in begins] + [0] * (99 - len(begins))
    return f"01{len(begins):02X}{layout.lead_out() + 150:08X}" + "".join(f"{field:08X}" for field in fields)


def store_key_text(layout):
    first = layout.starts[0]
    places = layout.starts[1:] + [layout.sectors]
    return "".join(f"{place - first:08X}" for place in places).ljust(800, "0")


def track_sums(first, last, words):
    """v1 and v2 of a track's words, a left and a right word for each sample."""
    samples = len(words) // 2
    one = two = 0
    for i in range(1, samples + 1):
        if (first and i < 2940) or (last and i > samples - 2940):
            continue
        product = i * (words[2 * i - 2] + 65536 * words[2 * i - 1])
        one += product
        two += product % 2**32 + product // 2**32
    return one % 2**32, two % 2**32


def wav(words):
    data = struct.pack(f"<{len(words)}H", *words)
    head = struct.pack("<4sI4s4sIHHIIHH4sI", b"RIFF", 36 + len(data), b"WAVE", b"fmt ", 16, 1, 2, 44100, 176400, 4, 16, b"data", len(data))
    return head + data


def expect(found, wanted, what):
    if found != wanted:
        sys.exit(f"{what}: {found!r} is not {wanted!r}")


def made_layout(chance):
    """A layout of up to 99 tracks; some have no pregap, begin at 0, or have tracks of one sector."""
    tracks = chance.choice([1, 1, 2, chance.randint(3, 30), chance.randint(31, 98), 99])
    pregap = chance.choice([0, 0, 1, 150, chance.randint(0, 5000)])
    most = chance.choice([tracks + 5, 2000, 60_000, 404_850 - pregap])
    places = sorted(chance.sample(range(max(most, tracks + 1)), tracks + 1))
    if chance.random() < 0.5:
        places[0] = 0
    return Layout(pregap, places[:-1], places[-1])


def check_examples():
    six = Layout(0, [0, 15213, 32164, 46442, 63264, 80339], 95312)
    expect("%08x-%08x" % accurip_ids(six), "000513be-001b2231", "AccurateRip ids")
    expect("%08x" % freedb_id(six), "3404f606", "FreeDB id")
    expect(len(musicbrainz_text(six)), 804, "length of the MusicBrainz text")
    expect(len(store_key_text(six)), 800, "length of the key's text")
    expect(musicbrainz_text(six), "0106000174E60000009600003C0300007E3A0000B6000000F7B600013A69" + "0" * 744, "MusicBrainz text")
    expect(store_key_text(six), "00003B6D00007DA40000B56A0000F720000139D300017450" + "0" * 752, "key's text")
    expect(digest(musicbrainz_text(six)), "49HHV7Eb8UKF3aQiNmu1GR8vKTY-", "MusicBrainz id")
    two = Layout(0, [0, 250], 550)
    expect(accurip_ids(two), (800, 2151), "AccurateRip ids")
    expect("%08x" % freedb_id(two), "07000702", "FreeDB id")
    samples = 30 * SECTOR
    expect(track_sums(True, True, [1, 0] * samples), (0x062ED334, 0x062ED334), "sums of ones")
    expect(track_sums(True, True, [0xFFFF, 0xFFFF] * samples), (0xF9D12CCC, 0xFFFFD20F), "sums of the highest samples")
    for place, wanted in ((2938, 0), (2939, 2940)):
        words = [0] * (2 * samples)
        words[2 * place] = 1
        expect(track_sums(True, True, words), (wanted, wanted), f"sums of one word in sample {place}")
    print("examples: as worked")


def check_libdiscid(layouts):
    try:
        library = ctypes.CDLL("libdiscid.so.0")
    except OSError:
        print("libdiscid: skipped")
        return
    for name in ("discid_new", "discid_get_id", "discid_get_freedb_id", "discid_get_error_msg"):
        getattr(library, name).restype = ctypes.c_void_p if name == "discid_new" else ctypes.c_char_p
        getattr(library, name).argtypes = [] if name == "discid_new" else [ctypes.c_void_p]
    library.discid_put.argtypes = [ctypes.c_void_p, ctypes.c_int, ctypes.c_int, ctypes.POINTER(ctypes.c_int)]
    disc = library.discid_new()
    for layout in layouts:
        offsets = (ctypes.c_int * 100)(layout.lead_out() + 150, *[begin + 150 for begin in layout.begins()])
        if not library.discid_put(disc, 1, len(layout.starts), offsets):
            sys.exit(f"libdiscid refuses {layout.__dict__}: {library.discid_get_error_msg(disc).decode()}")
        expect(digest(musicbrainz_text(layout)), library.discid_get_id(disc).decode(), f"MusicBrainz id of {layout.__dict__}")
        expect("%08x" % freedb_id(layout), library.discid_get_freedb_id(disc).decode(), f"FreeDB id of {layout.__dict__}")
    print(f"libdiscid: the same ids of {len(layouts)} layouts")


def check_whipper_ids(layouts):
    try:
        from whipper.image.table import Table, Track
    except ImportError:
        print("whipper's ids: skipped")
        return
    for layout in layouts:
        table = Table()
        begins, end = layout.begins(), layout.lead_out()
        for number, begin in enumerate(begins, 1):
            track = Track(number, audio=True)
            track.index(1, absolute=begin, relative=0, path="audio.wav", counter=1)
            table.tracks.append(track)
        table.leadout = end
        expect(tuple("%08x" % number for number in accurip_ids(layout)), table.accuraterip_ids(), f"AccurateRip ids of {layout.__dict__}")
        expect("%08x" % freedb_id(layout), table.getCDDBDiscId(), f"FreeDB id of {layout.__dict__}")
    print(f"whipper: the same ids of {len(layouts)} layouts")


def made_words(chance, samples):
    kind = chance.randrange(4)
    if kind == 0:
        return [chance.randrange(65536) for _ in range(2 * samples)]
    if kind == 1:
        return [65535] * (2 * samples)
    words = [0] * (2 * samples)
    for _ in range(kind * 5):
        words[chance.randrange(2 * samples)] = chance.randrange(65536)
    return words


def check_whipper_sums(chance):
    try:
        import accuraterip
    except ImportError:
        print("whipper's sums: skipped")
        return
    with tempfile.TemporaryDirectory() as folder:
        path = Path(folder, "track.wav")
        for _ in range(TRACKS):
            tracks = chance.randint(1, 4)
            number = chance.randint(1, tracks)
            # A last track of fewer than five sectors has no samples that count; there whipper's limit goes below 0.
            sectors = chance.choice([chance.randint(5 if number == tracks else 1, 12), chance.randint(10, 40)])
            words = made_words(chance, sectors * SECTOR)
            path.write_bytes(wav(words))
            found = accuraterip.compute(str(path), number, tracks)
            expect(track_sums(number == 1, number == tracks, words), tuple(found[:2]), f"sums of track {number} of {tracks}, {sectors} sectors")
    print(f"whipper: the same sums of {TRACKS} tracks")


def time_of(sectors):
    return f"{sectors // 4500:02}:{sectors // 75 % 60:02}:{sectors % 75:02}"


def lines_of(layout, words):
    """What the command `sums` prints of a disc."""
    starts = layout.starts + [layout.sectors]
    lines = ["disc %03d-%08x-%08x-%08x" % (len(layout.starts), *accurip_ids(layout), freedb_id(layout))]
    lines.append(f"musicbrainz {digest(musicbrainz_text(layout))}")
    lines.append(f"key {digest(store_key_text(layout))}")
    for t in range(len(layout.starts)):
        track = words[2 * SECTOR * starts[t] : 2 * SECTOR * starts[t + 1]]
        lines.append("track %02d v1 %08x v2 %08x" % (t + 1, *track_sums(t == 0, t == len(layout.starts) - 1, track)))
    return lines


def sheet_of(layout, second):
    """A sheet of one file, or of two of which the second begins with the track number `second`."""
    sheet, base = ['FILE "1.wav" WAVE'], 0
    for t, start in enumerate(layout.starts, 1):
        if t == second:
            sheet, base = sheet + ['FILE "2.wav" WAVE'], start
        sheet.append(f"TRACK {t:02} AUDIO")
        if t == 1 and layout.pregap > 0:
            sheet.append(f"PREGAP {time_of(layout.pregap)}")
        sheet.append(f"INDEX 01 {time_of(start - base)}")
    return "\n".join(sheet) + "\n"


def check_program(program, chance):
    with tempfile.TemporaryDirectory() as folder:
        for _ in range(DISCS):
            sectors = chance.randint(30, 60)
            tracks = chance.randint(1, 5)
            starts = sorted(chance.sample(range(sectors - 1), tracks))
            layout = Layout(chance.choice([0, chance.randint(1, 20_000)]), starts, sectors)
            words = made_words(chance, sectors * SECTOR)
            second = chance.randint(2, tracks) if tracks > 1 and chance.random() < 0.5 else 0
            cut = 2 * SECTOR * starts[second - 1] if second else len(words)
            Path(folder, "1.wav").write_bytes(wav(words[:cut]))
            Path(folder, "2.wav").write_bytes(wav(words[cut:]))
            Path(folder, "disc.cue").write_text(sheet_of(layout, second))
            run = subprocess.run([program, "sums", "disc.cue"], cwd=folder, capture_output=True, text=True, check=True)
            expect(run.stdout.splitlines(), lines_of(layout, words), f"lines of {layout.__dict__}")
    print(f"{program}: the same lines of {DISCS} discs")


def main():
    chance = random.Random(20)
    check_examples()
    layouts = [made_layout(chance) for _ in range(LAYOUTS)]
    check_libdiscid(layouts)
    check_whipper_ids(layouts)
    check_whipper_sums(chance)
    if sys.argv[1:2] == ["--program"]:
        check_program(str(Path(sys.argv[2]).resolve()), chance)


main()
