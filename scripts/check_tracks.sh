#!/bin/sh
# The life of a disc that is kept in tracks: it is registered in a folder of records, one track's file is damaged later, the rip is
# mended, split into tracks again, joined, and verified by the record. The mended tracks are the first ones, byte for byte, and all
# sheets have the same ids and sums. cuetools, shntool and whipper, where they are there, read the written sheets as it does.
# The script ends with 0 only if all is so. PROGRAM is the first word, else the one that `scripts/rip` built.
set -eu
here=$(CDPATH= cd -- "$(dirname -- "$0")" && pwd)
program=${1:-$here/rip}
work=$(mktemp -d)
trap 'rm -rf "$work"' EXIT
cd "$work"

# Says what is wrong, and ends.
fail() {
    echo "check_tracks: $1" >&2
    exit 1
}

# Runs the program with the words after the first, and sees that it ends with that number.
runs() {
    wanted=$1
    shift
    number=0
    "$program" "$@" > text || number=$?
    [ "$number" -eq "$wanted" ] || fail "rip $*: ended with $number, not $wanted: $(cat text)"
}

# The files of both folders are the same.
same_tracks() {
    for track in 01 02 03; do
        cmp -s "$1/track$track.wav" "$2/track$track.wav" || fail "track $track of $1 and $2 isn't the same"
    done
}

# A number in four bytes, the low one first.
four_bytes() {
    for shift in 1 256 65536 16777216; do
        printf "\\$(printf '%03o' $(($1 / shift % 256)))"
    done
}

# Makes a WAV file of so many sectors of any audio.
make_wav() {
    bytes=$(($2 * 2352))
    printf 'RIFF' > "$1"
    four_bytes $((36 + bytes)) >> "$1"
    printf 'WAVEfmt \020\000\000\000\001\000\002\000\104\254\000\000\020\261\002\000\004\000\020\000data' >> "$1"
    four_bytes $bytes >> "$1"
    head -c $bytes /dev/urandom >> "$1"
}

mkdir rip store later back again
make_wav rip/track01.wav 180
make_wav rip/track02.wav 260
make_wav rip/track03.wav 311
# Hidden audio of 33 sectors before track 1, and a pregap of two seconds.
cat > rip/disc.cue << 'END'
FILE "track01.wav" WAVE
  TRACK 01 AUDIO
    PREGAP 00:02:00
    INDEX 01 00:00:33
FILE "track02.wav" WAVE
  TRACK 02 AUDIO
    INDEX 01 00:00:00
FILE "track03.wav" WAVE
  TRACK 03 AUDIO
    INDEX 01 00:00:00
END
runs 0 register rip/disc.cue store/
runs 0 sums rip/disc.cue
cp text sums

# Thirty sectors of track 2 become wrong.
cp rip/* later/
dd if=/dev/urandom of=later/track02.wav bs=2352 seek=100 count=30 conv=notrunc 2> /dev/null
runs 23 verify later/disc.cue store/
runs 0 repair later/disc.cue store/ mended.wav

# The layout of the rip, for the one file: the sheet of a joined rip, which names another file.
runs 0 join later/disc.cue whole.wav
sed 's/^FILE "whole.wav"/FILE "mended.wav"/' whole.wav.cue > mended.wav.cue
runs 0 split mended.wav.cue back/
same_tracks rip back
runs 0 verify back/disc.cue store/
runs 0 join back/disc.cue again.wav
cmp -s mended.wav again.wav || fail "what was split and joined isn't the mended file"
runs 0 verify again.wav.cue store/
for sheet in back/disc.cue mended.wav.cue again.wav.cue; do
    runs 0 sums $sheet
    cmp -s text sums || fail "$sheet has other ids or sums than the rip"
done
echo "tracks: registered, damaged, mended, split, joined and verified"

if command -v cueprint > /dev/null && command -v cuebreakpoints > /dev/null; then
    [ "$(cueprint -d '%N' back/disc.cue)" = 3 ] || fail "cueprint counts other tracks"
    [ "$(cueprint -d '%N' again.wav.cue)" = 3 ] || fail "cueprint counts other tracks"
    # The cuts are in minutes, seconds and sectors; the gap of two seconds before track 1 isn't in the file.
    [ "$(cuebreakpoints again.wav.cue | tr '\n' ' ')" = "0:02.30 0:05.65 " ] || fail "cuebreakpoints: $(cuebreakpoints again.wav.cue)"
    echo "cuetools: reads the sheets so"
else
    echo "cuetools: skipped"
fi
if command -v shnsplit > /dev/null; then
    printf '0:02.30\n0:05.65\n' | shnsplit -q -O always -d again -a track again.wav
    same_tracks rip again
    echo "shntool: cuts the file so"
else
    echo "shntool: skipped"
fi
# whipper's reader of sheets: each track's number, file and start in sectors.
if /usr/bin/python3 -c 'import whipper.image.cue' 2> /dev/null; then
    /usr/bin/python3 - > text 2> /dev/null << 'END'
from whipper.image.cue import CueFile

for name in ("back/disc.cue", "again.wav.cue"):
    sheet = CueFile(name)
    sheet.parse()
    for track in sheet.table.tracks:
        start = track.getIndex(1)
        print(track.number, start.path, start.relative)
END
    cat > lines << 'END'
1 track01.wav 33
2 track02.wav 0
3 track03.wav 0
1 again.wav 33
2 again.wav 180
3 again.wav 440
END
    cmp -s lines text || fail "whipper reads: $(cat text)"
    echo "whipper: reads the sheets so"
else
    echo "whipper: skipped"
fi
