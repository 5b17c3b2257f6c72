#!/bin/sh
# Registers WAV files as `sox` and `ffmpeg` write them, and compares their records with that of the plain file of the
# same audio. A tool that isn't there is skipped.
set -eu
here=$(CDPATH= cd -- "$(dirname -- "$0")" && pwd)
work=$(mktemp -d)
trap 'rm -rf "$work"' EXIT
cd "$work"
# 30 sectors of any audio, and the header of 44 bytes before it.
head -c 70560 /dev/urandom > audio.raw
printf 'RIFF\304\023\001\000WAVEfmt \020\000\000\000\001\000\002\000\104\254\000\000\020\261\002\000\004\000\020\000data\240\023\001\000' > plain.wav
cat audio.raw >> plain.wav
"$here/rip" register plain.wav plain.rpar
check() {
    "$here/rip" register "$1.wav" "$1.rpar"
    cmp plain.rpar "$1.rpar"
    echo "$1: the same record"
}
if command -v sox > /dev/null; then
    sox -t raw -r 44100 -e signed -b 16 -c 2 -L audio.raw --comment 'a comment' sox.wav
    check sox
else
    echo "sox: skipped"
fi
if command -v ffmpeg > /dev/null; then
    ffmpeg -loglevel error -f s16le -ar 44100 -ac 2 -i audio.raw -metadata title=Audio ffmpeg.wav < /dev/null
    check ffmpeg
else
    echo "ffmpeg: skipped"
fi
