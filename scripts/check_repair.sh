#!/bin/sh
# Registers a rip of random audio, and compares with its record a later rip of the same audio: 30 samples late, and with
# some bytes damaged. It is verified, its offset is listed, and it is mended: its audio is then that of the late rip
# before the damage. An output that is there is refused, and stays. The script ends with 0 only if all is so.
set -eu
here=$(CDPATH= cd -- "$(dirname -- "$0")" && pwd)
work=$(mktemp -d)
trap 'rm -rf "$work"' EXIT
cd "$work"

# Says what is wrong, and ends.
fail() {
    echo "check_repair: $1" >&2
    exit 1
}

# Runs the program with the words after the first, and sees that it ends with that number. Its text is then in `text`.
runs() {
    wanted=$1
    shift
    number=0
    "$here/rip" "$@" > text || number=$?
    [ "$number" -eq "$wanted" ] || fail "rip $*: ended with $number, not $wanted"
}

# Sees that the last run printed the lines of standard input, and no more.
prints() {
    cat > lines
    cmp -s lines text || fail "printed: $(cat text), not: $(cat lines)"
}

# Makes a WAV file of 100 sectors: the header of 44 bytes, and the audio of the first file.
make_wav() {
    printf 'RIFF\344\226\003\000WAVEfmt \020\000\000\000\001\000\002\000\104\254\000\000\020\261\002\000\004\000\020\000data\300\226\003\000' > "$2"
    cat "$1" >> "$2"
}

# Makes two bytes of a file wrong from a place on: they become others than they were.
damage() {
    printf no > other
    dd if="$1" of=found bs=1 skip="$2" count=2 2> /dev/null
    if cmp -s found other; then
        printf ON > other
    fi
    dd if=other of="$1" bs=1 seek="$2" conv=notrunc 2> /dev/null
}

# 100 sectors of any audio, and the same 30 samples later: 120 bytes of zeros come first, and as many are lost at the
# end.
head -c 235200 /dev/urandom > audio.raw
head -c 120 /dev/zero > late.raw
head -c 235080 audio.raw >> late.raw
make_wav audio.raw disc.wav
runs 0 register disc.wav disc.rpar
prints << 'END'
registered disc.rpar sectors 100 npar 8
END

# Three words of one column, and one of the next. At that offset the word k of column j is the word 11,820 + 11,760 k +
# j of the audio, and each word is two bytes.
cp late.raw damaged.raw
damage damaged.raw 23640
damage damaged.raw 47160
damage damaged.raw 188280
damage damaged.raw 70682
make_wav damaged.raw damaged.wav
cp damaged.wav kept.wav

runs 0 verify disc.wav disc.rpar
prints << 'END'
offset +0 errors 0 columns 0
verified
END
runs 23 verify damaged.wav disc.rpar
prints << 'END'
offset +30 errors 4 columns 2
mendable
END
runs 0 offsets damaged.wav disc.rpar
prints << 'END'
offset +30 errors 4 columns 2
END
runs 0 repair damaged.wav disc.rpar mended.wav
prints << 'END'
offset +30 errors 4 columns 2
written mended.wav
END
make_wav late.raw late.wav
cmp late.wav mended.wav || fail "the mended rip isn't the late one before its damage"
cmp kept.wav damaged.wav || fail "the damaged rip was changed"
runs 0 verify mended.wav disc.rpar
prints << 'END'
offset +30 errors 0 columns 0
verified
END

# The output is there now, and stays as it is.
runs 17 repair damaged.wav disc.rpar mended.wav
prints << 'END'
exists mended.wav
END
cmp late.wav mended.wav || fail "the output that was there was changed"
if [ -e mended.wav.part ]; then
    fail "mended.wav.part was left"
fi
echo "verify, offsets and repair: as expected"
