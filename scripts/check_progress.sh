#!/bin/sh
# Runs the program on a large rip in a real terminal, and sees the line there that tells how far reading goes: it is
# written over, no more than five times a second, and is gone before anything else is printed. And runs it where standard
# error is a pipe, a file or a terminal that can't clear a line, and sees that nothing is written there.
#
#     scripts/check_progress.sh [PROGRAM]
#
# With no word it runs the program that scripts/rip built. It wants tmux, script and 2 GB of disk, and takes a minute. It
# prints what the line costs, and ends with 0 only if all is so.
set -eu
top=$(CDPATH= cd -- "$(dirname -- "$0")/.." && pwd)
program=$(realpath "${1-$top/bin/rip}")
work=$(mktemp -d)
socket=check-progress-$$
runs=0
trap 'tmux -L "$socket" kill-server 2> /dev/null || true; rm -rf "$work"' EXIT
cd "$work"

# Says what is wrong, and ends.
fail() {
    echo "check_progress: $1" >&2
    exit 1
}

# Prints a number as four bytes, the lowest first.
four_bytes() {
    for shift in 0 8 16 24; do
        printf "\\$(printf %03o $(($1 >> shift & 255)))"
    done
}

# Makes a WAV file of so many sectors of silence.
make_wav() {
    {
        printf RIFF
        four_bytes $(($2 * 2352 + 36))
        printf 'WAVEfmt \020\000\000\000\001\000\002\000\104\254\000\000\020\261\002\000\004\000\020\000data'
        four_bytes $(($2 * 2352))
    } > "$1"
    truncate -s $(($2 * 2352 + 44)) "$1"
}

# Runs a line of a shell in a terminal whose kind is the first word, and keeps all that it writes in `written`.
in_terminal() {
    TERM=$1 script -q -e -c "$2" /dev/null > written < /dev/null || fail "$2: ended with $?: $(cat -v written)"
}

# Sees that the last of these runs wrote one line of text, and nothing else.
wrote() {
    printf '%s\r\n' "$1" > wanted
    cmp -s wanted written || fail "written: $(cat -v written), not: $1"
}

# Begins a run in a terminal of 80 columns. Its number is then in `ended`.
begin() {
    rm -f ended
    runs=$((runs + 1))
    socket=check-progress-$$-$runs
    tmux -L "$socket" -f /dev/null new-session -d -x 80 -y 24 "'$program' $1; echo \$? > ended; sleep 60"
}

# Prints what stands on the screen.
screen() {
    tmux -L "$socket" capture-pane -p | grep . || true
}

# Looks at the screen until the run has ended, and keeps the lines that it saw in `seen`.
look() {
    : > seen
    tries=0
    until [ -s ended ]; do
        screen >> seen
        sleep 0.05
        tries=$((tries + 1))
        [ "$tries" -lt 1200 ] || fail "the run doesn't end: $(screen)"
    done
    sleep 0.2
}

line='^rip: disc\.wav: [0-9]* of 1047 MB, [0-9]* MB/s$'
make_wav disc.wav 445500
make_wav small.wav 30

# ---- the line is seen, and is gone at the end
begin 'register disc.wav disc.rpar'
look
[ "$(cat ended)" -eq 0 ] || fail "register: ended with $(cat ended): $(screen)"
[ "$(grep "$line" seen | sort -u | wc -l)" -ge 2 ] || fail "the line was seen too seldom: $(sort -u seen)"
[ "$(screen)" = 'registered disc.rpar sectors 445500 npar 8' ] || fail "at the end the screen shows: $(screen)"
grep "$line" seen | uniq | head -n 3
tmux -L "$socket" kill-server

# ---- a failure in the middle is told in a line of its own
begin 'register disc.wav changed.rpar'
tries=0
until screen | grep -q "$line"; do
    sleep 0.05
    tries=$((tries + 1))
    [ "$tries" -lt 1200 ] || fail "no line is seen: $(screen)"
done
touch disc.wav
look
[ "$(cat ended)" -eq 30 ] || fail "register: ended with $(cat ended): $(screen)"
printf '%s\n' 'rip: disc.wav: Changed while it was read' 'read fault' > wanted
screen > written
cmp -s wanted written || fail "after the failure the screen shows: $(cat written)"
tmux -L "$socket" kill-server

# ---- no more than five lines a second, all of them before the text, and none of a short run
start=$(date +%s)
in_terminal xterm "'$program' register disc.wav lines.rpar"
seconds=$(($(date +%s) - start + 1))
drawn=$(tr '\r' '\n' < written | grep -c 'MB/s' || true)
[ "$drawn" -ge 2 ] || fail "$drawn lines in $seconds seconds"
[ "$drawn" -le $((seconds * 5)) ] || fail "$drawn lines in $seconds seconds"
end=$(printf '\r\033[Kregistered lines.rpar sectors 445500 npar 8\r\nended')
case $(cat written; printf ended) in
    *"$end") ;;
    *) fail "the line isn't cleared before the text: $(cat -v written)" ;;
esac
in_terminal xterm "'$program' register small.wav small.rpar"
wrote 'registered small.rpar sectors 30 npar 8'

# ---- nothing is written to a pipe, to a file, or to a terminal that can't clear a line
"$program" register disc.wav pipe.rpar 2>&1 > /dev/null | cat > written
[ ! -s written ] || fail "written to a pipe: $(cat -v written)"
"$program" register disc.wav file.rpar > /dev/null 2> written
[ ! -s written ] || fail "written to a file: $(cat -v written)"
in_terminal xterm "'$program' register disc.wav beside.rpar 2> errors"
wrote 'registered beside.rpar sectors 445500 npar 8'
[ ! -s errors ] || fail "written to a file: $(cat -v errors)"
in_terminal dumb "'$program' register disc.wav dumb.rpar"
wrote 'registered dumb.rpar sectors 445500 npar 8'

# ---- what it costs: the least processor time of five runs each, with the line and without
least() {
    for _ in 1 2 3 4 5; do
        rm -f cost.rpar
        in_terminal "$1" "bash -c 'TIMEFORMAT=%3U+%3S; { time \"$program\" register disc.wav cost.rpar 2> /dev/tty; } 2> times'"
        cat times
    done | awk -F + '{ now = $1 + $2; if (NR == 1 || now < least) least = now } END { print least }'
}
with=$(least xterm)
without=$(least dumb)
echo "processor time: $with seconds with the line, $without without, $(awk "BEGIN { printf \"%.1f\", ($with / $without - 1) * 100 }") % more"
echo "the line is seen where it should be, and nowhere else"
