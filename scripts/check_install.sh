#!/bin/sh
# Installs a stand-in program below folders of its own with `scripts/install`, and takes it out again: what is there
# then, and what isn't. And types words in a real bash, and in a real zsh where there is one: each line is completed by tabs
# and run, and the stand-in tells the words that it was given. Nothing is built. The script ends with 0 only if all is so.
set -eu
top=$(CDPATH= cd -- "$(dirname -- "$0")/.." && pwd)
work=$(mktemp -d)
trap 'rm -rf "$work"' EXIT
cd "$work"

# Says what is wrong, and ends.
fail() {
    echo "check_install: $1" >&2
    exit 1
}

# The stand-in: it adds its words to the file `given`, each in `<` and `>`.
mkdir stand-in
cat > stand-in/rip << 'END_OF_PROGRAM'
#!/bin/sh
{
    printf '<%s>' "$@"
    echo
} >> "$GIVEN"
END_OF_PROGRAM
chmod +x stand-in/rip
GIVEN=$work/given
export GIVEN

# Runs the script with the words after the first, and sees that it ends with that number.
installs() {
    wanted=$1
    shift
    number=0
    RIP_PROGRAM=$work/stand-in/rip "$top/scripts/install" "$@" > text 2>&1 || number=$?
    [ "$number" -eq "$wanted" ] || fail "install $*: ended with $number, not $wanted: $(cat text)"
}

# Sees that what stands below a folder is what standard input names, and nothing else.
holds() {
    sort > wanted
    (cd "$1" && find . ! -name .) | sort > there
    cmp -s wanted there || fail "below $1: $(diff wanted there)"
}

# ---- a new folder, in one that is new too
installs 0 "$work/new/prefix"
holds new << 'END_OF_NAMES'
./prefix
./prefix/bin
./prefix/bin/rip
./prefix/share
./prefix/share/bash-completion
./prefix/share/bash-completion/completions
./prefix/share/bash-completion/completions/rip
./prefix/share/man
./prefix/share/man/man1
./prefix/share/man/man1/rip.1
./prefix/share/rip
./prefix/share/rip/made
./prefix/share/zsh
./prefix/share/zsh/site-functions
./prefix/share/zsh/site-functions/_rip
END_OF_NAMES
cmp stand-in/rip new/prefix/bin/rip
cmp "$top/docs/rip.1" new/prefix/share/man/man1/rip.1
cmp "$top/completions/rip.bash" new/prefix/share/bash-completion/completions/rip
cmp "$top/completions/_rip" new/prefix/share/zsh/site-functions/_rip
[ -x new/prefix/bin/rip ] || fail "the program can't be run"
grep -q "isn't on the path" text || fail "nothing is said of the path"
new/prefix/bin/rip sums disc.wav
[ "$(cat given)" = '<sums><disc.wav>' ] || fail "the program isn't the one that was installed"
if command -v man > /dev/null; then
    found=$(MANPATH=$work/new/prefix/share/man man -w rip)
    [ "$found" = "$work/new/prefix/share/man/man1/rip.1" ] || fail "man found $found"
fi

# Again, which changes nothing that is taken out later, and out.
installs 0 "$work/new/prefix"
installs 0 "$work/new/prefix" --remove
[ ! -e new ] || fail "left: $(find new)"
installs 1 "$work/new/prefix" --remove

# ---- a folder with files and folders of another origin, named from where one stands
mkdir -p old/bin old/share/man
echo other > old/bin/other
installs 0 old
echo other > old/share/man/man1/other.1
installs 0 old/ --remove
holds old << 'END_OF_NAMES'
./bin
./bin/other
./share
./share/man
./share/man/man1
./share/man/man1/other.1
END_OF_NAMES

# ---- a program of another origin stays, and nothing is installed beside it
mkdir -p taken/bin
echo other > taken/bin/rip
installs 1 taken
holds taken << 'END_OF_NAMES'
./bin
./bin/rip
END_OF_NAMES
[ "$(cat taken/bin/rip)" = other ] || fail "the program of another origin was replaced"
installs 1 taken --remove

# ---- words that make no sense
installs 2
installs 2 --remove
installs 2 old --other
installs 2 old --remove more

# ---- completions
mkdir files
cd files
mkdir store 'My Discs' audio
touch disc.wav Second.WAV disc.cue disc.rpar 'My Discs/one two.wav' notes.txt store/one.rpar list.toml dBAR.bin 'in: 1.wav' \
    audio/track.wav
cd "$work"
installs 0 "$work/prefix"

# Types the first line in a shell, whose words are the others, and sees that the program is given standard input's words.
types() {
    line=$1
    shift
    wanted=$(cat)
    : > given
    : > typed
    (
        tries=0
        until grep -q ready typed || [ "$tries" -eq 100 ]; do
            sleep 0.1
            tries=$((tries + 1))
        done
        sleep 0.1
        printf '%b\n' "$line"
        tries=0
        until [ -s given ] || [ "$tries" -eq 50 ]; do
            sleep 0.1
            tries=$((tries + 1))
        done
        printf 'exit\n'
        sleep 0.1
    ) | (cd files && HOME=$work XDG_DATA_DIRS=$work/prefix/share TERM=dumb PATH=$work/prefix/bin:$PATH timeout 20 script -q -e -c "$*" /dev/null) >> typed 2>&1 || true
    [ "$(cat given)" = "$wanted" ] || fail "$1: typed: $line, given: $(cat given), not: $wanted; $(cat typed)"
}

# All lines in a shell.
completes_in() {
    types 'rip reg\tdisc.w\tdisc\t--n\t16' "$@" << 'END_OF_WORDS'
<register><disc.wav><disc.rpar><--npar=16>
END_OF_WORDS
    types 'rip veri\tSec\tdis\t--o\t-12' "$@" << 'END_OF_WORDS'
<verify><Second.WAV><disc.rpar><--offset=-12>
END_OF_WORDS
    types 'rip veri\tdisc.c\tsto\t --o\t+5' "$@" << 'END_OF_WORDS'
<verify><disc.cue><store/><--offset=+5>
END_OF_WORDS
    types 'rip rep\tau\ttr\tsto\ton\tau\tout.wav --off\t7' "$@" << 'END_OF_WORDS'
<repair><audio/track.wav><store/one.rpar><audio/out.wav><--offset=7>
END_OF_WORDS
    types 'rip split My\\ D\tone\\ t\taud\t' "$@" << 'END_OF_WORDS'
<split><My Discs/one two.wav><audio/>
END_OF_WORDS
    types 'rip sums in\t' "$@" << 'END_OF_WORDS'
<sums><in: 1.wav>
END_OF_WORDS
    types 'rip me\tsto\t au\t' "$@" << 'END_OF_WORDS'
<merge><store/><audio/>
END_OF_WORDS
    types 'rip lis\tst\t' "$@" << 'END_OF_WORDS'
<list><store/>
END_OF_WORDS
    types 'rip mat\tdisc.w\tdB\t' "$@" << 'END_OF_WORDS'
<match><disc.wav><dBAR.bin>
END_OF_WORDS
    types 'rip ba\tli\t' "$@" << 'END_OF_WORDS'
<batch><list.toml>
END_OF_WORDS
    # No file of another kind is offered, and no option where there is none.
    types 'rip sums no\t' "$@" << 'END_OF_WORDS'
<sums><no>
END_OF_WORDS
    types 'rip list li\t' "$@" << 'END_OF_WORDS'
<list><li>
END_OF_WORDS
    types 'rip offsets disc.wav disc.rpar --\t' "$@" << 'END_OF_WORDS'
<offsets><disc.wav><disc.rpar><-->
END_OF_WORDS
}

# In bash, which reads the file as it starts; and with the package bash-completion, which finds it by the command's name.
cat > bash.rc << 'END_OF_SHELL'
. "$HOME/prefix/share/bash-completion/completions/rip"
PS1='ready '
END_OF_SHELL
completes_in bash --noprofile --rcfile "$work/bash.rc" -i
echo "bash: completed"
if [ -f /usr/share/bash-completion/bash_completion ]; then
    cat > package.rc << 'END_OF_SHELL'
. /usr/share/bash-completion/bash_completion
PS1='ready '
END_OF_SHELL
    completes_in bash --noprofile --rcfile "$work/package.rc" -i
    echo "bash with its package: completed"
else
    echo "bash with its package: skipped"
fi
if command -v zsh > /dev/null; then
    cat > .zshrc << 'END_OF_SHELL'
fpath=($HOME/prefix/share/zsh/site-functions $fpath)
autoload -U compinit
compinit -u -D
PS1='ready '
END_OF_SHELL
    completes_in zsh -d -i
    echo "zsh: completed"
else
    echo "zsh: skipped"
fi
installs 0 "$work/prefix" --remove
[ ! -e prefix ] || fail "left: $(find prefix)"
echo "installed, completed and removed"
