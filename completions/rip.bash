# Completion of the words of `rip` in bash: commands, options with their values, and names of files by what stands at each
# place. It needs no other completions.

# The words of the line so far in `words`, and the place of the one that is completed in `at`. Bash cuts words at `=` and
# `:`; pieces that stand side by side are put together again.
_rip_words() {
    local rest=$COMP_LINE piece blank i
    words=() at=0
    for ((i = 0; i < ${#COMP_WORDS[@]}; i++)); do
        piece=${COMP_WORDS[i]}
        blank=${rest%%[![:blank:]]*}
        rest=${rest#"$blank"}
        rest=${rest#"$piece"}
        if ((i > 0)) && [[ -z $blank && -n $piece ]]; then
            words[${#words[@]} - 1]+=$piece
        else
            words+=("$piece")
        fi
        if ((i == COMP_CWORD)); then
            at=$((${#words[@]} - 1))
        fi
    done
}

# Offers these words where they begin with the one that is completed.
_rip_offer() {
    COMPREPLY+=($(compgen -W "$*" -- "$word"))
}

# Offers the files whose names end in one of these, in any case of its letters, and all folders. Bash adds a `/` to a folder.
_rip_files() {
    local name ending
    compopt -o filenames
    while IFS= read -r name; do
        COMPREPLY+=("$name")
    done < <(compgen -d -- "$word")
    while IFS= read -r name; do
        for ending; do
            if [[ ${name,,} == *."$ending" && ! -d $name ]]; then
                COMPREPLY+=("$name")
            fi
        done
    done < <(compgen -f -- "$word")
}

# Offers the offset, whose number is typed.
_rip_offset() {
    compopt -o nospace
    _rip_offer --offset=
}

_rip() {
    local words at word before i
    _rip_words
    COMPREPLY=()
    word=${words[at]}
    if [[ $word == [\"\']* ]]; then
        word=${word:1}
    fi
    case $at in
        1) _rip_offer register verify offsets repair upgrade split join list check merge sums match trial batch ;;
        2)
            case ${words[1]} in
                register | verify | offsets | repair | upgrade | split | join | sums | match) _rip_files wav cue ;;
                list | check | merge) _rip_files ;;
                batch) _rip_files toml ;;
            esac
            ;;
        3)
            case ${words[1]} in
                register | verify | offsets | repair | upgrade) _rip_files rpar ;;
                split | join | merge) _rip_files ;;
                match) _rip_files bin ;;
            esac
            ;;
        4)
            case ${words[1]} in
                register) _rip_offer --npar=4 --npar=8 --npar=16 --npar=32 ;;
                verify) _rip_offset ;;
                repair) _rip_files ;;
            esac
            ;;
        5)
            case ${words[1]} in
                repair) _rip_offset ;;
            esac
            ;;
    esac
    # Of a word that bash cuts it replaces only the last piece, which is the second of the words that it gives.
    before=${word%"$2"}
    for i in "${!COMPREPLY[@]}"; do
        COMPREPLY[i]=${COMPREPLY[i]#"$before"}
    done
}

complete -F _rip rip
