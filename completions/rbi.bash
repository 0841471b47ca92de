# Completion of rbi for bash: the commands, then the files that each takes at each place.

# The words of a command, in their order.
_rbi_form() {
    case $1 in
        check | split) echo PROGRAM ;;
        unsplit | both | pair) echo PROGRAM SERVICE FUEL ;;
        run) echo ADDRESS PROGRAM FUEL ;;
        serve) echo ADDRESS SERVICE COUNT ;;
        keep) echo ADDRESS SERVICE COUNT JOURNAL ;;
        child) echo SERVICE ;;
        hub) echo EVENTS SERVICE ;;
        json) echo SERVICE REQUEST ;;
        trial) echo N ;;
        help) echo COMMAND ;;
    esac
}

_rbi_commands='check split unsplit both run pair serve keep child hub json trial'

# The files with an ending, and all folders. Where there are none, bash takes any file.
_rbi_files() {
    local found
    compopt -o filenames 2> /dev/null
    while IFS= read -r found; do
        COMPREPLY+=("${found#"$before"}")
    done < <(
        compgen -d -- "$current"
        compgen -f -X "!*$1" -- "$current" | while IFS= read -r found; do
            [[ -d $found ]] || printf '%s\n' "$found"
        done
    )
}

_rbi() {
    local words=() position word last='' before='' current form wanted
    COMPREPLY=()
    # Bash cuts words at a colon, so an address comes in pieces.
    for word in "${COMP_WORDS[@]:0:COMP_CWORD + 1}"; do
        if [[ $word == :* || $last =~ ^:+$ ]]; then
            before=${words[${#words[@]} - 1]}
            words[${#words[@]} - 1]+=$word
        else
            before=
            words+=("$word")
        fi
        last=$word
    done
    position=$((${#words[@]} - 1))
    current=${words[position]}
    # The launcher takes `try` before the words of a command.
    if ((position > 1)) && [[ ${words[1]} == try ]]; then
        words=("${words[0]}" "${words[@]:2}")
        position=$((position - 1))
    fi
    if ((position == 1)); then
        COMPREPLY=($(compgen -W "$_rbi_commands help --help --version" -- "$current"))
        compopt +o default 2> /dev/null
        return
    fi
    form=($(_rbi_form "${words[1]}"))
    wanted=${form[position - 2]}
    case $wanted in
        PROGRAM) _rbi_files .rbi ;;
        SERVICE) _rbi_files .rbs ;;
        EVENTS) _rbi_files .events ;;
        REQUEST) _rbi_files .json ;;
        JOURNAL) _rbi_files '' ;;
        *) compopt +o default 2> /dev/null ;;
    esac
    if [[ $wanted == COMMAND ]]; then
        COMPREPLY=($(compgen -W "$_rbi_commands" -- "$current"))
    fi
}

complete -o default -F _rbi rbi
