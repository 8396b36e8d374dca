# Completions of `cobol` for bash. The commands, options and words are those that `cobol --help` and `cobol COMMAND --help` print.

# The lines of a part of the help: Commands, Arguments or Options.
_cobol_part() {
    local part=$1
    shift
    "$@" --help 2>/dev/null | sed -n "/^$part:/,/^\$/s/^  //p"
}

# The words of a part of the help: the commands, or the long options.
_cobol_words() {
    _cobol_part "$@" | sed -nE 's/^ *(-[a-zA-Z], )?((--)?[a-z][a-z-]*).*/\2/p'
}

# What a word of a command is called in its help, such as VOLUME or NAME.
_cobol_argument() {
    _cobol_part Arguments "$1" "$2" | sed -nE 's/^<([A-Z]+)>.*/\1/p' | sed -n "$3p"
}

# Whether an option of a command has a value.
_cobol_has_value() {
    _cobol_part Options "$1" "$2" | grep -q -e "$3 <"
}

# Whether a command is a program, and not a script that may have to build it first.
_cobol_is_program() {
    local path
    path=$(type -P "$1") && [[ $(head -c 4 "$path" 2>/dev/null) == $'\x7fELF' ]]
}

_cobol() {
    local command=$1 word=$2 verb= volume= is_end= place=0 is_value= index
    COMPREPLY=()
    _cobol_is_program "$command" || return
    for ((index = 1; index < COMP_CWORD; index++)); do
        _cobol_read_word "${COMP_WORDS[index]}"
    done
    if [[ -z $verb ]]; then
        mapfile -t COMPREPLY < <(compgen -W "$(_cobol_words Commands "$command") $(_cobol_words Options "$command")" -- "$word")
    elif [[ $verb == help ]]; then
        mapfile -t COMPREPLY < <(compgen -W "$(_cobol_words Commands "$command")" -- "$word")
    elif [[ $is_value ]]; then
        :
    elif [[ $word == -* && -z $is_end ]]; then
        mapfile -t COMPREPLY < <(compgen -W "$(_cobol_words Options "$command" "$verb")" -- "$word")
    else
        _cobol_complete_argument "$(_cobol_argument "$command" "$verb" $((place + 1)))"
    fi
}

# Reads a word before the one that is completed. It sets the variables of `_cobol`.
_cobol_read_word() {
    if [[ $is_value ]]; then
        is_value=
    elif [[ $1 == -- && -z $is_end ]]; then
        is_end=1
    elif [[ -z $verb ]]; then
        verb=$1
    elif [[ $1 == --* && -z $is_end ]]; then
        _cobol_has_value "$command" "$verb" "$1" && is_value=1
    else
        place=$((place + 1))
        [[ $(_cobol_argument "$command" "$verb" $place) == VOLUME ]] && volume=$1
    fi
}

# Completes a word by what it is called. It reads the variables of `_cobol`.
_cobol_complete_argument() {
    case $1 in
    SOURCE)
        mapfile -t COMPREPLY < <(compgen -d -- "$word"; compgen -f -X '!*.[cC][oO][bB]' -- "$word")
        compopt -o filenames 2>/dev/null
        ;;
    NAME) _cobol_complete_name ;;
    '' | N | SECTORS) ;;
    *)
        mapfile -t COMPREPLY < <(compgen -f -- "$word")
        compopt -o filenames 2>/dev/null
        ;;
    esac
}

# Completes the name of a file on the volume. A name with a backslash is left out, since `list` prints it in another form.
_cobol_complete_name() {
    local name
    while IFS= read -r name; do
        [[ $name == "$word"* && $name != *\\* ]] && COMPREPLY+=("$(printf %q "$name")")
    done < <("$command" list "$volume" 2>/dev/null | sed 's/ [a-z]* [0-9]* [0-9]*$//')
}

complete -F _cobol cobol
