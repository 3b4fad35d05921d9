# Completion for bash: the commands, the keys that each one takes, and files. All comes from `jass --help`.

# The lines of the help that show a command's words.
_jass_forms() {
    "$1" --help 2>/dev/null | sed -n '2,/^$/{/^[^ ]/p}'
}

_jass() {
    local word=${COMP_WORDS[COMP_CWORD]} behind key form
    COMPREPLY=()
    # What stands behind = is a word of its own, or none.
    if [ "$word" = "=" ]; then
        word= behind=${COMP_WORDS[COMP_CWORD - 1]}
    elif [ "${COMP_WORDS[COMP_CWORD - 1]}" = "=" ]; then
        behind=${COMP_WORDS[COMP_CWORD - 2]}
    fi
    if [ "$COMP_CWORD" -eq 1 ]; then
        mapfile -t COMPREPLY < <(compgen -W "$(_jass_forms "$1" | sed 's/ .*//')" -- "$word")
        return
    fi
    form=$(_jass_forms "$1" | grep "^${COMP_WORDS[1]}\( \|\$\)") || return
    if [ -n "$behind" ]; then
        # Words in small letters are values; all else stands for what the user has to know.
        values=$(sed -n "s/.*[[ ]$behind=\([^] ]*\).*/\1/p" <<<"$form" | tr '|' '\n' | grep -x '[a-z][a-z0-9]*')
        mapfile -t COMPREPLY < <(compgen -W "$values" -- "$word")
        return
    fi
    mapfile -t COMPREPLY < <(
        compgen -f -- "$word"
        compgen -W "$(grep -o '[a-z]*=' <<<"$form")" -- "$word"
    )
    case ${COMPREPLY[0]-} in
    *=) compopt -o nospace ;;
    esac
    compopt -o filenames 2>/dev/null
}

complete -F _jass jass
