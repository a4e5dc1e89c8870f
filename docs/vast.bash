# shellcheck shell=bash
# Completion of vast's words in bash: the commands, and then a file. To use it: . docs/vast.bash

_vast() {
    local word=${COMP_WORDS[COMP_CWORD]}
    COMPREPLY=()
    if [ "$COMP_CWORD" -eq 1 ]; then
        mapfile -t COMPREPLY < <(compgen -W 'scan check steps' -- "$word")
    elif [ "$COMP_CWORD" -eq 2 ] && [[ " scan check steps " == *" ${COMP_WORDS[1]} "* ]]; then
        compopt -o filenames 2>/dev/null
        mapfile -t COMPREPLY < <(compgen -f -- "$word")
    fi
}

complete -F _vast vast
