# Completion for bash: `source tools/completion.bash`, or a copy of it in a folder of bash-completion. It knows the words of os2run and
# of the programs beside it, by whatever path they are called, and those of ./look.

# The folders, and the files of these kinds, that a word begins.
_os2run_files() {
    local IFS=$'\n'
    COMPREPLY=($(compgen -d -S / -- "$2"))
    local name
    for name in $(compgen -f -- "$2"); do
        local kind=${name##*.}
        [ -d "$name" ] || case " $1 " in *" ${kind,,} "*) COMPREPLY+=("$name") ;; esac
    done
    compopt -o nospace -o filenames 2>/dev/null
    [ ${#COMPREPLY[@]} -ne 1 ] || [ -d "${COMPREPLY[0]}" ] || compopt +o nospace 2>/dev/null
}

_os2run() {
    local program=${1##*/} word=$2 at=$COMP_CWORD
    local words=("${COMP_WORDS[@]:1}")
    if [ "$program" = look ]; then
        program=os2run
        if [ "$at" -eq 1 ]; then
            COMPREPLY=($(compgen -W "exe run check bench dump os2why os2list os2trace os2core os2vectors" -- "$word"))
            return
        fi
        case ${words[0]} in os2*) program=${words[0]} words=("${words[@]:1}") at=$((at - 1)) ;; esac
    fi
    local verbs= flags="--help --version"
    case $program in
        os2run) verbs="exe run check bench dump" flags= ;;
        os2why) verbs="exe run imports" ;;
        os2trace) verbs="exe run" ;;
        os2core) verbs="show svg segment difference" ;;
    esac
    if [ "$program" = os2trace ] && [ "$at" -gt 1 ] && [ "${word:0:1}" = - ]; then
        COMPREPLY=($(compgen -W "--process --from --to --selector --writes --json --help" -- "$word"))
    elif [ "$program-${words[0]}" = os2why-imports ] && [ "$at" -gt 1 ] && [ "${word:0:1}" = - ]; then
        COMPREPLY=($(compgen -W "--machine --help" -- "$word"))
    elif [ "$program" = os2why ] && [ "$at" -gt 2 ] && [[ ${words[at - 2]} = -m || ${words[at - 2]} = --machine ]]; then
        _os2run_files toml "$word"
    elif [ "${word:0:1}" = - ]; then
        COMPREPLY=($(compgen -W "$flags" -- "$word"))
    elif [ -n "$verbs" ] && [ "$at" -eq 1 ]; then
        COMPREPLY=($(compgen -W "$verbs" -- "$word"))
    else
        case $program-${words[0]} in
            os2run-exe | os2why-exe | os2trace-exe | os2why-imports | os2list-*) _os2run_files "exe dll" "$word" ;;
            os2run-run | os2run-check | os2run-dump | os2why-run | os2trace-run) _os2run_files toml "$word" ;;
            os2core-*) _os2run_files core "$word" ;;
        esac
    fi
}
complete -F _os2run os2run os2why os2list os2trace os2core os2vectors look
