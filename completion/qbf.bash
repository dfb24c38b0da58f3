# Completion of qbf in bash: commands, options, and names of files.
_qbf() {
    local word=${COMP_WORDS[COMP_CWORD]} previous=${COMP_WORDS[COMP_CWORD - 1]}
    local options='--budget --restarts --keep --help'
    COMPREPLY=()
    if [ "$COMP_CWORD" -eq 1 ]; then
        mapfile -t COMPREPLY < <(compgen -W 'solve trace cert check script gen demo help --help' -- "$word")
        return
    fi
    case ${COMP_WORDS[1]} in
        solve) options="$options --qdo --qcir" ;;
        cert) options="$options --binary --trim" ;;
        check) options="$options --decide" ;;
        trace | script) ;;
        help)
            mapfile -t COMPREPLY < <(compgen -W 'solve trace cert check script gen demo' -- "$word")
            return
            ;;
        *)
            mapfile -t COMPREPLY < <(compgen -W '--help' -- "$word")
            return
            ;;
    esac
    case $previous in
        --budget | --restarts | --keep | =) return ;;
    esac
    case $word in
        -*) mapfile -t COMPREPLY < <(compgen -W "$options" -- "$word") ;;
        *)
            compopt -o filenames 2> /dev/null
            mapfile -t COMPREPLY < <(compgen -f -- "$word")
            ;;
    esac
}
complete -F _qbf qbf
