# Completion of modc's words for bash: source this file.
_modc() {
    local word=${COMP_WORDS[COMP_CWORD]}
    case $COMP_CWORD in
        1) mapfile -t COMPREPLY < <(compgen -W 'build replay' -- "$word") ;;
        2) mapfile -t COMPREPLY < <(compgen -f -- "$word") ;;
        3)
            if [[ ${COMP_WORDS[1]} == build ]]; then
                mapfile -t COMPREPLY < <(compgen -W '--report' -- "$word")
            fi
            ;;
    esac
}
complete -o filenames -F _modc modc
