# Completion of cti for bash.
_cti() {
    local word=${COMP_WORDS[COMP_CWORD]} command=${COMP_WORDS[1]}
    COMPREPLY=()
    if [ "$COMP_CWORD" -eq 1 ]; then
        mapfile -t COMPREPLY < <(compgen -W "infer check run gen lex loop session" -- "$word")
        return
    fi
    case $command in
    infer)
        if [ "${COMP_WORDS[COMP_CWORD - 1]}" = --norm ]; then
            mapfile -t COMPREPLY < <(compgen -W "term list" -- "$word")
        elif [[ $word = -* ]] || { [ "$COMP_CWORD" -eq 3 ] && [[ ${COMP_WORDS[2]} != -* ]]; }; then
            mapfile -t COMPREPLY < <(compgen -W "--norm" -- "$word")
        else
            mapfile -t COMPREPLY < <(compgen -f -- "$word")
        fi
        ;;
    lex | session) [ "$COMP_CWORD" -eq 2 ] && mapfile -t COMPREPLY < <(compgen -f -- "$word") ;;
    check) [ "$COMP_CWORD" -le 3 ] && mapfile -t COMPREPLY < <(compgen -f -- "$word") ;;
    run | loop)
        local option=--steps first=2
        [ "$command" = loop ] && option=--depth
        [ "${COMP_WORDS[2]}" = "$option" ] && first=4
        if [ "${COMP_WORDS[COMP_CWORD - 1]}" = "$option" ]; then
            return
        elif [ "$COMP_CWORD" -eq "$first" ] && [[ $word != -* ]]; then
            mapfile -t COMPREPLY < <(compgen -f -- "$word")
        elif [[ " ${COMP_WORDS[*]:2:COMP_CWORD-2} " != *" $option "* ]]; then
            mapfile -t COMPREPLY < <(compgen -W "$option" -- "$word")
        fi
        ;;
    esac
}
complete -o filenames -F _cti cti
