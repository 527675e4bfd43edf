# Completion of cti-file for bash.
_cti_file() {
    local word=${COMP_WORDS[COMP_CWORD]} before=${COMP_WORDS[COMP_CWORD - 1]}
    COMPREPLY=()
    # bash takes --norm=list apart at the sign.
    if [ "$word" = = ]; then
        word=
    elif [ "$before" = = ]; then
        before=${COMP_WORDS[COMP_CWORD - 2]}
    fi
    case $before in
    --norm) mapfile -t COMPREPLY < <(compgen -W "term list" -- "$word") ;;
    --require) mapfile -t COMPREPLY < <(compgen -W "exported all" -f -- "$word") ;;
    --keep) mapfile -t COMPREPLY < <(compgen -d -- "$word") ;;
    --ask | --timeout) ;;
    *)
        if [[ $word = -* ]]; then
            mapfile -t COMPREPLY < <(compgen -W "--ask --facts --help --html --json --keep --lines --no-check --norm
                --require --row --sarif --timeout --trust --version" -- "$word")
        else
            mapfile -t COMPREPLY < <(compgen -f -- "$word")
        fi
        ;;
    esac
}
complete -o filenames -F _cti_file cti-file
