# Completions of rbac for bash. tests/commands compares them with the sources of the command line.

_rbac() {
    local word=${COMP_WORDS[COMP_CWORD]} before=${COMP_WORDS[COMP_CWORD - 1]} given=
    local commands='init replay serve import export report check migrate help'
    COMPREPLY=()
    if [ "$COMP_CWORD" -eq 1 ]; then
        given="$commands -h --help -V --version"
    elif [ "$before" = --port ] || [ "$before" = --limit ] || [ "$before" = = ]; then
        return
    else
        case ${COMP_WORDS[1]} in
        replay) given='--memory -h --help' ;;
        serve) given='--port --limit -h --help' ;;
        init | import | export | report | check | migrate) given='-h --help' ;;
        help) given=$commands ;;
        *) return ;;
        esac
        if [ "${COMP_WORDS[1]}" != help ] && [[ $word != -* ]]; then
            compopt -o default
            return
        fi
    fi
    mapfile -t COMPREPLY < <(compgen -W "$given" -- "$word")
}

complete -F _rbac rbac
