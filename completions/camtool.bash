# Completion of camtool and camreport for bash. tools/man writes it.
#     . completions/camtool.bash

_camtool() {
    local word=${COMP_WORDS[COMP_CWORD]} command=${COMP_WORDS[1]} options
    COMPREPLY=()
    if [ "${COMP_WORDS[0]##*/}" = camreport ]; then
        options="--workers= --help --version"
    elif [ "$COMP_CWORD" = 1 ]; then
        options="verify rest plan drop level stock sample help --help --version"
    else
        case $command in
        verify) options="--workers= --help" ;;
        rest) options="--workers= --help" ;;
        plan) options="--workers= --help" ;;
        drop) options="--x= --y= --workers= --help" ;;
        level) options="--z= --workers= --help" ;;
        stock) options="--workers= --help" ;;
        sample) options="--workers= --help" ;;
        help) options="verify rest plan drop level stock sample" ;;
        *) options= ;;
        esac
    fi
    if [ "$COMP_CWORD" = 1 ]; then
        options+=" --prove"
    fi
    mapfile -t COMPREPLY < <(compgen -W "$options" -- "$word")
    if [ ${#COMPREPLY[@]} = 1 ] && [[ ${COMPREPLY[0]} == *= ]]; then
        compopt -o nospace
    elif [ ${#COMPREPLY[@]} = 0 ] && [[ $word != -* ]]; then
        compopt -o filenames
        mapfile -t COMPREPLY < <(compgen -f -- "$word")
    fi
}

complete -F _camtool camtool ./camtool camreport ./camreport
