# Completes the words of lv for bash. Written by tools/makers/command_tables.py.
_lv() {
    local word=${COMP_WORDS[COMP_CWORD]}
    case $COMP_CWORD:${COMP_WORDS[1]} in
        1:*)
            mapfile -t COMPREPLY < <(compgen -W "inspect show recast check run live" -- "$word")
            return
            ;;
        *:show)
            if [[ $word == -* ]]; then
                mapfile -t COMPREPLY < <(compgen -W "--rows --csv" -- "$word")
                return
            fi
            case ${COMP_WORDS[COMP_CWORD - 1]} in
                --rows) return ;;
            esac
            ;;
        2:inspect | 2:recast | 3:recast | 2:check | 2:run | 3:run | 2:live) ;;
        *) return ;;
    esac
    compopt -o filenames
    mapfile -t COMPREPLY < <(compgen -f -- "$word")
}
complete -F _lv lv
