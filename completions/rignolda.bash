# The completions of rignolda for bash: source this file.
_rignolda() {
    local word=${COMP_WORDS[COMP_CWORD]} flags='' files=''
    COMPREPLY=()
    if [ "$COMP_CWORD" -eq 1 ]; then
        mapfile -t COMPREPLY < <(compgen -W 'bounds check draw explain judge random scenario worst help --help --version' -- "$word")
        return
    fi
    case ${COMP_WORDS[1]} in
        bounds)
            flags='--help'
            files=yes
            ;;
        check)
            flags='--help'
            files=yes
            ;;
        draw)
            flags='--svg --help'
            files=yes
            ;;
        explain)
            flags='--help'
            files=yes
            ;;
        judge)
            flags='--help'
            files=yes
            ;;
        random)
            flags='--seed --items --turns --schedule --nodes --capacity --loss --repeat --hold'
            flags+=' --labels --help'
            case ${COMP_WORDS[COMP_CWORD - 1]} in
                --seed|--items|--turns|--schedule|--nodes|--capacity|--loss|--repeat) return ;;
                --hold|--labels) return ;;
            esac
            ;;
        scenario)
            flags='--help'
            files=yes
            ;;
        worst)
            flags='--capacity --labels --help'
            case ${COMP_WORDS[COMP_CWORD - 1]} in
                --capacity|--labels) return ;;
            esac
            ;;
        help) flags='bounds check draw explain judge random scenario worst help' ;;
    esac
    mapfile -t COMPREPLY < <(compgen -W "$flags" -- "$word")
    if [ -n "$files" ] && [[ $word != -* ]]; then
        mapfile -t COMPREPLY < <(compgen -f -- "$word")
    fi
}
complete -o filenames -F _rignolda rignolda
