# Completion of rignoldactl for bash.
_rignoldactl() {
    local word=${COMP_WORDS[COMP_CWORD]} before=${COMP_WORDS[COMP_CWORD - 1]} at command=
    local commands='publish unset round status tree list get wait drain resume diff confirm'
    commands="$commands promote demote promote-value child forget bounds help"
    for ((at = 1; at < COMP_CWORD; at++)); do
        case ${COMP_WORDS[at]} in
        --socket | --timeout | --group | --within) ((at++)) ;;
        -*) ;;
        *) command=${COMP_WORDS[at]}; break ;;
        esac
    done
    local options='--socket --json --help'
    case $before in
    --socket) mapfile -t COMPREPLY < <(compgen -f -- "$word"); return ;;
    --timeout | --within) mapfile -t COMPREPLY < <(compgen -W '5s 30s 5m' -- "$word"); return ;;
    esac
    case $command in
    '') options="$options --version $commands" ;;
    wait) options="$options --everywhere --group --now --timeout" ;;
    status) options="$options --connected --within --sound" ;;
    get) options="$options --everywhere" ;;
    drain) options="$options --timeout" ;;
    promote) options="$options --as-is" ;;
    child) options="$options add remove" ;;
    esac
    mapfile -t COMPREPLY < <(compgen -W "$options" -- "$word")
}
complete -F _rignoldactl rignoldactl
complete -o default -W '--check --user --help --version' rignoldad
