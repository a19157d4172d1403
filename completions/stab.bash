# The completions of stab for bash: source this file.
_stab() {
    local word=${COMP_WORDS[COMP_CWORD]} flags='' files=''
    COMPREPLY=()
    if [ "$COMP_CWORD" -eq 1 ]; then
        mapfile -t COMPREPLY < <(compgen -W 'link tree run' -- "$word")
        return
    fi
    case ${COMP_WORDS[1]} in
        link)
            flags='--trace'
            files=yes
            ;;
        tree)
            files=yes
            ;;
        run)
            flags='--words --mixed'
            files=yes
            ;;
    esac
    mapfile -t COMPREPLY < <(compgen -W "$flags" -- "$word")
    if [ -n "$files" ] && [[ $word != -* ]]; then
        mapfile -t COMPREPLY < <(compgen -f -- "$word")
    fi
}
complete -o filenames -F _stab stab
