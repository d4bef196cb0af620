# Completion of tinledger for bash. To use it: source recipes/tinledger.bash
_tinledger() {
    local word=${COMP_WORDS[COMP_CWORD]}
    COMPREPLY=()
    compopt -o filenames 2>/dev/null
    if [ "$COMP_CWORD" -eq 1 ]; then
        case $word in -*) mapfile -t COMPREPLY < <(compgen -W '--help --version' -- "$word"); return ;; esac
    fi
    [ "$COMP_CWORD" -le 2 ] && mapfile -t COMPREPLY < <(compgen -f -- "$word")
    return 0
}
complete -F _tinledger tinledger
