# Bash completion for tilebench. ./install puts it where bash-completion finds it; or: source editors/tilebench.bash
_tilebench() {
    local word=${COMP_WORDS[COMP_CWORD]} command=${COMP_WORDS[1]} commands options values
    COMPREPLY=()
    # (begin: made by dev/commands)
    commands='grow race report watch batch check replay schedule format upgrade turing quadrant picture certify verify counter load'
    case $command in
    grow) options='--workers --choice' ;;
    race) options='--workers --choice' ;;
    report) options='--workers --choice' ;;
    watch) options='--workers --choice --frames' ;;
    batch) options='--workers' ;;
    verify) options='--workers' ;;
    esac
    values='--@(choice|frames|workers)'
    # (end)
    if ((COMP_CWORD == 1)); then
        mapfile -t COMPREPLY < <(compgen -W "$commands" -- "$word")
    elif [[ $options && ${COMP_WORDS[COMP_CWORD - 1]} != $values ]]; then
        mapfile -t COMPREPLY < <(compgen -W "$options" -- "$word")
    fi
}
complete -o default -F _tilebench tilebench ./tilebench
