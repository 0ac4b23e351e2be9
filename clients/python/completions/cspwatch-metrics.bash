# Completion for bash. Source this file, or copy it as `cspwatch-metrics` to the folder of bash's completions.
_cspwatch_metrics() {
    local current=${COMP_WORDS[COMP_CWORD]} previous=${COMP_WORDS[COMP_CWORD-1]}
    COMPREPLY=()
    if [[ $previous == --listen ]]; then
        COMPREPLY=($(compgen -W "127.0.0.1:" -- "$current"))
        return
    fi
    if [[ $current == -* ]]; then
        COMPREPLY=($(compgen -W "--log --listen --program --help -h" -- "$current"))
        return
    fi
    compopt -o filenames 2>/dev/null
    mapfile -t COMPREPLY < <(compgen -f -- "$current")
}

complete -F _cspwatch_metrics cspwatch-metrics
