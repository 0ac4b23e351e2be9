# Completion for bash. Source this file, or copy it as `cspwatch-explore` to the folder of bash's completions.
_cspwatch_explore() {
    local current=${COMP_WORDS[COMP_CWORD]}
    COMPREPLY=()
    if [[ $current == -* ]]; then
        COMPREPLY=($(compgen -W "--large --program --help -h" -- "$current"))
        return
    fi
    compopt -o filenames 2>/dev/null
    mapfile -t COMPREPLY < <(compgen -f -- "$current")
}

complete -F _cspwatch_explore cspwatch-explore
