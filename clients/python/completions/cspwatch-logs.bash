# Completion for bash. Source this file, or copy it as `cspwatch-logs` to the folder of bash's completions.
_cspwatch_logs() {
    local current=${COMP_WORDS[COMP_CWORD]} previous=${COMP_WORDS[COMP_CWORD-1]} word index place=0
    COMPREPLY=()
    case $previous in
        --server)
            COMPREPLY=($(compgen -W "127.0.0.1:" -- "$current"))
            return
            ;;
        --stream)
            COMPREPLY=($(compgen -W "redis://127.0.0.1:" -- "$current"))
            return
            ;;
        --seat | --partition | --patience | --min-reports) return ;;
    esac
    if [[ $current == -* ]]; then
        COMPREPLY=($(compgen -W "--follow --server --seat --patience --state --min-reports --strict --quiet --first --coverage --junit --annotations --record --stream --partition --program --help --version -h" -- "$current"))
        return
    fi
    # How many words are before the cursor, without options and what follows them. Bash takes a colon for a word of its own.
    for ((index = 1; index < COMP_CWORD; index++)); do
        word=${COMP_WORDS[index]}
        case $word in
            --server | --seat | --junit | --record | --stream | --partition | --program | --patience | --state | --min-reports)
                index=$((index + 1))
                while [[ ${COMP_WORDS[index + 1]} == : ]]; do index=$((index + 2)); done
                ;;
            -*) ;;
            *) place=$((place + 1)) ;;
        esac
    done
    compopt -o filenames 2>/dev/null
    if [[ $place == 0 && $previous != --junit && $previous != --record && $previous != --program && $previous != --state ]]; then
        mapfile -t COMPREPLY < <(compgen -f -X '!*.toml' -- "$current"; compgen -d -- "$current")
    else
        mapfile -t COMPREPLY < <(compgen -f -- "$current")
    fi
}

complete -F _cspwatch_logs cspwatch-logs
