# Completion for bash. Source this file, or copy it as `cspwatch-test` to the folder of bash's completions.
_cspwatch_test() {
    local current=${COMP_WORDS[COMP_CWORD]} previous=${COMP_WORDS[COMP_CWORD-1]} word index place=0
    COMPREPLY=()
    compopt -o filenames 2>/dev/null
    case $previous in
        --runs | --steps | --time | --seed | --jobs | --timeout) return ;;
        --replay | --save | --junit | --json | --program)
            mapfile -t COMPREPLY < <(compgen -f -- "$current")
            return
            ;;
        --database)
            mapfile -t COMPREPLY < <(compgen -d -- "$current")
            return
            ;;
    esac
    if [[ $current == -* ]]; then
        COMPREPLY=($(compgen -W "--runs --steps --time --seed --jobs --robust --timeout --replay --quiet --save --junit --json --database --large --program --help -h" -- "$current"))
        return
    fi
    # How many words are before the cursor, without options and what follows them.
    for ((index = 1; index < COMP_CWORD; index++)); do
        word=${COMP_WORDS[index]}
        case $word in
            --robust | --quiet | --large | --help | -h) ;;
            -*) index=$((index + 1)) ;;
            *) place=$((place + 1)) ;;
        esac
    done
    case $place in
        0) mapfile -t COMPREPLY < <(compgen -f -X '!*.csp' -- "$current"; compgen -d -- "$current") ;;
        1) ;;
        *) mapfile -t COMPREPLY < <(compgen -f -X '!*.py' -- "$current"; compgen -d -- "$current") ;;
    esac
}

complete -F _cspwatch_test cspwatch-test
