# Completion of the words of acetool for bash.
_acetool() {
    local words first=1
    COMPREPLY=()
    # the words of --color, which may stand before the command; bash has `=` as a word of its own
    if [[ ${COMP_WORDS[1]} == --color ]]; then
        first=3
        [[ ${COMP_WORDS[2]} == = ]] && first=4
    fi
    case $COMP_CWORD in
    "$first") words='check batch cover explain chart gen rule --help --version --color' ;;
    [1-3]) words='always never auto' ;;
    *) words= ;;
    esac
    if ((COMP_CWORD > first)); then
        case ${COMP_WORDS[first]} in
        check) words='--most-events --most-lines --side --no-side --require-end --allow-cut --drained --help' ;;
        batch) words='--merge --list --jobs --shard --failed --fail-fast --junit --json --most-events --most-lines --no-side --require-end --allow-cut --drained --help' ;;
        cover) words='--list --merge --all --hits --json --min --help' ;;
        explain) words='--short --json --most-events --most-lines --side --no-side --require-end --allow-cut --drained --help' ;;
        chart) words='-o --line --events --around --port --rows --title --side --no-side --help' ;;
        gen) words='--cover --help' ;;
        rule) words="--help $(printf 'K%d ' {1..40})" ;;
        *) words= ;;
        esac
    fi
    mapfile -t COMPREPLY < <(compgen -W "$words" -- "$2")
}
complete -o default -F _acetool acetool
