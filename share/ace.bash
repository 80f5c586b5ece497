# Completion of the words of ace for bash.
_ace() {
    COMPREPLY=()
    case $COMP_CWORD in
    1) mapfile -t COMPREPLY < <(compgen -W 'check run show migrate pack unpack report order gen trial' -- "$2") ;;
    2) [ "$3" = run ] && mapfile -t COMPREPLY < <(compgen -W filter -- "$2") ;;
    esac
}
complete -o default -F _ace ace
