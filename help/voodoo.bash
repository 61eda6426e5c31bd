# Written by help/pages from help/options.txt. For completion in bash: . help/voodoo.bash
_voodoo() {
    local word=${COMP_WORDS[COMP_CWORD]}
    COMPREPLY=()
    case $COMP_CWORD in
    1) mapfile -t COMPREPLY < <(compgen -W '--db --help --version' -- "$word") ;;
    2)
        compopt -o filenames
        mapfile -t COMPREPLY < <(compgen -f -- "$word")
        ;;
    3) mapfile -t COMPREPLY < <(compgen -W '--mode' -- "$word") ;;
    4) mapfile -t COMPREPLY < <(compgen -W 'sql algebra' -- "$word") ;;
    5) mapfile -t COMPREPLY < <(compgen -W '--text' -- "$word") ;;
    6)
        compopt -o filenames
        mapfile -t COMPREPLY < <(compgen -f -- "$word")
        ;;
    esac
}
complete -F _voodoo voodoo
