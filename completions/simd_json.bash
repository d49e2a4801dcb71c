# Completes the words of jtape, jcheck, jpick and log_report in bash: modes, options and their values, and else files.
_simd_json() {
    local word words= option=$3
    COMPREPLY=()
    for word in "${COMP_WORDS[@]:1:COMP_CWORD - 1}"; do
        [ "$word" != -- ] || return # files alone follow
    done
    [ "$option" != = ] || option=${COMP_WORDS[COMP_CWORD - 2]} # --color=al is three words
    case $option in
        --color) words='auto always never' ;;
        --depth | --longest | --values | --and | --each | --key | --where) compopt +o default; return ;; # no files
    esac
    case ${1##*/}:$2 in
        jtape:*)
            [[ $option == *[\<\>]* ]] || compopt +o default # its file is redirected
            [ "$COMP_CWORD" -gt 1 ] || words='tape positions compact pretty lines'
            ;;
        jcheck:-*) words='--color --depth --help --lines --version' ;;
        jpick:-*) words='--all --and --csv --depth --document --each --exit-status --header --help --json --longest --pretty --quiet --raw --sort-keys --tsv --version --where' ;;
        log_report:-*) words='--and --help --key --longest --tsv --values --version' ;;
    esac
    [ -z "$words" ] || mapfile -t COMPREPLY < <(compgen -W "$words" -- "$2")
}
complete -o default -F _simd_json jtape jcheck jpick log_report
