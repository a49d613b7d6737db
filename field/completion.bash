# What bash offers behind asternhaken: sub-commands, their options, and files.
_asternhaken() {
    local word=${COMP_WORDS[COMP_CWORD]} before=${COMP_WORDS[COMP_CWORD - 1]} command=${COMP_WORDS[1]} options=
    COMPREPLY=()
    if [ "$COMP_CWORD" = 1 ]; then
        mapfile -t COMPREPLY < <(compgen -W 'watch why decode import replay mend cell --help --version' -- "$word")
        return
    fi
    case $before in
    -c | --channel) mapfile -t COMPREPLY < <(compgen -W 'nch facch pch' -- "$word") && return ;;
    --link) mapfile -t COMPREPLY < <(compgen -W 'raw ethernet loopback cooked gsmtap' -- "$word") && return ;;
    --arfcn | --t3206 | --t3208) return ;;
    esac
    case $command in
    watch) options='--all --arfcn --t3206 --t3208 --json --help' ;;
    why) options='--arfcn --t3206 --t3208 --json --help' ;;
    import) options='--arfcn --t3206 --t3208 --help' ;;
    decode) options='--channel --json --help' ;;
    cell) options='--link --help' ;;
    replay | mend) options='--help' ;;
    esac
    if [[ $word == -* ]]; then mapfile -t COMPREPLY < <(compgen -W "$options" -- "$word"); elif [ "$command" != decode ]; then compopt -o default; fi
}
complete -F _asternhaken asternhaken
