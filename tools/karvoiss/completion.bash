# Completion of karvoiss for bash: commands, their options, predicates, files.
_karvoiss() {
    local word=${COMP_WORDS[COMP_CWORD]} before=${COMP_WORDS[COMP_CWORD - 1]} command=${COMP_WORDS[1]-} own=
    local input='--scale --origin --round --column --name --help'
    COMPREPLY=()
    if [ "$COMP_CWORD" -eq 1 ]; then
        mapfile -t COMPREPLY < <(compgen -W 'relate is register draw explain make show wkb help version' -- "$word")
        return
    fi
    case $before in
    --of) mapfile -t COMPREPLY < <(compgen -W 'F G' -- "$word") && return ;;
    --scale | --origin | --column | --name | --at | --pattern | --threads) return ;;
    esac
    case $command in
    relate) own='--json --out' ;;
    is)
        own='--pattern --quiet'
        if [ "$COMP_CWORD" -eq 2 ] && [[ $word != -* ]]; then
            mapfile -t COMPREPLY < <(compgen -W 'equals disjoint intersects touches within contains coveredBy covers crosses overlaps' -- "$word")
            return
        fi
        ;;
    register) own='--csv --json --areas --near --threads --out' ;;
    draw | explain) own='--out' ;;
    make) own='--split --out' ;;
    show) own='--at --text --out' ;;
    wkb) own='--of --hex --out' ;;
    help)
        mapfile -t COMPREPLY < <(compgen -W 'relate is register draw explain make show wkb input' -- "$word")
        return
        ;;
    esac
    if [[ $word == -* ]]; then
        mapfile -t COMPREPLY < <(compgen -W "$own $input" -- "$word")
    else
        compopt -o filenames 2> /dev/null
        mapfile -t COMPREPLY < <(compgen -f -- "$word")
    fi
}
complete -F _karvoiss karvoiss
