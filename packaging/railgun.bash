# Completion of bash for railgun.
_railgun() {
    local word=${COMP_WORDS[COMP_CWORD]}
    COMPREPLY=()
    if [ "$COMP_CWORD" -eq 1 ]; then
        mapfile -t COMPREPLY < <(compgen -W 'run replay verify check dump info self' -- "$word")
        return
    fi
    case ${COMP_WORDS[1]}:$COMP_CWORD in
        run:2 | replay:2 | verify:2 | check:2)
            mapfile -t COMPREPLY < <(compgen -f -X '!*.toml' -- "$word"; compgen -d -- "$word")
            ;;
        run:3 | replay:3 | verify:3 | dump:2 | info:2)
            mapfile -t COMPREPLY < <(compgen -d -- "$word")
            ;;
    esac
}
complete -o filenames -F _railgun railgun
