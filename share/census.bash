# completion of census for bash
_census() {
    local word=${COMP_WORDS[COMP_CWORD]} last=${COMP_WORDS[COMP_CWORD - 1]} options='' kind=neither
    COMPREPLY=()
    if [ "$COMP_CWORD" = 1 ] || { [ "$COMP_CWORD" = 2 ] && [ "$last" = help ]; }; then
        mapfile -t COMPREPLY < <(compgen -W 'run objects identify advance draw merge table page same verify help --help --version' -- "$word")
        return
    fi
    case ${COMP_WORDS[1]} in
    run) options='-b --bound -w --workers --cells --input -r --recursive -k --keep-going --explain --no-progress -h --help' kind=folders ;;
    objects) options='-b --bound -w --workers --cells --near --horizon --input -r --recursive -k --keep-going --explain --no-progress -h --help' kind=folders ;;
    identify) options='-b --bound --cells --near --horizon --json --names --explain -h --help' kind=files ;;
    advance) options='--cells --explain -h --help' kind=files ;;
    draw) options='--rule --explain -h --help' kind=neither ;;
    merge) options='--cut --input --explain -h --help' kind=files ;;
    table) options='--csv --json --safe --parts --codes --engines --sort --unnamed --names --cut --input --explain -h --help' kind=files ;;
    page) options='--title --note --sort --top --base --links --no-patterns --names --cut --input --explain -h --help' kind=files ;;
    same) options='--json --starts -r --recursive --cut --input --explain -h --help' kind=files ;;
    verify) options='--cut --input --explain -h --help' kind=files ;;
    esac
    case $last in
    --names)
        mapfile -t COMPREPLY < <(compgen -f -- "$word")
        return
        ;;
    --base | --bound | --cells | --horizon | --input | --note | --rule | --sort | --title | --top | --workers | -b | -w) return ;;
    esac
    case $word in
    -*) mapfile -t COMPREPLY < <(compgen -W "$options" -- "$word") ;;
    *)
        case $kind in
        folders) mapfile -t COMPREPLY < <(compgen -d -- "$word") ;;
        files) mapfile -t COMPREPLY < <(compgen -f -- "$word") ;;
        esac
        ;;
    esac
}
complete -o filenames -F _census census
