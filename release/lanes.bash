# Completions of `lanes` for bash, made by release/manual from the help of the program.
_lanes() {
    local word=${COMP_WORDS[COMP_CWORD]} before=${COMP_WORDS[COMP_CWORD - 1]} options=
    COMPREPLY=()
    if [ "$COMP_CWORD" = 1 ]; then
        mapfile -t COMPREPLY < <(compgen -W 'create import query delete delete-rows forget dump inspect check pack summary offer apply merge spread partial combine finish run help --help --version' -- "$word")
        return
    fi
    case $before in
        --batch) return ;;
        --columns) return ;;
        --expect) return ;;
        --format) mapfile -t COMPREPLY < <(compgen -W 'text csv json table' -- "$word"); return ;;
        --null) return ;;
        --separator) return ;;
        --where) return ;;
    esac
    case ${COMP_WORDS[1]} in
        create) options='--quiet --help' ;;
        import) options='--batch --no-header --separator --null --columns --whole-lines --quiet --help' ;;
        query) options='--format --help' ;;
        delete) options='--quiet --help' ;;
        delete-rows) options='--held --quiet --help' ;;
        forget) options='--quiet --help' ;;
        dump) options='--names --where --columns --help' ;;
        inspect) options='--batches --digest --format --help' ;;
        check) options='--digest --help' ;;
        pack) options='--all --quiet --help' ;;
        summary) options='--help' ;;
        offer) options='--help' ;;
        apply) options='--quiet --help' ;;
        merge) options='--replace --quiet --help' ;;
        spread) options='--quiet --help' ;;
        partial) options='--help' ;;
        combine) options='--help' ;;
        finish) options='--expect --format --help' ;;
        run) options='--explain --help' ;;
    esac
    if [[ $word == -* ]]; then
        mapfile -t COMPREPLY < <(compgen -W "$options" -- "$word")
    else
        mapfile -t COMPREPLY < <(compgen -f -- "$word")
    fi
}
complete -o filenames -F _lanes lanes
