# Completion for bash: source this file, or let tools/install put it where bash-completion looks. It serves ./xtalk too.

# The words that may come next: commands, options that are not there yet, values, and files by what is to come.
_xtalk() {
    local now=${COMP_WORDS[COMP_CWORD]} before=${COMP_WORDS[COMP_CWORD - 1]} command=${COMP_WORDS[1]-}
    local commands='report link solve eco replay gen' options files=() word number=0 skip=
    COMPREPLY=()
    if [ "$COMP_CWORD" -eq 1 ]; then
        # Only the launcher takes --help: it is called by a path, the installed program by its name.
        [[ ${COMP_WORDS[0]} != */* ]] || commands+=' --help'
        mapfile -t COMPREPLY < <(compgen -W "$commands" -- "$now")
        return
    fi
    case $command in
    report) options='--workers --kind --miller --engine' files=(lib v spef sdc) ;;
    link) options='--miller' files=(lib v spef sdc) ;;
    solve) options='--workers --kind --miller --engine' files=(xt) ;;
    eco) options='--workers --miller' files=(xt edits) ;;
    replay) options='--order --workers --miller' files=(xt) ;;
    gen) options='--number --nets --workers' ;;
    *) return ;;
    esac
    case $before in
    --kind) mapfile -t COMPREPLY < <(compgen -W 'all checks noise' -- "$now"); return ;;
    --engine) mapfile -t COMPREPLY < <(compgen -W 'rounds marks' -- "$now"); return ;;
    --miller) mapfile -t COMPREPLY < <(compgen -W '0,4,8 0,4,12 4,4,4' -- "$now"); return ;;
    --workers | --order | --number | --nets) return ;;
    esac
    for word in "${COMP_WORDS[@]:2:COMP_CWORD-2}"; do
        case $word in
        --*) options=${options//$word/} skip=1 ;;
        *) [ -n "$skip" ] || number=$((number + 1)); skip= ;;
        esac
    done
    if [[ $now = -* ]] || [ "$number" -ge "${#files[@]}" ]; then
        mapfile -t COMPREPLY < <(compgen -W "$options" -- "$now")
        return
    fi
    # Files that end as the one to come does, and folders; any file where there is none of these.
    compopt -o filenames 2>/dev/null
    mapfile -t COMPREPLY < <(compgen -f -X "!*.${files[number]}" -- "$now"; compgen -d -- "$now")
    [ "${#COMPREPLY[@]}" -gt 0 ] || mapfile -t COMPREPLY < <(compgen -f -- "$now")
}

complete -F _xtalk xtalk
