# Completes the words of bpfjobs in bash.
_bpfjobs() {
    local word=${COMP_WORDS[COMP_CWORD]} previous=${COMP_WORDS[COMP_CWORD - 1]}
    COMPREPLY=()
    if ((COMP_CWORD == 1)); then
        mapfile -t COMPREPLY < <(compgen -W "assemble disassemble verify play run serve journal ask job check help --help --version" -- "$word")
        return
    fi
    case ${COMP_WORDS[1]} in
    assemble)
        mapfile -t COMPREPLY < <(compgen -W "--help" -- "$word")
        ;;
    disassemble)
        mapfile -t COMPREPLY < <(compgen -W "--help" -- "$word")
        ;;
    verify)
        case $previous in
        --need) return ;;
        esac
        mapfile -t COMPREPLY < <(compgen -W "--need --help" -- "$word")
        ;;
    play)
        case $previous in
        --trace-json) mapfile -t COMPREPLY < <(compgen -f -- "$word"); return ;;
        esac
        mapfile -t COMPREPLY < <(compgen -W "--trace --trace-json --help" -- "$word")
        ;;
    run)
        case $previous in
        --tree) mapfile -t COMPREPLY < <(compgen -f -- "$word"); return ;;
        --workers) return ;;
        esac
        mapfile -t COMPREPLY < <(compgen -W "--workers --tree --help" -- "$word")
        ;;
    serve)
        case $previous in
        --socket | --grants | --tenants | --journal) mapfile -t COMPREPLY < <(compgen -f -- "$word"); return ;;
        --port | --tenant | --tenant-jobs | --workers | --sessions | --clients | --timeout | --open-jobs | --keep | --keep-bytes | --journal-sync) return ;;
        esac
        mapfile -t COMPREPLY < <(compgen -W "--port --socket --grants --tenant --tenants --tenant-jobs --workers --sessions --clients --timeout --open-jobs --keep --keep-bytes --journal --journal-sync --until-eof --log --help" -- "$word")
        ;;
    journal)
        [[ $word == -* ]] || { mapfile -t COMPREPLY < <(compgen -f -- "$word"); return; }
        mapfile -t COMPREPLY < <(compgen -W "--check --help" -- "$word")
        ;;
    ask)
        case $previous in
        --socket) mapfile -t COMPREPLY < <(compgen -f -- "$word"); return ;;
        --port | --wait | --key | --from) return ;;
        esac
        mapfile -t COMPREPLY < <(compgen -W "--port --socket --wait --key --from --help" -- "$word")
        ;;
    job)
        case $previous in
        --credit | --schedule) return ;;
        esac
        mapfile -t COMPREPLY < <(compgen -W "--credit --buffer --schedule --help" -- "$word")
        ;;
    check)
        mapfile -t COMPREPLY < <(compgen -W "--help" -- "$word")
        ;;
    help) mapfile -t COMPREPLY < <(compgen -W "assemble disassemble verify play run serve journal ask job check" -- "$word") ;;
    esac
}
complete -o filenames -F _bpfjobs bpfjobs
