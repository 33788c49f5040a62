# Completes the words of bpfrun in bash.
_bpfrun() {
    local word=${COMP_WORDS[COMP_CWORD]} previous=${COMP_WORDS[COMP_CWORD - 1]}
    COMPREPLY=()
    case $previous in
    --memory | --trace-json) mapfile -t COMPREPLY < <(compgen -f -- "$word"); return ;;
    --need | --credit | --arg) return ;;
    esac
    [[ $word == -* ]] || { mapfile -t COMPREPLY < <(compgen -f -- "$word"); return; }
    mapfile -t COMPREPLY < <(compgen -W "--need --credit --arg --memory --explain --explain-all --graph --trace --trace-json --help --version" -- "$word")
}
complete -o filenames -F _bpfrun bpfrun
