# Made from crates/commandline/src/view_lines.rt by tools/manual/make.py: change that file, not this one.
_poolview() {
    local word=${COMP_WORDS[COMP_CWORD]} before=${COMP_WORDS[COMP_CWORD-1]}
    COMPREPLY=()
    if [ "$COMP_CWORD" -eq 1 ]; then
        mapfile -t COMPREPLY < <(compgen -W 'picture words summary json events page check --help' -- "$word")
        return
    fi
    case ${COMP_WORDS[1]} in
    picture)
        case $before in --from | --turns) return ;; esac
        if [[ $word == -* ]]; then
            mapfile -t COMPREPLY < <(compgen -W '--from --turns --fit --whole --explain --explain=never --explain=always --explain=auto --help' -- "$word")
        else
            mapfile -t COMPREPLY < <(compgen -f -- "$word")
        fi
        ;;
    words)
        if [[ $word == -* ]]; then
            mapfile -t COMPREPLY < <(compgen -W '--keys --numbers --explain --explain=never --explain=always --explain=auto --help' -- "$word")
        else
            mapfile -t COMPREPLY < <(compgen -f -- "$word")
        fi
        ;;
    summary)
        if [[ $word == -* ]]; then
            mapfile -t COMPREPLY < <(compgen -W '--explain --explain=never --explain=always --explain=auto --help' -- "$word")
        else
            mapfile -t COMPREPLY < <(compgen -f -- "$word")
        fi
        ;;
    json)
        if [[ $word == -* ]]; then
            mapfile -t COMPREPLY < <(compgen -W '--explain --explain=never --explain=always --explain=auto --help' -- "$word")
        else
            mapfile -t COMPREPLY < <(compgen -f -- "$word")
        fi
        ;;
    events)
        if [[ $word == -* ]]; then
            mapfile -t COMPREPLY < <(compgen -W '--explain --explain=never --explain=always --explain=auto --help' -- "$word")
        else
            mapfile -t COMPREPLY < <(compgen -f -- "$word")
        fi
        ;;
    page)
        case $before in --from | --turns) return ;; esac
        if [[ $word == -* ]]; then
            mapfile -t COMPREPLY < <(compgen -W '--from --turns --explain --explain=never --explain=always --explain=auto --help' -- "$word")
        else
            mapfile -t COMPREPLY < <(compgen -f -- "$word")
        fi
        ;;
    check)
        if [[ $word == -* ]]; then
            mapfile -t COMPREPLY < <(compgen -W '--explain --explain=never --explain=always --explain=auto --help' -- "$word")
        else
            mapfile -t COMPREPLY < <(compgen -f -- "$word")
        fi
        ;;
    esac
}
complete -o filenames -F _poolview poolview
