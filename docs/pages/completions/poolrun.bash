# Made from crates/commandline/src/run_lines.rt by tools/manual/make.py: change that file, not this one.
_poolrun() {
    local word=${COMP_WORDS[COMP_CWORD]} before=${COMP_WORDS[COMP_CWORD-1]}
    COMPREPLY=()
    if [ "$COMP_CWORD" -eq 1 ]; then
        mapfile -t COMPREPLY < <(compgen -W 'replay shorten outcomes check run key --help --version' -- "$word")
        return
    fi
    case ${COMP_WORDS[1]} in
    replay)
        case $before in --schedule | --seed | --turns | --stop) return ;; esac
        if [[ $word == -* ]]; then
            mapfile -t COMPREPLY < <(compgen -W '--schedule --seed --turns --stop --acts --print-schedule --progress --explain --progress=never --progress=always --progress=auto --explain=never --explain=always --explain=auto --help' -- "$word")
        else
            mapfile -t COMPREPLY < <(compgen -f -- "$word")
        fi
        ;;
    shorten)
        case $before in --until | --schedule | --seed | --turns | --stop | --tries) return ;; esac
        if [[ $word == -* ]]; then
            mapfile -t COMPREPLY < <(compgen -W '--until --schedule --seed --turns --stop --tries --words --scripts --progress --explain --progress=never --progress=always --progress=auto --explain=never --explain=always --explain=auto --help' -- "$word")
        else
            mapfile -t COMPREPLY < <(compgen -f -- "$word")
        fi
        ;;
    outcomes)
        case $before in --most) return ;; esac
        if [[ $word == -* ]]; then
            mapfile -t COMPREPLY < <(compgen -W '--most --count --explain --explain=never --explain=always --explain=auto --help' -- "$word")
        else
            mapfile -t COMPREPLY < <(compgen -f -- "$word")
        fi
        ;;
    check)
        if [[ $word == -* ]]; then
            mapfile -t COMPREPLY < <(compgen -W '--explain --explain=never --explain=always --explain=auto --help' -- "$word")
        else
            mapfile -t COMPREPLY < <(compgen -f -- "$word")
        fi
        ;;
    run)
        if [[ $word == -* ]]; then
            mapfile -t COMPREPLY < <(compgen -W '--explain --explain=never --explain=always --explain=auto --help' -- "$word")
        else
            mapfile -t COMPREPLY < <(compgen -f -- "$word")
        fi
        ;;
    key)
        if [[ $word == -* ]]; then
            mapfile -t COMPREPLY < <(compgen -W '--hex --word --explain --explain=never --explain=always --explain=auto --help' -- "$word")
        fi
        ;;
    esac
}
complete -o filenames -F _poolrun poolrun
