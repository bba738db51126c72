# Completion of ringpop's words for bash: `. docs/ringpop.bash`, or copy it to ~/.local/share/bash-completion/completions/ringpop.
_ringpop() {
    local word=${COMP_WORDS[COMP_CWORD]} before=${COMP_WORDS[COMP_CWORD - 1]} words
    case $before in
        --n | --replicas | --workers | --period | --weight | --bind | --http | --app | --hands | --http-connections | --leave-after | --key-field | --cluster | --hosts-file | --per-message | --piggyback | --incarnation) return ;;
        --log)
            mapfile -t COMPREPLY < <(compgen -W 'off error warn info debug' -- "$word")
            return
            ;;
    esac
    case ${COMP_WORDS[1]} in
        owner) words='--n --replicas --sum --help' ;;
        sim) words='--replicas --sum --help' ;;
        serve) words='--workers --period --replicas --sum --weight --per-message --piggyback --heal --help' ;;
        agent) words='--bind --http --http-any --app --no-wait-app --leave-after --tell-app --any-request --key-field --cluster --hosts-file --hands --http-connections --period --per-message --replicas --weight --incarnation --log --log-json --help' ;;
        ask) words='--any --replicas --sum --cluster --help' ;;
        members) words='--lines --table --cluster --help' ;;
        tell) words='--cluster --help' ;;
        fold | hash) words='--help' ;;
        help) words='fold hash owner sim serve agent ask members tell' ;;
    esac
    if [ "$COMP_CWORD" -eq 1 ]; then
        words='fold hash owner sim serve agent ask members tell help --help --version'
    fi
    mapfile -t COMPREPLY < <(compgen -W "$words" -- "$word")
}
complete -F _ringpop ringpop
