#compdef ringpop
# Completion of ringpop's words for zsh: copy it as _ringpop to a folder of $fpath.
_ringpop() {
    local -a commands ring
    commands=(
        'fold:the members that result from change lines, and their digest'
        'hash:the position of a text on the ring'
        'owner:the member that owns a key'
        'sim:simulated nodes, by a script'
        'serve:run a node'
        'agent:run a node next to an application'
        'ask:send a request to a node'
        'members:the members that a node holds'
        'tell:send changes to a node'
        'help:help for a command'
    )
    ring=('--replicas[points for each unit of weight, 1 to 1000]:points:' '--sum[hash by the sum of the bytes instead of SHA-256]')
    if ((CURRENT == 2)); then
        _arguments '--help[print help]' '--version[print the version]'
        _describe command commands
        return
    fi
    local command=$words[2]
    shift words
    ((CURRENT--))
    case $command in
        owner) _arguments $ring '--n[how many owners, 0 to 4096]:owners:' '--help[print help]' ':key:' ;;
        sim) _arguments $ring '--help[print help]' ;;
        serve)
            _arguments $ring '--workers[connections at a time, 1 to 16]:workers:' '--period[milliseconds between two rounds; 0\: none]:ms:' \
                '--weight[share of the keys, 1 to 8]:weight:' '--per-message[changes in a message, 1 to 4096]:changes:' \
                '--piggyback[how often a change is passed on, for each digit, 1 to 1000]:times:' '--heal[find members again that were lost]' \
                '--help[print help]' ':address:' ':incarnation:' ':requests:' '*:host:'
            ;;
        agent)
            _arguments '--bind[where the node listens, if not at ADDRESS]:address:' '--http[where HTTP is answered]:address:' \
                '--http-any[allow --http outside 127.0.0.0/8]' '--app[where the application takes requests]:address:' \
                '--no-wait-app[join without waiting for --app]' '--leave-after[seconds without --app after which the node leaves; 0\: never]:seconds:' \
                '--tell-app[tell the application of the ring]' '--any-request[pass any HTTP request of a key on]' \
                '--key-field[field that names the key of any HTTP request]:name:' '--cluster[name of the cluster]:name:' \
                '--hosts-file[file of more hosts, one address on a line]:file:_files' \
                '--hands[threads for requests of other nodes, 1 to 256]:hands:' \
                '--http-connections[HTTP connections at a time, 1 to 65536]:connections:' '--period[milliseconds between two rounds, 1 to 60000]:ms:' \
                '--per-message[changes in a message, 1 to 4096]:changes:' '--replicas[points for each unit of weight, 1 to 1000]:points:' \
                '--weight[share of the keys, 1 to 8]:weight:' '--incarnation[first incarnation]:incarnation:' \
                '--log[level of the log on standard error]:level:(off error warn info debug)' '--log-json[write the log as JSON]' '--help[print help]' ':address:' '*:host:'
            ;;
        ask) _arguments $ring '--cluster[name of the cluster]:name:' '--any[ask the owner of the key, through any node]' '--help[print help]' ':address:' ':key:' ':body:' ;;
        members) _arguments '--cluster[name of the cluster]:name:' '--lines[a change line for each member]' '--table[a table of the members]' '--help[print help]' ':host:' ;;
        tell) _arguments '--cluster[name of the cluster]:name:' '--help[print help]' ':host:' ;;
        fold | hash) _arguments '--help[print help]' ':argument:' ;;
        help) _values command fold hash owner sim serve agent ask members tell ;;
    esac
}
_ringpop "$@"
