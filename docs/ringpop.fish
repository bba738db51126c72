# Completion of ringpop's words for fish: `source docs/ringpop.fish`, or copy it to ~/.config/fish/completions/ringpop.fish.
complete -c ringpop -f
set -l commands fold hash owner sim serve agent ask members tell help

function __ringpop_in
    set -l words (commandline -opc)
    test (count $words) -gt 1; and contains -- $words[2] $argv
end

complete -c ringpop -n __fish_use_subcommand -a fold -d 'the members that result from change lines, and their digest'
complete -c ringpop -n __fish_use_subcommand -a hash -d 'the position of a text on the ring'
complete -c ringpop -n __fish_use_subcommand -a owner -d 'the member that owns a key'
complete -c ringpop -n __fish_use_subcommand -a sim -d 'simulated nodes, by a script'
complete -c ringpop -n __fish_use_subcommand -a serve -d 'run a node'
complete -c ringpop -n __fish_use_subcommand -a agent -d 'run a node next to an application'
complete -c ringpop -n __fish_use_subcommand -a ask -d 'send a request to a node'
complete -c ringpop -n __fish_use_subcommand -a members -d 'the members that a node holds'
complete -c ringpop -n __fish_use_subcommand -a tell -d 'send changes to a node'
complete -c ringpop -n __fish_use_subcommand -a help -d 'help for a command'
complete -c ringpop -n __fish_use_subcommand -l version -d 'print the version'
complete -c ringpop -l help -d 'print help'
complete -c ringpop -n '__ringpop_in help' -a "$commands[1..-2]"
complete -c ringpop -n '__ringpop_in owner' -l n -x -d 'how many owners, 0 to 4096'
complete -c ringpop -n '__ringpop_in owner sim serve agent ask' -l replicas -x -d 'points for each unit of weight, 1 to 1000'
complete -c ringpop -n '__ringpop_in owner sim serve ask' -l sum -d 'hash by the sum of the bytes instead of SHA-256'
complete -c ringpop -n '__ringpop_in serve' -l workers -x -d 'connections at a time, 1 to 16'
complete -c ringpop -n '__ringpop_in serve' -l period -x -d 'milliseconds between two rounds; 0: none'
complete -c ringpop -n '__ringpop_in agent' -l period -x -d 'milliseconds between two rounds, 1 to 60000'
complete -c ringpop -n '__ringpop_in serve agent' -l weight -x -d 'share of the keys, 1 to 8'
complete -c ringpop -n '__ringpop_in serve agent' -l per-message -x -d 'changes in a message, 1 to 4096'
complete -c ringpop -n '__ringpop_in serve' -l piggyback -x -d 'how often a change is passed on, for each digit, 1 to 1000'
complete -c ringpop -n '__ringpop_in serve' -l heal -d 'find members again that were lost'
complete -c ringpop -n '__ringpop_in agent' -l bind -x -d 'where the node listens, if not at ADDRESS'
complete -c ringpop -n '__ringpop_in agent' -l http -x -d 'where HTTP is answered'
complete -c ringpop -n '__ringpop_in agent' -l http-any -d 'allow --http outside 127.0.0.0/8'
complete -c ringpop -n '__ringpop_in agent' -l tell-app -d 'tell the application of the ring'
complete -c ringpop -n '__ringpop_in agent' -l any-request -d 'pass any HTTP request of a key on'
complete -c ringpop -n '__ringpop_in agent' -l key-field -x -d 'field that names the key of any HTTP request'
complete -c ringpop -n '__ringpop_in agent ask members tell' -l cluster -x -d 'name of the cluster'
complete -c ringpop -n '__ringpop_in agent' -l hosts-file -x -a '(__fish_complete_path)' -d 'file of more hosts, one address on a line'
complete -c ringpop -n '__ringpop_in agent' -l app -x -d 'where the application takes requests'
complete -c ringpop -n '__ringpop_in agent' -l no-wait-app -d 'join without waiting for --app'
complete -c ringpop -n '__ringpop_in agent' -l leave-after -x -d 'seconds without --app after which the node leaves; 0: never'
complete -c ringpop -n '__ringpop_in agent' -l hands -x -d 'threads for requests of other nodes, 1 to 256'
complete -c ringpop -n '__ringpop_in agent' -l http-connections -x -d 'HTTP connections at a time, 1 to 65536'
complete -c ringpop -n '__ringpop_in agent' -l incarnation -x -d 'first incarnation'
complete -c ringpop -n '__ringpop_in agent' -l log -x -a 'off error warn info debug' -d 'level of the log on standard error'
complete -c ringpop -n '__ringpop_in agent' -l log-json -d 'write the log as JSON'
complete -c ringpop -n '__ringpop_in ask' -l any -d 'ask the owner of the key, through any node'
complete -c ringpop -n '__ringpop_in members' -l lines -d 'a change line for each member'
complete -c ringpop -n '__ringpop_in members' -l table -d 'a table of the members'
