#!/usr/bin/env bash
# Requests a second of an agent, and what a request takes, and those of nginx and haproxy on the same machine in turn, with 1, 8, 32 and 128
# connections of wrk: the owner of a key (GET /owner) and requests that the agent echoes (POST /keys), compared with nginx's own
# `return 200`; and requests with one hop to an application, an nginx that returns 200, compared with nginx (hash consistent, with a
# connection for each request and with connections that are kept) and haproxy (balance uri). Last one of three agents, where two thirds of
# the requests take a hop more. Medians of the rounds, which take turns; the table of all and the ratios come at the end, and go to
# bench/results/agent.csv.
# usage: bench/agent/run.sh [--program PROGRAM] [--rounds 3] [--seconds 2]     some five minutes
# Needs nginx, haproxy, wrk, curl and python3; a peer that is not here is named and left out.
set -euo pipefail
here=$(cd "$(dirname "$0")" && pwd)
root=$(cd "$here/../.." && pwd)
program=$root/crates/ringpop_cli/out/ringpop_cli
rounds=3
seconds=2
while [ $# -gt 1 ]; do
    case $1 in
        --program) program=$(realpath "$2") ;;
        --rounds) rounds=$2 ;;
        --seconds) seconds=$2 ;;
        *) break ;;
    esac
    shift 2
done
[ $# = 0 ] || { echo "usage: bench/agent/run.sh [--program PROGRAM] [--rounds 3] [--seconds 2]" >&2; exit 2; }
[ -x "$program" ] || { echo "$program: no program: run make first, or name one" >&2; exit 1; }
for each in nginx wrk curl; do command -v "$each" > /dev/null || { echo "no $each here" >&2; exit 1; }; done
work=$(mktemp -d)
chmod 755 "$work"
running=()

stop() {
    [ ${#running[@]} = 0 ] || kill "${running[@]}" 2> /dev/null || true
    wait
    running=()
}
trap 'stop; rm -rf "$work"' EXIT

# start URL COMMAND ..: runs a server until URL is answered.
start() {
    local url=$1
    shift
    "$@" > "$work/said" 2>&1 &
    running+=($!)
    for _ in $(seq 200); do
        if curl -sf "$url" > "$work/answer"; then return; fi
        sleep 0.1
    done
    echo "$*: no answer from $url" >&2
    cat "$work/said" >&2
    exit 1
}

start_nginx() {
    start http://127.0.0.1:28010/ nginx -p "$work" -c "$work/nginx.conf"
}

# start_agent NUMBER WORD ..: an agent of a cluster of which the first has number 0.
start_agent() {
    local number=$1
    shift
    start "http://127.0.0.1:2804$number/healthz" "$program" agent --log off --http "127.0.0.1:2804$number" "$@" "127.0.0.1:2803$number" \
        127.0.0.1:28030
}

# measure NAME PORT METHOD PATH [BODY]
measure() {
    local name=$1 url=http://127.0.0.1:$2 connections threads said
    shift 2
    for connections in 1 8 32 128; do
        threads=$((connections < 2 ? 1 : 2))
        said=$(wrk -t "$threads" -c "$connections" -d "${seconds}s" -s "$here/load.lua" "$url" -- "$@" | grep '^RESULT ')
        echo "$name,$connections,${said#RESULT }" >> "$work/rows"
    done
}

play_round() {
    start_nginx
    measure "nginx, return 200" 28010 GET /owner/
    measure "nginx, return 200 to a POST" 28010 POST /keys/ hello
    measure "nginx, one hop" 28011 POST /keys/ hello
    measure "nginx, one hop, connections kept" 28012 POST /keys/ hello
    if command -v haproxy > /dev/null; then
        start http://127.0.0.1:28020/ haproxy -db -f "$here/haproxy.cfg"
        measure "haproxy, one hop" 28020 POST /keys/ hello
    fi
    stop
    start_agent 0
    measure "agent, owner" 28040 GET /owner/
    measure "agent, echo" 28040 POST /keys/ hello
    stop
    start_nginx
    start_agent 0 --app 127.0.0.1:28000
    measure "agent, one hop" 28040 POST /keys/ hello
    start_agent 1 --app 127.0.0.1:28001
    start_agent 2 --app 127.0.0.1:28002
    sleep 2
    measure "three agents" 28040 POST /keys/ hello
    stop
}

sed "s,WORK,$work," "$here/nginx.conf" > "$work/nginx.conf"
command -v haproxy > /dev/null || echo "no haproxy here"
for _ in $(seq "$rounds"); do play_round; done
python3 "$here/table.py" "$work/rows" "$(git -C "$root" log -1 --format=%h) $(date -u +%F)" "$root/bench/results/agent.csv"
