#!/usr/bin/env bash
# Calls a second of a node of 100 members that 1, 2, 4, 8 and 64 threads share, each of them the owner of a key: as a locked node, and under
# the toolchain's Mutex round the same node. First by themselves, and then next to four busy loops. Ends with status 1 if 64 threads
# make less than a tenth of the calls of one thread. That is so without the mutex that a call takes before the lock, which no contract asks
# for: --without-mutex leaves it out. The program is built unproved, with the checks of indexes that a proof makes needless, so only its
# ratios count.
# usage: bench/locked_node/run.sh [--without-mutex]
source "$(dirname "$0")/../lib.sh"
is_proved=0
crates='change_core message_core member_core hash_ring gossip_core detector_core node_core turn_lock locked_node'
prepare "$here/locked_bench" ": $crates sha2 indexmap rand rand_core rand_pcg atomic_table anyhow thiserror"
if [ "${1-}" = --without-mutex ]; then
    turns=$work/crates/locked_node/src/turns.rt
    grep -q 'let _gate = self\.gate\.lock(rt);' "$turns" || { echo "locked_node: $turns takes no mutex" >&2; exit 2; }
    sed -i '/let _gate = self\.gate\.lock(rt);/d' "$turns"
fi
"$root/scripts/unproved" "$folder" "$program"

# Measures, prints the rates, and tells whether 64 threads kept a tenth of the speed of one.
measure() {
    "$program" | awk -v how="$1" '
        { print how ": " $0; fflush(); rate[$1] = $4 }
        END { exit rate[1] < 1 || rate[64] * 10 < rate[1] }'
}

failed=0
measure 'by themselves' || failed=1
busy=()
for _ in 1 2 3 4; do
    (while :; do :; done) &
    busy+=($!)
done
trap 'kill "${busy[@]}"; rm -rf "$work"' EXIT
measure 'next to four busy loops' || failed=1
if ((failed)); then echo 'FAILED: 64 threads make less than a tenth of the calls of one'; fi
exit "$failed"
