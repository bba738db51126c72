#!/usr/bin/env bash
# A node of 10, 100, 1,000 and 4,000 members with 100 points each, in nanoseconds: all other members by one full synchronisation and one by
# one, and the hashes of their points; older, newer and refuted changes, answers to pings with and without pending changes, the first view after a
# change of the ring and the next ones.
# usage: bench/node_core/run.sh [--try]
source "$(dirname "$0")/../lib.sh"
prepare "$here/node_bench" ': change_core wire_json hash_ring node_core anyhow'
play
