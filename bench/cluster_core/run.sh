#!/usr/bin/env bash
# A round of gossip in a node of 2 to 4,096 members whose peers answer immediately, and the answer to a Forward of one of its keys in one
# of 2 to 4,000, in nanoseconds; and how many requests a second a node answers over channels with 1, 2 and 4 workers.
# usage: bench/cluster_core/run.sh [--try]
source "$(dirname "$0")/../lib.sh"
prepare "$here/cluster_bench" ' may_wait=12: change_core hash_ring node_core locked_node peer_core cluster_core wire_json anyhow'
play
