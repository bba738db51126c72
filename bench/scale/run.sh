#!/usr/bin/env bash
# Simulates clusters of 100, 300 and 1,000 nodes of node_core in one process, without links, threads and clock, and prints one table: after
# how many rounds all agree if all start at once, and what a node has sent until then, with 64, 256, 512 and 1,024 changes a message; after how
# many rounds all hold one that is killed, joins or leaves in a settled cluster; bytes a node and round at rest and with a leave or a return
# in each round; and how long a killed node is not suspected if all nodes have one seed. The program is run, and not proved.
# usage: bench/scale/run.sh [NODES ..]     some minutes for 100 and 300, a quarter of an hour with 1,000
source "$(dirname "$0")/../lib.sh"
is_proved=0
crates='change_core message_core wire_json member_core hash_ring gossip_core detector_core node_core'
prepare "$here/scale_bench" ": $crates json serde_json sha2 indexmap rand rand_core rand_pcg anyhow thiserror"
play 2 1 1 > "$work/built"
python3 "$here/table.py" "$program" "${@:-100 300 1000}"
