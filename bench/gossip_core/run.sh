#!/usr/bin/env bash
# Puts, issues and adjustments of a pending list of 4,096 changes, in nanoseconds a call, medians of three rounds.
# usage: bench/gossip_core/run.sh [--try]
source "$(dirname "$0")/../lib.sh"
prepare "$here/gossip_bench" ': change_core gossip_core anyhow'
play
