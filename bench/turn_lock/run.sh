#!/usr/bin/env bash
# Enters and leaves of a counter under the lock, with 1, 2 and 4 threads, and the same counter under the toolchain's Mutex; then the CPU
# time of three threads that wait two seconds for one that rests inside.
# usage: bench/turn_lock/run.sh [--try]
source "$(dirname "$0")/../lib.sh"
prepare "$here/lock_bench" ' may_wait=12: turn_lock anyhow'
play
time play hold
