#!/usr/bin/env bash
# Takes, judgements of a node that holds them all, digest texts and digests of 100, 1,000 and 4,096 members, in nanoseconds a call; then
# sha256sum over a thousand of the largest text, and the same table in Python. Needs python3 and sha256sum.
# usage: bench/member_core/run.sh [--try]
source "$(dirname "$0")/../lib.sh"
prepare "$here/member_bench" ': change_core member_core anyhow'
play "$work/text"
echo "text: $(wc -c < "$work/text") bytes, $(sha256sum < "$work/text")"
for _ in {1..1000}; do cat "$work/text"; done > "$work/texts"
echo "sha256sum over a thousand of it:"
time sha256sum "$work/texts"
python3 "$here/baseline.py"
