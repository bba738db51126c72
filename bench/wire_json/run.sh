#!/usr/bin/env bash
# Decode and encode of pings with 0, 64 and 4,096 changes, in MB/s, in one run: this product, serde_json in Rust (if cargo finds it),
# and Python's json (and orjson if it is there); how much memory the longest lines take, each read once; and, if valgrind is there,
# how many instructions one line takes (`value`: its reading as a `Value` alone). Needs python3; PYTHON may name another Python.
# usage: bench/wire_json/run.sh [--try]
source "$(dirname "$0")/../lib.sh"
prepare "$here/wire_bench" ': change_core wire_json serde_json anyhow'
python3 "$here/ping.py" make "$work"
files=("$work/ping0.json" "$work/ping64.json" "$work/ping4096.json")

# The instructions of one line by a program, decoded or encoded: the difference of two lengths of run.
instructions() {
    local turns said=()
    for turns in "$3" $(($3 * 3)); do
        said+=("$(valgrind --tool=callgrind --callgrind-out-file=/dev/null "$1" "$2" "$turns" "$4" 2>&1 | sed -n 's/.*Collected : //p')")
    done
    echo "$(basename "$1") $(basename "$4"): $2 $(((said[1] - said[0]) / ($3 * 2))) instructions"
}

play "${files[@]}"
programs=("$program")
for name in ping4096 longest objects; do play once "$work/$name.json"; done
if has "cargo with serde_json" cargo_build "$here/rust"; then
    peer=$work/rust/target/release/ping_lines
    programs+=("$peer")
    "$peer" "${files[@]}"
    for name in ping4096 longest objects; do "$peer" once "$work/$name.json"; done
fi
"${PYTHON:-python3}" "$here/ping.py" time "${files[@]}"
if has valgrind command -v valgrind; then
    for way in decode encode; do
        for each in "${programs[@]}"; do
            instructions "$each" "$way" 100 "$work/ping0.json"
            instructions "$each" "$way" 10 "$work/ping64.json"
            instructions "$each" "$way" 1 "$work/ping4096.json"
        done
    done
    instructions "$program" value 100 "$work/ping0.json"
fi
