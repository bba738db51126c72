# shellcheck shell=bash disable=SC2034
# What the benchmarks share; each run.sh reads it by `source`, and so takes --try as its first word:
#   prepare FOLDER LINE    copies the program of a benchmark and the crates that it uses; LINE is its line in crates.txt, the name left out
#   play [WORD ..]         runs the program with these words; it is built before it first runs
#   has PEER COMMAND ..    whether a peer can be built or run; prints so if not
#   cargo_build FOLDER     builds the Rust program of a folder, in the copy $work/rust
# A benchmark is built in a copy, so nothing is left in the repository. There its files end with .txt, since a check reads each .rt and
# .antt file. It is proved first, over the work that earlier checks kept in out/: some minutes. With --try it is built unproved, in a
# minute or two; the checks that a proof makes needless are then in it, so its figures are higher.
set -euo pipefail
here=$(cd "$(dirname "$0")" && pwd)
root=$(cd "$(dirname "${BASH_SOURCE[0]}")/.." && pwd)
work=$(mktemp -d)
trap 'rm -rf "$work"' EXIT
is_proved=1
if [ "${1-}" = --try ]; then
    is_proved=0
    shift
fi
# Where the crates of Rust lie in a folder (Debian's librust packages put them there), CRATES names it, for a machine without network.
offline=()
if [ -n "${CRATES:-}" ]; then
    offline=(--offline --config 'source.crates-io.replace-with="folder"' --config "source.folder.directory=\"$CRATES\"")
fi

# Copies a crate and those below it; one of the toolchain is no matter.
copy_crate() {
    local line part
    line=$(grep -E "^$1( [^:]*)?:" "$root/crates.txt") || return 0
    [ ! -d "$work/crates/$1" ] || return 0
    mkdir -p "$work/crates/$1"
    for part in src specs proofs out; do
        if [ ! -d "$root/crates/$1/$part" ] || { [ "$part" = out ] && ((!is_proved)); }; then continue; fi
        cp -a "$root/crates/$1/$part" "$work/crates/$1/"
    done
    echo "$line" >> "$work/crates.txt"
    line=${line%%#*}
    for part in ${line#*:}; do copy_crate "$part"; done
}

prepare() {
    local name dependency
    name=$(basename "$1")
    folder=$work/crates/$name
    program=$folder/out/$name
    mkdir -p "$work/crates"
    cp -r "$1" "$folder"
    find "$folder" \( -name '*.rt.txt' -o -name '*.antt.txt' \) -exec sh -c 'for it; do mv "$it" "${it%.txt}"; done' sh {} +
    echo "$name$2" >> "$work/crates.txt"
    for dependency in ${2#*:}; do copy_crate "$dependency"; done
}

play() {
    if [ -x "$program" ]; then
        "$program" "$@"
    elif ((is_proved)); then
        (cd "$folder" && rt run -- "$@" < /dev/null)
    else
        "$root/scripts/unproved" "$folder" "$program"
        "$program" "$@"
    fi
}

has() {
    local peer=$1
    shift
    "$@" > "$work/said" 2>&1 || { echo "no $peer here: $(tail -n 1 "$work/said")"; return 1; }
}

cargo_build() {
    cp -r "$1" "$work/rust"
    shift
    (cd "$work/rust" && cargo build --release --quiet "$@" "${offline[@]}")
}
