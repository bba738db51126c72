#!/usr/bin/env bash
# Rings of 10, 100, 1,000 and 4,096 servers of 100 points by SHA-256: builds server by server and in one call in micro- or milliseconds, one,
# few and all owners in nanoseconds a call, adds and removes in microseconds; and what no search can be without, the hash of a key and one
# read of a random place among as many points. Then, one after another, the peers: a sorted vector in Rust by the soft SHA-256 of the crate
# sha2, groupcache in Go, uhashring in Python and libmemcached's ketama in C. A peer that is not there is named: cargo with the crate sha2
# 0.10, go with groupcache (on Debian golang-github-golang-groupcache-dev, else in GOPATH), a python3 with uhashring, cc with
# libmemcached's headers.
# usage: bench/hash_ring/run.sh [--try]
source "$(dirname "$0")/../lib.sh"
prepare "$here/ring_bench" ': change_core hash_ring anyhow'
play

if has "cargo with sha2" cargo_build "$here/rust" --features soft; then "$work/rust/target/release/ring_baseline"; fi

go_build() {
    local debian
    debian=$(dpkg -L golang-github-golang-groupcache-dev 2> /dev/null | sed -n 's,/src/github.com/golang/groupcache$,,p') || debian=
    (cd "$here/go" && GO111MODULE=off GOPATH=${debian:-${GOPATH:-}} go build -o "$work/go_ring" main.go)
}
if has "go with groupcache" go_build; then GOMAXPROCS=1 "$work/go_ring"; fi

# The system's own python3 has the system's packages, also if another comes first in PATH.
python=python3
"$python" -c 'import uhashring' 2> /dev/null || python=$(PATH=$(getconf PATH) command -v python3) || true
if has "python3 with uhashring" "$python" -c 'import uhashring'; then "$python" "$here/py/ring.py"; fi

if has "cc with libmemcached" cc -O2 "$here/c/ketama.c" -o "$work/ketama" -lmemcached; then "$work/ketama"; fi
