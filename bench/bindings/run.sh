#!/usr/bin/env bash
# The owner of a key by the packages of python/, over the C library of dist/, and go/, and by their peers in one run each: uhashring in Python,
# groupcache's consistenthash in Go, with 10, 100 and 1,000 servers of 100 points. Nanoseconds a call, and in brackets the ratio to ours. A
# peer that is not here is named (on Debian python3-uhashring and golang-github-golang-groupcache-dev have them).
# usage: bench/bindings/run.sh     behind make package, which leaves dist/
set -euo pipefail
here=$(cd "$(dirname "$0")" && pwd)
root=$(cd "$here/../.." && pwd)
work=$(mktemp -d)
trap 'rm -rf "$work"' EXIT
tar -C "$work" -xzf "$root"/dist/ringpop-*.tar.gz --strip-components=1
export RINGPOP_LIBRARY=$work/lib/libringpop.so.1 LD_LIBRARY_PATH=$work/lib PKG_CONFIG_PATH=$work/lib/pkgconfig

# The system's own python3 has the system's packages, also if another comes first in PATH.
python=python3
"$python" -c 'import uhashring' 2> /dev/null || python=$(PATH=$(getconf PATH) command -v python3) || true
if "$python" -c 'import uhashring' 2> /dev/null; then
    PYTHONDONTWRITEBYTECODE=1 PYTHONPATH=$root/python "$python" "$here/ring.py"
else
    echo "no python3 with uhashring here"
fi

groupcache=$(dpkg -L golang-github-golang-groupcache-dev 2> /dev/null | sed -n 's,/src/github.com/golang/groupcache$,,p') || true
mkdir -p "$work/gopath/src"
ln -s "$root/go" "$work/gopath/src/ringpop"
if GO111MODULE=off GOPATH=$work/gopath:${groupcache:-$(go env GOPATH)} GOCACHE=$work/cache go build -o "$work/ring" "$here/go/main.go" 2> "$work/said"; then
    GOMAXPROCS=1 "$work/ring"
else
    echo "no go with groupcache here: $(tail -n 1 "$work/said")"
fi
