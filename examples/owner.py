#!/usr/bin/env python3
"""Prints the owner of a key as a running node sees it, with Python's standard library alone.

usage: examples/owner.py 127.0.0.1:7941 trip-42     the cluster's points are the standard 100, by SHA-256
"""
import bisect
import hashlib
import json
import socket
import sys


def members(node):
    """The members that a node holds. A Join without changes adds no member."""
    host, port = node.rsplit(":", 1)
    join = {"kind": "join", "source": "0.0.0.0:1", "sourceIncarnationNumber": 0, "checksum": "0" * 64, "changes": []}
    with socket.create_connection((host, int(port)), 5) as link, link.makefile("rw") as lines:
        print(json.dumps(join), file=lines, flush=True)
        return json.loads(lines.readline())["changes"]


def point(text):
    return int.from_bytes(hashlib.sha256(text.encode()).digest()[:8], "big")


def ring(changes):
    """The points of the serving members, ascending; at one hash the lower address comes first."""
    serving = [it for it in changes if it["status"] in ("alive", "suspect")]
    number = {it["address"]: tuple(map(int, it["address"].replace(":", ".").split("."))) for it in serving}
    return sorted(
        (point(f"{it['address']}{i}"), number[it["address"]], it["address"])
        for it in serving
        for i in range(100 * it.get("weight", 1))
    )


def owner(points, key):
    """The server of the first point at or after the key's hash, wrapping around. Some member has to serve."""
    return points[bisect.bisect_left(points, (point(key),)) % len(points)][2]


if __name__ == "__main__":
    if len(sys.argv) != 3:
        sys.exit(__doc__)
    print(owner(ring(members(sys.argv[1])), sys.argv[2]))
