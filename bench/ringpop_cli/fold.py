#!/usr/bin/env python3
"""The same fold in plain Python, for comparison: python3 fold.py < LINES. It refuses a line that is not a change, in one way."""
import hashlib
import json
import re
import sys

RANKS = {word: rank for rank, word in enumerate(["alive", "suspect", "faulty", "leave", "tombstone"])}
PART = r"(0|[1-9]\d{0,2})"
ADDRESS = re.compile(rf"{PART}\.{PART}\.{PART}\.{PART}:([1-9]\d{{0,4}})", re.ASCII)


def read_address(text):
    parts = tuple(map(int, ADDRESS.fullmatch(text).groups()))
    if max(parts[:4]) > 255 or parts[4] > 65535:
        raise ValueError(text)
    return parts


def read_number(number, least, most):
    if type(number) is not int or not least <= number <= most:
        raise ValueError(number)
    return number


def main():
    held = {}
    for line in sys.stdin.buffer:
        change = json.loads(line)
        address = read_address(change["address"])
        incarnation = read_number(change["incarnationNumber"], 0, 2**53 - 1)
        read_address(change["source"])
        read_number(change["sourceIncarnationNumber"], 0, 2**53 - 1)
        status = change["status"]
        rank = RANKS[status]
        if status == "faulty" and change.get("tombstone", False):
            rank = 4
        entry = (incarnation, rank, read_number(change.get("weight", 1), 1, 8))
        if address not in held or entry > held[address]:
            held[address] = entry
    words = list(RANKS)
    text = ";".join(
        "%d.%d.%d.%d:%d" % address + words[rank] + str(incarnation) + (f"*{weight}" if weight > 1 else "")
        for address, (incarnation, rank, weight) in sorted(held.items())
    )
    print(text)
    print(hashlib.sha256(text.encode()).hexdigest())


main()
