"""Writes change lines. The same arguments give the same lines.

make_lines.py LINES ADDRESSES          changes of every kind about the given number of addresses
make_lines.py servers COUNT WEIGHT     the given number of members that are alive, each of this weight
"""
import sys

WORDS = ["alive", "suspect", "faulty", "leave", "tombstone"]


def servers(count, weight):
    for i in range(count):
        print(
            f'{{"address":"10.0.{i // 256}.{i % 256}:7946","incarnationNumber":1,"source":"10.0.0.1:7946",'
            f'"sourceIncarnationNumber":1,"status":"alive","weight":{weight}}}'
        )


def main():
    if sys.argv[1] == "servers":
        return servers(int(sys.argv[2]), int(sys.argv[3]))
    lines, addresses = int(sys.argv[1]), int(sys.argv[2])
    for i in range(lines):
        place = i * 2654435761 % addresses
        weight = f',"weight":{i % 8 + 1}' if i % 3 == 0 else ""
        print(
            f'{{"address":"10.0.{place // 256}.{place % 256}:7946","incarnationNumber":{1700000000000 + i // addresses},'
            f'"source":"10.0.0.1:7946","sourceIncarnationNumber":1700000000007,"status":"{WORDS[i % 5]}"{weight}}}'
        )


main()
