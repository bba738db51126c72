"""The owner of a key in Python, nanoseconds a call: the package ringpop and uhashring, by its own MD5 and by SHA-256, in turn in one run.
The least of seven rounds, and how often the first goes into each other's."""
import hashlib
import time

from ringpop import Ring
from uhashring import HashRing

KEYS = [f"user:{turn * 0x9E3779B97F4A7C15 % (1 << 64) >> 4:019d}" for turn in range(1 << 13)]
LINE = '{"address":"%s","incarnationNumber":1,"source":"%s","sourceIncarnationNumber":1,"status":"alive"}\n'


def address(place):
    return f"10.0.{place // 256}.{place % 256}:7946"


def sha256(key):
    return int.from_bytes(hashlib.sha256(str(key).encode()).digest()[:8], "big")


def nanos(look):
    start = time.perf_counter_ns()
    for key in KEYS:
        look(key)
    return (time.perf_counter_ns() - start) / len(KEYS)


for servers in (10, 100, 1000):
    addresses = [address(place) for place in range(servers)]
    rings = {
        "ringpop": Ring.from_members("".join(LINE % (it, it) for it in addresses)).owner,
        "uhashring_md5": HashRing(addresses, vnodes=100).get_node,
        "uhashring_sha256": HashRing(addresses, vnodes=100, hash_fn=sha256).get_node,
    }
    rounds = [[nanos(look) for look in rings.values()] for _ in range(7)]
    least = dict(zip(rings, map(min, zip(*rounds))))
    ours = least["ringpop"]
    print(f"python servers={servers}", *(f"{name}={it:.0f} ({it / ours:.2f})" for name, it in least.items()), flush=True)
