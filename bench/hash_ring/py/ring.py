"""Rings of uhashring of 10, 100, 1,000 and 4,096 servers of 100 points, by its own MD5 and by the first eight bytes of SHA-256: the least of a few rounds."""
import hashlib, time
from uhashring import HashRing

MASK = (1 << 64) - 1
KEYS = [f"user:{(turn * 0x9E3779B97F4A7C15 & MASK) >> 4:019d}" for turn in range(1 << 14)]

def address(place):
    return f"10.0.{place // 256}.{place % 256}:7946"

def sha256(key):
    return int.from_bytes(hashlib.sha256(str(key).encode()).digest()[:8], "big")

def nanos(calls, work):
    start = time.perf_counter_ns()
    work()
    return (time.perf_counter_ns() - start) / calls

def least(rounds, calls, work):
    return min(nanos(calls, work) for _ in range(rounds))

for name, function in (("md5", None), ("sha256", sha256)):
    for servers in (10, 100, 1000, 4096):
        addresses = [address(place) for place in range(servers)]
        build = least(3, 1, lambda: HashRing(addresses, vnodes=100, hash_fn=function)) / 1e6
        ring = HashRing(addresses, vnodes=100, hash_fn=function)
        owner = least(5, len(KEYS), lambda: [ring.get_node(key) for key in KEYS])
        few = KEYS[:200]
        owners = least(3, len(few), lambda: [[node["nodename"] for node in ring.range(key, 3)] for key in few])
        more = address(servers)
        adds, removes = [], []
        for _ in range(3):
            adds.append(nanos(1, lambda: ring.add_node(more)) / 1e3)
            removes.append(nanos(1, lambda: ring.remove_node(more)) / 1e3)
        print(
            f"uhashring {name} servers={servers} build_ms={build:.2f} owner_ns={owner:.1f} owners3_ns={owners:.1f} "
            f"add_us={min(adds):.1f} remove_us={min(removes):.1f}",
            flush=True,
        )
