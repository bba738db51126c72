"""Makes the lines of pings, and measures Python's readers and writers of JSON on them.

ping.py make FOLDER    writes ping0.json, ping64.json and ping4096.json, and longest.json and objects.json, of 1,048,576 bytes: a request
                       with a long body, and a ping whose changes are objects without members
ping.py time FILE..    prints MB/s, the median of five rounds
"""
import json
import pathlib
import statistics
import sys
import time

try:
    import orjson
except ImportError:
    orjson = None

STATUSES = ["alive", "suspect", "faulty", "leave", "tombstone"]
CHECKSUM = "e3b0c44298fc1c149afbf4c8996fb92427ae41e4649b934ca495991b7852b855"


def ping(count):
    changes = [
        {
            "address": f"10.0.{i // 256}.{i % 256}:7946",
            "incarnationNumber": 1700000000000 + i,
            "source": "10.0.0.1:7946",
            "sourceIncarnationNumber": 1700000000007,
            "status": STATUSES[i % 5],
        }
        for i in range(count)
    ]
    return {
        "changes": changes,
        "checksum": CHECKSUM,
        "kind": "ping",
        "source": "10.0.0.1:7946",
        "sourceIncarnationNumber": 1700000000007,
    }


def longest():
    """A request whose body makes its line as long as one may be."""
    whole = {"kind": "forward", "source": "10.0.0.1:7946", "sourceIncarnationNumber": 1, "keys": ["k"], "body": ""}
    return {**whole, "body": "x" * (1_048_576 - len(written(whole)))}


def objects():
    """A ping of as many bytes, whose changes are objects without members."""
    whole = ping(0)
    return {**whole, "changes": [{}] * ((1_048_577 - len(written(whole))) // 3)}


def written(value):
    return json.dumps(value, separators=(",", ":"))


def speed(size, call):
    turns = max(5, min(50_000, 8_000_000 // size))
    rounds = []
    for _ in range(5):
        start = time.perf_counter()
        for _ in range(turns):
            call()
        rounds.append((time.perf_counter() - start) / turns)
    return size / statistics.median(rounds) / 1e6


def main():
    if sys.argv[1] == "make":
        lines = {"ping0": ping(0), "ping64": ping(64), "ping4096": ping(4096), "longest": longest(), "objects": objects()}
        for name, line in lines.items():
            pathlib.Path(sys.argv[2], f"{name}.json").write_text(written(line))
        return
    for file in sys.argv[2:]:
        line = pathlib.Path(file).read_bytes()
        value = json.loads(line)
        name = pathlib.Path(file).name
        print(f"python json      {name}: decode {speed(len(line), lambda: json.loads(line)):.0f} MB/s")
        encode = lambda: json.dumps(value, separators=(",", ":")).encode()
        print(f"python json      {name}: encode {speed(len(line), encode):.0f} MB/s")
        if orjson:
            print(f"python orjson    {name}: decode {speed(len(line), lambda: orjson.loads(line)):.0f} MB/s")
            print(f"python orjson    {name}: encode {speed(len(line), lambda: orjson.dumps(value)):.0f} MB/s")


main()
