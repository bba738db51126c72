"""The same table as a Python dict: nanoseconds a call, the median of five rounds."""
import hashlib, statistics, sys, time

def timed(calls, work):
    start = time.perf_counter_ns()
    work()
    return (time.perf_counter_ns() - start) // calls

def take(table, address, change):
    held = table.get(address)
    if held is None or change > held:
        table[address] = change
        return True
    return False

def take_all(table, count, incarnation):
    for turn in range(count):
        take(table, (0x0A000000 + turn * 1663 % count, 3000), (incarnation, 0, 1))

def text(table):
    return ";".join(
        f"{a >> 24}.{a >> 16 & 255}.{a >> 8 & 255}.{a & 255}:{port}alive{change[0]}"
        for (a, port), change in sorted(table.items())
    )

for count in (100, 1000, 4096):
    rows = {"first take": [], "later take": [], "digest": []}
    for _ in range(5):
        table = {}
        rows["first take"].append(timed(count, lambda: take_all(table, count, 1)))
        rows["later take"].append(timed(count * 20, lambda: [take_all(table, count, 2 + i) for i in range(20)]))
        rows["digest"].append(timed(5, lambda: [hashlib.sha256(text(table).encode()).hexdigest() for _ in range(5)]))
    print(f"{count} members in Python")
    for name, nanos in rows.items():
        print(f"  {name}: {statistics.median(nanos)} ns")
