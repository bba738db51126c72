#!/usr/bin/env python3
"""Tells what a POST takes by the length of its body: a service alone, through nginx, through an agent, and with --any-request through one and three.

usage: bench/agent/bodies.py [--program PROGRAM] [--rounds 7] [--seconds 1]     some three minutes

The service is an nginx that takes the body and returns 200. One connection of wrk asks for keys in turn, so of the requests to three agents two of
three take a hop more. The rows take turns in each round. The table has of each cell the least of the rounds: the microseconds of CPU time that nginx and
the row's agents took for a request, and those within which half of the requests were answered. It goes to bench/results/bodies.csv. Needs nginx
and wrk.
"""
import argparse
import contextlib
import csv
import datetime
import os
import pathlib
import subprocess
import tempfile
import time
import urllib.request

ROOT = pathlib.Path(__file__).resolve().parents[2]
HERE = ROOT / "bench" / "agent"
SIZES = (100, 10_000, 130_000, 500_000)
# the longest body that is passed on as a text
LONGEST_TEXT = 131_072
TICK = 1_000_000 / os.sysconf("SC_CLK_TCK")
# the rows: the port that is asked, the type of the body, and how many agents are started with these options; port numbers as in nginx.conf
TEXT, BINARY = "text/plain", "application/octet-stream"
ROWS = {
    "service alone": (28000, BINARY, 0, ()),
    "nginx, connections kept": (28012, BINARY, 0, ()),
    "agent, a text": (28060, TEXT, 1, ()),
    "agent, any request": (28070, BINARY, 1, ("--any-request",)),
    "three agents, any request": (28080, BINARY, 3, ("--any-request",)),
}


def started(ends, url, *words):
    """A process that answers a URL, and ends with the others."""
    process = subprocess.Popen([*map(str, words)], stdout=subprocess.DEVNULL, stderr=subprocess.DEVNULL)
    ends.callback(process.wait)
    ends.callback(process.terminate)
    for _ in range(200):
        with contextlib.suppress(OSError):
            return urllib.request.urlopen(url) and process
        time.sleep(0.1)
    raise SystemExit(f"{words}: no answer from {url}")


def agents(ends, program, first, count, options):
    """Agents of one cluster, whose HTTP is at this port and the next ones."""
    hosts = [f"127.0.0.1:{first + 3 + place}" for place in range(count)]
    for place, own in enumerate(hosts):
        words = [program, "agent", "--log", "off", *options, "--http", f"127.0.0.1:{first + place}", "--app", f"127.0.0.1:{28000 + place}", own, *hosts]
        yield started(ends, f"http://127.0.0.1:{first + place}/livez", *words)


def below(process):
    """The numbers of a process and its children."""
    pid = process.pid
    return [pid, *map(int, pathlib.Path(f"/proc/{pid}/task/{pid}/children").read_text().split())]


def used(processes):
    """The microseconds of CPU time that these took."""
    stats = [pathlib.Path(f"/proc/{pid}/stat").read_text().rpartition(")")[2].split() for process in processes for pid in below(process)]
    return sum(int(it[11]) + int(it[12]) for it in stats) * TICK


def asked(port, kind, size, seconds):
    """How many requests wrk made, and within how many microseconds half of them were answered."""
    words = ["wrk", "-t", "1", "-c", "1", "-d", f"{seconds}s", "-s", HERE / "load.lua", f"http://127.0.0.1:{port}", "--", "POST", "/keys/", "x", size, kind]
    said = subprocess.run([*map(str, words)], capture_output=True, text=True, check=True).stdout
    count, _, half, _, lost, others = map(int, said.partition("RESULT ")[2].split())
    if lost or others or not count:
        raise SystemExit(f"port {port}, {size} bytes: {count} requests, {lost} lost, {others} of another status")
    return count, half


def least(given, processes):
    """Of each row and length of a body the least microseconds of CPU time for a request, and the least in which half are answered."""
    found = {}
    for _ in range(given.rounds):
        for name, (port, kind, *_) in ROWS.items():
            for size in SIZES if kind == BINARY else [it for it in SIZES if it <= LONGEST_TEXT]:
                before = used(processes[name])
                count, half = asked(port, kind, size, given.seconds)
                took = (used(processes[name]) - before) / count, half
                found[name, size] = tuple(map(min, took, found.get((name, size), took)))
    return found


def report(found, load):
    """Prints the table, and writes it to bench/results."""
    print("us of CPU time (in times of nginx), us for half", *(f"{size} bytes" for size in SIZES), sep=" | ")
    nginx = [found["nginx, connections kept", size][0] for size in SIZES]
    for name in ROWS:
        told = [found.get((name, size)) for size in SIZES]
        print(name, *(f"{it[0]:.0f} ({it[0] / least:.1f}), {it[1]}" if it else "" for it, least in zip(told, nginx)), sep=" | ")
    commit = subprocess.run(["git", "-C", ROOT, "log", "-1", "--format=%h"], capture_output=True, text=True, check=True).stdout.strip()
    recorded = f"{commit} {datetime.datetime.now(datetime.timezone.utc):%F}"
    with open(ROOT / "bench" / "results" / "bodies.csv", "w", newline="") as file:
        table = csv.writer(file, lineterminator="\n")
        table.writerow(["server", "bytes", "us of CPU time", "p50 in us", "load", "recorded"])
        table.writerows([name, size, round(used), half, load, recorded] for (name, size), (used, half) in found.items())


def main():
    given = argparse.ArgumentParser(description=__doc__.splitlines()[0])
    given.add_argument("--program", default=ROOT / "build" / "ringpop")
    given.add_argument("--rounds", type=int, default=7)
    given.add_argument("--seconds", type=int, default=1)
    given = given.parse_args()
    with tempfile.TemporaryDirectory() as folder, contextlib.ExitStack() as ends:
        os.chmod(folder, 0o755)
        pathlib.Path(folder, "nginx.conf").write_text((HERE / "nginx.conf").read_text().replace("WORK", folder))
        nginx = started(ends, "http://127.0.0.1:28010/", "nginx", "-p", folder, "-c", f"{folder}/nginx.conf")
        processes = {name: [nginx, *agents(ends, given.program, port, count, options)] for name, (port, _, count, options) in ROWS.items()}
        time.sleep(2)
        loads = [os.getloadavg()[0]]
        found = least(given, processes)
        loads.append(os.getloadavg()[0])
    report(found, f"{min(loads):.0f} to {max(loads):.0f}")


main()
