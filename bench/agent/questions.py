#!/usr/bin/env python3
"""Tells what questions about the ring cost at three agents of this machine, and ends with status 1 where an answer is wrong.

usage: bench/agent/questions.py [--program PROGRAM] [--keys 4096] [--waiting 1000] [--changes 20] [--told 1000] [--net 127.0.74] [--port 17400]

It compares the owners of many keys by one POST /owners, by a GET /owner for each, and in process by the ring of python/ (and by uhashring, and in Go by
the ring of go/ and groupcache, where those are here); then it has questions wait for a leave, and tells what else an agent does meanwhile, and how soon
one with as many questions stops; then it kills and starts an agent again and again, and tells after how many milliseconds a watcher has each ring that
the agent's members show; last it tells the agent of joins and kills of members that are not there, and after how many milliseconds the watcher has each.
"""
import argparse
import http.client
import json
import os
import pathlib
import queue
import shutil
import socket
import statistics
import subprocess
import sys
import tempfile
import threading
import time
from urllib.parse import quote

ROOT = pathlib.Path(__file__).resolve().parents[2]
sys.path.insert(0, str(ROOT / "python"))
sys.dont_write_bytecode = True
from ringpop import Client, Ring  # noqa: E402


class Node:
    def __init__(self, given, place):
        self.host, self.given = f"{given.net}.{place}", given
        self.own, self.http = f"{self.host}:{given.port}", f"{self.host}:{given.port + 1}"
        self.client = Client(f"http://{self.http}", timeout=10)

    def start(self):
        hosts = [f"{self.given.net}.{place}:{self.given.port}" for place in (1, 2, 3)]
        words = [self.given.program, "agent", "--http", self.http, self.own, *hosts]
        self.process = subprocess.Popen(words, stdout=subprocess.DEVNULL, stderr=subprocess.DEVNULL)

    def kill(self):
        self.process.kill()
        self.process.wait()

    def serving(self):
        try:
            return self.client.ring().serving
        except Exception:
            return None

    def threads(self):
        told = pathlib.Path(f"/proc/{self.process.pid}/status").read_text()
        return int(told.split("Threads:")[1].split()[0])


def wait_until(what, is_so, seconds=40):
    end = time.monotonic() + seconds
    while not is_so():
        if time.monotonic() > end:
            raise SystemExit(f"not {what} within {seconds} seconds")
        time.sleep(0.01)


def timed(times, call):
    """The result of a number of calls, and the median of their milliseconds."""
    spent = []
    for _ in range(times):
        begun = time.perf_counter()
        result = call()
        spent.append((time.perf_counter() - begun) * 1_000)
    return result, statistics.median(spent)


def each_owner(node, keys):
    link, found = http.client.HTTPConnection(node.http), []
    for key in keys:
        link.request("GET", "/owner/" + quote(key, safe=""))
        found.append(json.loads(link.getresponse().read())["owners"])
    link.close()
    return found


def compare(node, given):
    keys = [f"rider {number}/ü" for number in range(given.keys)]
    ring = node.client.ring()
    whole, by_list = timed(20, lambda: node.client.owners(keys))
    single, by_each = timed(1, lambda: each_owner(node, keys))
    here, in_process = timed(20, lambda: [[ring.owner(key)] for key in keys])
    if not whole == single == here:
        raise SystemExit("the owners differ")
    print(f"{given.keys} keys: POST /owners {by_list:.1f} ms, {given.keys} GET /owner {by_each:.0f} ms, ring in process {in_process:.1f} ms; all equal")
    compare_peer(ring, keys)
    compare_go(node, given)


def compare_peer(ring, keys):
    try:
        from uhashring import HashRing
    except ImportError:
        return print("no uhashring is here")
    other = HashRing([address for address, _ in ring.serving], vnodes=ring.replicas)
    print(f"uhashring in process {timed(20, lambda: [other.get_node(key) for key in keys])[1]:.1f} ms")


def compare_go(node, given):
    groupcache = pathlib.Path("/usr/share/gocode")  # (where Debian's packages of Go have their sources)
    if not shutil.which("go") or not (groupcache / "src" / "github.com" / "golang" / "groupcache").exists():
        return print("no Go with groupcache is here")
    with tempfile.TemporaryDirectory() as folder:
        os.makedirs(f"{folder}/src")
        os.symlink(ROOT / "go", f"{folder}/src/ringpop")
        environment = {**os.environ, "GO111MODULE": "off", "GOPATH": f"{folder}:{groupcache}", "GOCACHE": f"{folder}/cache"}
        subprocess.run(["go", "build", "-o", f"{folder}/owners", str(ROOT / "bench" / "agent" / "owners" / "main.go")], env=environment, check=True)
        subprocess.run([f"{folder}/owners", node.client.url, str(given.keys)], check=True)


def ask_and_wait(node, digest):
    stream = socket.create_connection((node.host, node.given.port + 1), 30)
    stream.sendall(f"GET /ring?after={digest}&wait=60 HTTP/1.1\r\nhost: a\r\n\r\n".encode())
    return stream


def hold(node, other, given):
    """How many threads the agent has while questions wait, and how soon each is answered once another node leaves."""
    digest, before = node.client.ring().digest, node.threads()
    streams = [ask_and_wait(node, digest) for _ in range(given.waiting)]
    time.sleep(1)
    during = node.threads()
    others = answers_beside(node)
    begun = time.monotonic()
    other.client.leave()
    wait_until("left", lambda: len(node.serving() or ()) == 2)
    seen = time.monotonic()
    answers = [stream.recv(65_536).split(b" ", 2)[1] for stream in streams]
    ended = time.monotonic()
    for stream in streams:
        stream.close()
    if set(answers) != {b"200"}:
        raise SystemExit(f"answers are {set(answers)}")
    print(f"{given.waiting} questions wait: {during} threads, {before} before; all are answered {(ended - seen) * 1_000:.0f} ms after the members show the leave, "
          f"{(ended - begun) * 1_000:.0f} ms after it")
    print(f"meanwhile {others}")
    other.client.rejoin()
    wait_until("back", lambda: len(node.serving() or ()) == 3)


def answers_beside(node, times=200):
    """How long other requests take at an agent at which questions wait."""
    told = []
    for name, method, path in (("GET /healthz", "GET", "/healthz"), ("GET /owner", "GET", "/owner/k"), ("POST /keys", "POST", "/keys/k")):
        link, spent = http.client.HTTPConnection(node.http), []
        for _ in range(times):
            begun = time.perf_counter()
            link.request(method, path, b"x" if method == "POST" else None)
            answer = link.getresponse()
            answer.read()
            spent.append((time.perf_counter() - begun) * 1_000)
            if answer.status != 200:
                raise SystemExit(f"{path} is answered {answer.status} while questions wait")
        link.close()
        told.append(f"{name} takes {statistics.median(spent):.2f} ms at the median, {max(spent):.1f} at most")
    return ", ".join(told)


def stop(node, given):
    """How soon an agent at which questions wait answers them and ends, once it is told to stop."""
    digest = node.client.ring().digest
    streams = [ask_and_wait(node, digest) for _ in range(given.waiting)]
    time.sleep(1)
    begun = time.monotonic()
    link = http.client.HTTPConnection(node.http)
    link.request("POST", "/stop")
    link.getresponse().read()
    stopped = time.monotonic()
    link.close()
    answers = {stream.recv(65_536).split(b" ", 2)[1] for stream in streams}
    answered = time.monotonic()
    for stream in streams:
        stream.close()
    node.process.wait(30)
    if not answers <= {b"200", b"304"}:
        raise SystemExit(f"at a stop answers are {answers}")
    print(f"POST /stop with {given.waiting} questions is answered after {(stopped - begun) * 1_000:.0f} ms, the last question {(answered - begun) * 1_000:.0f} ms, "
          f"and the agent ends {(time.monotonic() - begun):.1f} s after it")
    node.start()


def follow(node, other, given):
    """After how many milliseconds a watcher has each ring that the members show, while the other agent is killed and started again."""
    rings, is_over = {}, threading.Event()
    watching = Client(node.client.url, timeout=10)

    def watch():
        for ring in watching.watch():
            rings.setdefault((len(rings), ring.serving), time.monotonic())
            if is_over.is_set():
                return

    threading.Thread(target=watch, daemon=True).start()
    late, missed = [], 0
    for change in range(given.changes):
        count = len(rings)
        if change % 2 == 0:
            other.kill()
        else:
            other.start()
        wanted = 2 if change % 2 == 0 else 3
        wait_until("seen", lambda: len(node.serving() or ()) == wanted)
        seen = time.monotonic()
        deadline = seen + 5
        while len(rings) == count and time.monotonic() < deadline:
            time.sleep(0.001)
        if len(rings) == count:
            missed += 1
        else:
            late.append((max(rings.values()) - seen) * 1_000)
        time.sleep(0.3)
    is_over.set()
    print(f"{given.changes} kills and starts: {missed} missed; the watcher had each ring {statistics.median(late):.0f} ms after the members showed it at the median, "
          f"{max(late):.0f} ms at most")
    return missed


def tell(node, address, incarnation, status):
    """Tells the agent's node a change, as another node would, and waits for its answer."""
    change = {"address": address, "incarnationNumber": incarnation, "source": address, "sourceIncarnationNumber": incarnation, "status": status}
    line = {"kind": "ping", "source": "0.0.0.0:1", "sourceIncarnationNumber": 0, "checksum": 64 * "0", "changes": [change]}
    with socket.create_connection((node.host, node.given.port), 10) as stream:
        stream.sendall(json.dumps(line).encode() + b"\n")
        if not stream.recv(65_536):
            raise SystemExit("the node hangs up on a change")


def follow_told(node, given):
    """After how many milliseconds a watcher has each ring of which the agent's node was told: a member that is not there joins, and is killed."""
    rings = queue.Queue()

    def watch():
        for ring in Client(node.client.url, timeout=10).watch():
            rings.put((time.monotonic(), ring))

    threading.Thread(target=watch, daemon=True).start()
    late, wanted = [], {address for address, _ in rings.get(timeout=10)[1].serving}
    for number in range(given.told // 2):
        address = f"127.9.{number // 200}.{number % 200 + 1}:9"
        for status in ("alive", "faulty"):
            tell(node, address, 1, status)
            told = time.monotonic()
            wanted ^= {address}
            seen, ring = rings.get(timeout=30)
            if {it for it, _ in ring.serving} != wanted:
                raise SystemExit(f"after change {len(late)} the watcher has {ring}, and not {sorted(wanted)}")
            late.append((seen - told) * 1_000)
    late.sort()
    print(f"{len(late)} joins and kills of which the node is told: the watcher has each ring {statistics.median(late):.0f} ms after the node answered at the median, "
          f"{late[len(late) * 99 // 100]:.0f} ms in 99 of 100 times, {late[-1]:.0f} ms at most; a round begins each 200 ms")


def main():
    given = argparse.ArgumentParser()
    given.add_argument("--program", default=str(ROOT / "build" / "ringpop"))
    given.add_argument("--net", default="127.0.74")
    for name, value in (("keys", 4_096), ("waiting", 1_000), ("changes", 20), ("told", 1_000), ("port", 17_400)):
        given.add_argument(f"--{name}", type=int, default=value)
    given = given.parse_args()
    nodes = [Node(given, place) for place in (1, 2, 3)]
    for node in nodes:
        node.start()
    try:
        wait_until("whole", lambda: all(len(node.serving() or ()) == 3 for node in nodes))
        time.sleep(1)
        compare(nodes[0], given)
        hold(nodes[0], nodes[1], given)
        stop(nodes[1], given)
        wait_until("whole again", lambda: all(len(node.serving() or ()) == 3 for node in nodes))
        missed = follow(nodes[0], nodes[2], given)
        follow_told(nodes[0], given)
        sys.exit(1 if missed else 0)
    finally:
        for node in nodes:
            node.kill()


main()
