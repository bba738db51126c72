#!/usr/bin/env python3
"""Tells what an agent holds, and how soon it answers, while clients keep connections open and send nothing or a byte now and then.

usage: bench/agent/idle.py [--program PROGRAM] [--idle 10000] [--asked] [--dripping 300] [--descriptors 20000] [--seconds 10]

It prints the memory and the threads of the agent, how long GET /healthz takes over new connections, and how many of the idle ones are still
open. With --asked each of them has asked once before.
"""
import argparse
import resource
import socket
import subprocess
import threading
import time

HTTP, OWN = 28_041, 28_031


def connect():
    stream = socket.create_connection(("127.0.0.1", HTTP), 10)
    stream.settimeout(10)
    return stream


def ask(stream, path, *fields):
    stream.sendall("\r\n".join([f"GET {path} HTTP/1.1", "host: a", *fields, "", ""]).encode())
    return stream.recv(65_536)


def time_of_health():
    """After how many milliseconds the answer came over a new connection; it has to be 200."""
    begun = time.monotonic()
    with connect() as stream:
        if not ask(stream, "/healthz", "connection: close").startswith(b"HTTP/1.1 200 "):
            raise SystemExit("the agent is not well")
    return (time.monotonic() - begun) * 1_000


def held(pid):
    with open(f"/proc/{pid}/status") as status:
        told = dict(line.split(":", 1) for line in status)
    return f"{told['VmRSS'].split()[0]} KiB, {told['Threads'].strip()} threads"


def is_open(stream):
    stream.setblocking(False)
    try:
        return stream.recv(1) != b""
    except BlockingIOError:
        return True
    except OSError:
        return False


def drip(streams, is_over):
    text = b"POST /keys/k HTTP/1.1\r\nhost: a\r\ncontent-length: 100000\r\n\r\n" + b"a" * 100_000
    for place in range(len(text)):
        for stream in streams:
            try:
                stream.sendall(text[place:place + 1])
            except OSError:
                pass  # its time is up
        if is_over.wait(0.8):
            return


def measure(pid, given):
    print("at first:", held(pid))
    idle = []
    for _ in range(given.idle):
        idle.append(connect())
        if given.asked:
            ask(idle[-1], "/digest")
    dripping, is_over, times = [connect() for _ in range(given.dripping)], threading.Event(), []
    thread = threading.Thread(target=drip, args=(dripping, is_over))
    thread.start()
    end = time.monotonic() + given.seconds
    while time.monotonic() < end:
        times.append(time_of_health())
        time.sleep(0.05)
    times.sort()
    print(f"with {given.idle} idle and {given.dripping} dripping:", held(pid))
    print(f"GET /healthz, {len(times)} times: median {times[len(times) // 2]:.1f} ms, longest {times[-1]:.1f} ms")
    print(f"{sum(map(is_open, idle))} of {given.idle} idle connections are open")
    is_over.set()
    thread.join()


def main():
    words = argparse.ArgumentParser(description=__doc__.splitlines()[0])
    words.add_argument("--program", default="crates/ringpop_cli/out/ringpop_cli")
    words.add_argument("--asked", action="store_true")
    for name, number in (("idle", 10_000), ("dripping", 300), ("descriptors", 20_000), ("seconds", 10)):
        words.add_argument(f"--{name}", type=int, default=number)
    given = words.parse_args()
    most = resource.getrlimit(resource.RLIMIT_NOFILE)[1]
    resource.setrlimit(resource.RLIMIT_NOFILE, (given.descriptors, most))
    agent = subprocess.Popen(
        [given.program, "agent", "--log", "off", "--http", f"127.0.0.1:{HTTP}", f"127.0.0.1:{OWN}"], stdout=subprocess.PIPE)
    resource.setrlimit(resource.RLIMIT_NOFILE, (most, most))
    try:
        agent.stdout.readline()
        measure(agent.pid, given)
    finally:
        agent.kill()
        agent.wait()


if __name__ == "__main__":
    main()
