"""Nodes in separate processes, and what scripts ask of them."""
import argparse
import contextlib
import errno
import functools
import itertools
import json
import os
import pathlib
import re
import select
import signal
import socket
import subprocess
import sys
import threading
import time

ROOT = pathlib.Path(__file__).resolve().parent.parent
PROGRAM = ROOT / "crates" / "ringpop_cli" / "out" / "ringpop_cli"
# the digest of no members
NOBODY = "e3b0c44298fc1c149afbf4c8996fb92427ae41e4649b934ca495991b7852b855"
# the greatest number of connections that a node serves
MOST = 1_000_000
# within how many seconds a node prints that it serves, and an agent and its application are well
PATIENCE = 30
# the ports of a script's nodes; an agent has a port for HTTP this much above its own, and its application one twice as much
STEP = 24
# how far apart the first ports of two scripts are: one port more, at which a script listens; and for how many scripts there are ports
APART, SCRIPTS = 3 * STEP + 1, 230
# a busy machine can miss a node's limit for a line, half a second: what took nearly as long is tried again, this often at most
LIMIT, TRIES = 0.4, 10
# how many connections come at once and say nothing, and how many each second; how many send a byte of a line, and how many seconds apart
CROWD, SILENT, DRIPPING, DRIP = 500, 32, 100, 0.2
# how many attempts a script made, and how many of them were repeats; two, and one in fifty attempts, may be
ATTEMPTS, REPEATS = itertools.count(), itertools.count()
# a limit of time is for a free processor: on a busy machine it is longer, this many times at most; and how many times it was
MOST_LONGER, LONGER = 4.0, []


class Wrong(Exception):
    """What was to be seen was not seen."""


def expect(is_so, fault):
    """Ends the script, and says what is at fault, where something is not so."""
    if not is_so:
        raise Wrong(fault)


def words(text):
    """The arguments of a script, the program among them; `text` is the script's."""
    given = argparse.ArgumentParser(description=text.splitlines()[0])
    given.add_argument("--program", type=pathlib.Path, default=PROGRAM)
    return given


def find(program):
    if not program.is_file():
        sys.exit(f"{program}: no program: run rt ci first, or rt run in its crate")
    return str(program.resolve())


def crates():
    """The crates of crates.txt, those below before those above, each with the libraries that its line names."""
    lines = (line.split("#")[0].partition(":") for line in (ROOT / "crates.txt").read_text().splitlines())
    return {head.split()[0]: (["std"] if "staticlib" not in head else []) + uses.split() for head, found, uses in lines if found}


def fitting(gigabytes):
    """How many processes of so much memory go side by side."""
    free = re.search(r"MemAvailable:\s+(\d+)", pathlib.Path("/proc/meminfo").read_text())
    return max(1, min(len(os.sched_getaffinity(0)), int(free[1]) // (gigabytes * 1_000_000)))


def address(port):
    return f"127.0.0.1:{port}"


def listener(port, host="127.0.0.1"):
    """A socket that listens at a port, as a node does."""
    stream = socket.socket()
    stream.setsockopt(socket.SOL_SOCKET, socket.SO_REUSEADDR, 1)
    stream.bind((host, port))
    stream.listen()
    return stream


@functools.cache
def first_port():
    """The first of three times STEP ports that are free and no other script's, below those of serve_tests and those that the system gives out."""
    for place in range(SCRIPTS):
        first = 12_000 + (os.getpid() + place) % SCRIPTS * APART
        with contextlib.suppress(OSError), listener(first + APART - 1) as last:
            for port in range(first, first + APART - 1):
                listener(port).close()
            # (the script listens there as long as it runs)
            last.detach()
            return first
    raise Wrong("no ports are free")


def first_line(stream, seconds):
    """What a process writes up to its first newline, to its end, or until it has written nothing more in time."""
    came, end = b"", time.monotonic() + seconds
    while not came.endswith(b"\n"):
        ready, _, _ = select.select([stream], [], [], max(0, end - time.monotonic()))
        more = os.read(stream.fileno(), 1) if ready else b""
        if not more:
            break
        came += more
    return came.decode()


class Node:
    """A node as a separate process, at a port of 127.0.0.1, that serves the given number of connections."""

    def __init__(self, program, port, incarnation, hosts=(), period=200, more=(), requests=MOST):
        self.program, self.port, self.address = program, port, address(port)
        line = [program, "serve", "--period", str(period), *more, self.address, str(incarnation), str(requests)]
        self.process = subprocess.Popen([*line, *map(address, hosts)], stdout=subprocess.PIPE, bufsize=0)
        said = first_line(self.process.stdout, PATIENCE)
        if said != f"serving {self.address}\n":
            with contextlib.suppress(subprocess.TimeoutExpired):
                self.process.wait(1)
            self.kill()
            raise Wrong(f"{self.address} says {said!r} and ends with {self.process.returncode}")

    def is_up(self):
        return self.process.poll() is None

    def view(self):
        return in_time(lambda: view(self.port))

    def kill(self):
        self.process.send_signal(signal.SIGKILL)
        self.process.wait()
        self.process.stdout.close()

    def end(self):
        if self.process.poll() is None:
            self.kill()

    def open_descriptors(self):
        return [int(number) for number in os.listdir(f"/proc/{self.process.pid}/fd")]

    def counts(self):
        """How many descriptors it holds, seen 50 times in half a second."""
        for _ in range(50):
            yield held(self.process)[1]
            time.sleep(0.01)

    def descriptors(self):
        """How many descriptors it holds between its rounds, which use one more."""
        return min(self.counts())

    def most_descriptors(self):
        """How many descriptors it holds at most within half a second."""
        return max(self.counts())

    def ended(self, seconds):
        """How it ends by itself in time, and what it wrote after its first line."""
        status = self.process.wait(seconds)
        return status, self.process.stdout.read().decode()


def held(process):
    """How much memory in KiB, how many descriptors and how many threads a process has."""
    folder = pathlib.Path(f"/proc/{process.pid}")
    told = dict(line.split(":", 1) for line in (folder / "status").read_text().splitlines())
    return int(told["VmRSS"].split()[0]), len(list((folder / "fd").iterdir())), int(told["Threads"])


def connect(port, seconds=5.0, host="127.0.0.1"):
    stream = socket.create_connection((host, port), seconds)
    stream.settimeout(seconds)
    return stream


@contextlib.contextmanager
def knocking(port, count):
    """As many connections at once as may become of this number, over which nothing is sent."""
    with contextlib.ExitStack() as ends:
        for _ in range(count):
            stream = ends.enter_context(socket.socket())
            stream.setblocking(False)
            stream.connect_ex(("127.0.0.1", port))
        yield


class Beside:
    """Threads that work while a script does, until they are to end."""

    def __init__(self, *works):
        self.is_over, self.threads = threading.Event(), [threading.Thread(target=work, daemon=True) for work in works]
        for thread in self.threads:
            thread.start()

    def end(self):
        self.is_over.set()
        for thread in self.threads:
            thread.join()


class Knockers(Beside):
    """Threads that hold connections to a port, until they are to end: 32 come each second and say nothing, after 500 within a tenth of one, and 100 send a
    byte of a line now and then, and come again once they are closed."""

    def __init__(self, port):
        self.port, self.longest, self.streams = port, 0.0, []
        super().__init__(self.say_nothing, *[self.drip] * DRIPPING)

    def say_nothing(self):
        for pause in itertools.chain([0.1 / CROWD] * CROWD, itertools.repeat(1 / SILENT)):
            if self.is_over.wait(pause):
                return
            with contextlib.suppress(OSError):
                self.streams.append(connect(self.port))

    def drip(self):
        while not self.is_over.is_set():
            begun = time.monotonic()
            with contextlib.suppress(OSError), connect(self.port) as stream:
                while not self.is_over.wait(DRIP):
                    stream.sendall(b"{")
            self.longest = max(self.longest, time.monotonic() - begun)


def deaf(port, sent, segment=0):
    """A connection over which this was sent, and that takes 2 KiB of the answer, in segments of at most `segment` bytes; 0: those of the system."""
    stream = socket.socket()
    stream.setsockopt(socket.SOL_SOCKET, socket.SO_RCVBUF, 2_048)
    stream.setsockopt(socket.IPPROTO_TCP, socket.TCP_MAXSEG, segment)
    stream.settimeout(10)
    stream.connect(("127.0.0.1", port))
    stream.setblocking(False)
    with contextlib.suppress(BlockingIOError):
        stream.send(sent)
    return stream


def is_open(port):
    with contextlib.suppress(OSError), connect(port):
        return True
    return False


def check_listens_here(port):
    """The node of this port listens at no other address of the machine, as one at 0.0.0.0 would."""
    with socket.socket() as stream:
        if stream.connect_ex(("127.0.0.2", port)) != errno.ECONNREFUSED:
            raise Wrong(f"127.0.0.2:{port} is listened at")


def rest(stream):
    """All that comes until the other side hangs up."""
    came = b""
    with contextlib.suppress(ConnectionResetError):
        while more := stream.recv(65_536):
            came += more
    return came


def hears(port, sent, seconds=5.0, is_all=False, host="127.0.0.1"):
    """All that comes for these bytes, and for their end with `is_all`, until the other side hangs up. It may do that before it has read them, and
    a reset may come while the connection is made."""
    with contextlib.suppress(ConnectionResetError), connect(port, seconds, host) as stream:
        with contextlib.suppress(OSError):
            stream.sendall(sent)
            if is_all:
                stream.shutdown(socket.SHUT_WR)
        return rest(stream)
    return b""


def in_time(attempt, is_right=lambda _: True):
    """What an attempt gives. One that fails or is not right is made again only if it took as long as the limit of a line, which is counted."""
    for number in range(TRIES):
        next(REPEATS if number else ATTEMPTS)
        begun, fault = time.monotonic(), None
        try:
            came = attempt()
            if is_right(came):
                return came
        except (OSError, Wrong) as it:
            fault = it
        if time.monotonic() - begun < LIMIT:
            break
    if fault:
        raise fault
    return came


def once_more(check, *given):
    """Makes a check; and once more, which is counted, where it fails on a machine that has more to do than three threads for two processors."""
    next(ATTEMPTS)
    try:
        return check(*given)
    except (OSError, Wrong) as fault:
        if os.getloadavg()[0] < 1.5 * os.cpu_count():
            raise
        print(f"made again, since the machine is busy: {fault}", flush=True)
    next(REPEATS)
    return check(*given)


def slowness():
    """How many times as long as on a processor of its own a thread takes here now, seen for a twentieth of a second of its work."""
    begun, used = time.monotonic(), time.thread_time()
    while time.thread_time() < used + 0.05:
        pass
    return (time.monotonic() - begun) / 0.05


def is_late(spent, limit):
    """Whether this took longer than it may: on a busy machine it may take as much longer as work there does, up to a bound, which is told."""
    if spent <= limit:
        return False
    if spent > limit * min(MOST_LONGER, slowness()):
        return True
    LONGER.append(spent / limit)
    return False


def call(port, message, seconds=5.0, host="127.0.0.1"):
    """The answer to a message, or None where the other side hangs up without one."""
    answer = hears(port, json.dumps(message).encode() + b"\n", seconds, host=host)
    return json.loads(answer) if answer else None


def change(member, incarnation, status, source=None, **more):
    """A change as a message has it; the member is its source if no other is given."""
    return {"address": member, "incarnationNumber": incarnation, "source": source or member, "sourceIncarnationNumber": 0 if source else incarnation,
            "status": status, **more}


def message(kind, **more):
    return {"kind": kind, "source": "0.0.0.0:1", "sourceIncarnationNumber": 0, **more}


def pinged(port):
    """After how many seconds a ping is answered."""
    begun = time.monotonic()
    answer = call(port, message("ping", checksum=NOBODY, changes=[]), 30)
    expect(answer and answer["kind"] == "ack", f"a ping is answered by {answer}")
    return time.monotonic() - begun


def ping_beside(others, port, seconds, held_now):
    """For so long nine of ten pings are answered within 50 milliseconds, and each within 400, while others work, which end then. Gives how many connections
    the node holds at most; `held_now` gives how many it holds."""
    end, spent, most = time.monotonic() + seconds, [], 0
    try:
        while time.monotonic() < end:
            spent.append(pinged(port))
            most = max(most, held_now())
            time.sleep(0.05)
    finally:
        others.end()
    usual, longest = sorted(spent)[len(spent) * 9 // 10], max(spent)
    print(f"{len(spent)} pings beside {most} connections: nine of ten within {usual:.3f} s, the longest {longest:.3f} s", flush=True)
    expect(not is_late(usual, 0.05) and not is_late(longest, LIMIT), "pings wait for others")
    return most


def check_pings(port, seconds, held_now):
    """Pings are answered in time, while the port has many connections that say nothing or too little. Each of these is closed in time, and none is
    answered. `held_now` gives how many the node holds."""
    knockers = Knockers(port)
    most = ping_beside(knockers, port, seconds, held_now)
    expect(most > DRIPPING / 2, f"{most} connections at most are held")
    print(f"a connection that drips is closed within {knockers.longest:.2f} s", flush=True)
    expect(not is_late(knockers.longest, 2), "a connection that drips is not closed in time")
    for stream in knockers.streams:
        with stream:
            expect(not rest(stream), "a connection that says nothing is answered")


def request(key, body):
    return message("forward", keys=[key], body=body)


def view(port, host="127.0.0.1"):
    """The digest that a node tells, and its members: address to incarnation and status."""
    answer = call(port, message("join", checksum=NOBODY, changes=[]), host=host)
    if not answer or answer["kind"] != "joined":
        raise Wrong(f"{host}:{port} answers {answer}")
    held = {told["address"]: (told["incarnationNumber"], told["status"]) for told in answer["changes"]}
    return answer["checksum"], held


def run(program, *given, text=""):
    """What a command writes. One that fails since it missed a node's limit is made again."""
    def attempt():
        ran = subprocess.run([program, *given], input=text, capture_output=True, text=True, timeout=60)
        if ran.returncode:
            raise Wrong(f"{' '.join(given)}: {ran.stderr.strip()}")
        return ran.stdout

    return in_time(attempt)


def views(ports):
    return [in_time(lambda: view(port)) for port in ports]


def wait_until(what, seconds, is_so, told=str):
    """Waits until something is so; returns after how long."""
    begun = time.monotonic()
    while not is_so():
        if is_late(time.monotonic() - begun, seconds):
            raise Wrong(f"not {what} within {seconds} seconds{told()}")
        time.sleep(0.05)
    return time.monotonic() - begun


def must(what, seconds, see, is_so):
    """Waits until it is so of what is seen, and prints after how long."""
    print(f"{what} after {wait_until(what, seconds, lambda: is_so(see()), lambda: f': {see()}'):.2f} s", flush=True)


@contextlib.contextmanager
def ending():
    """A list of nodes and agents, which end with the block."""
    kept = []
    try:
        yield kept
    finally:
        for it in kept:
            it.end()


def agree(views):
    """Whether all report the same members, each of them alive."""
    digests = {digest for digest, _ in views}
    return len(digests) == 1 and all(status == "alive" for _, status in views[0][1].values())


def judged(script, *given):
    """Runs a script, says whether it passed, and ends with its status. It fails, too, if it made too many attempts again."""
    name = pathlib.Path(sys.argv[0]).name
    try:
        script(*given)
        attempts, repeats = next(ATTEMPTS), next(REPEATS)
        if attempts:
            print(f"{name}: {repeats} of {attempts} attempts were slow, failed and were made again")
        if LONGER:
            print(f"{name}: a limit of time was {max(LONGER):.1f} times as long, since the machine is busy")
        if repeats > 2 + attempts // 50:
            raise Wrong("too many attempts were made again")
    except Exception as fault:
        kind = "" if isinstance(fault, Wrong) else f"{type(fault).__name__}: "
        print(f"{name}: FAILED: {kind}{fault}")
        sys.exit(1)
    print(f"{name}: passed")
