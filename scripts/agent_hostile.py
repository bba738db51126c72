"""An agent among HTTP clients that do not ask as they should, as `scripts/agent hostile` runs it.

Keys, counts and bodies that are none are refused with their status; junk, bad lengths and chunks, long heads and bodies end the connection,
with 400, 413, 414, 431 or 501 first. Clients that send a byte now and then, stop in a head or a body, announce a gigabyte, read nothing
or slowly, hang up, or open 1,000 connections and say nothing lose their connection in time, and others are answered afterwards. All the while pings of
a node are answered, and another agent holds this one as alive. At the end it has as many descriptors as at the start, and at most 12 MiB of
memory more, 48 KiB for each thread that answers. A service that is too slow is asked once for each request, from its own agent and from
another; one whose answer is not UTF-8 is counted and logged; a node that does not answer is logged once, and once more when it does. Of a
service and of a node that answer and fail in turn the log says no more than a line each ten seconds, and at last that they answer.
"""
import collections
import concurrent.futures
import contextlib
import json
import math
import os
import re
import signal
import subprocess
import tempfile
import time
from urllib.parse import quote

from agents import agree, at_once, counted, fetch, running
from nodes import Beside, NOBODY, ROOT, STEP, Wrong, call, connect, deaf, expect, hears, is_late, knocking, message, wait_until

# the longest key, body and body that is read, in bytes, and after how many seconds a request that does not end is cut
MAX_KEY_BYTES, MAX_BODY_BYTES, MAX_READ_BYTES, PATIENCE = 1_024, 131_072, 1_048_576, 30
# how many connections an agent answers at a time
FRONTS = 256
# a request to the service takes this many seconds at most, and one of another node that waits for a hand this many in all
LIMIT, LIMIT_IN_ALL = 4.0, 4.5
# after a line about a service or a node the log says nothing more of it for this many seconds
QUIET = 10.0
# how much memory it may hold more at the end, in KiB: at first most threads have answered nothing
GROWTH = 48 * FRONTS


def head(method, path, *fields):
    return "\r\n".join([f"{method} {path} HTTP/1.1", "host: a", *fields, "", ""]).encode()


def post(path, body, *fields):
    return head("POST", path, f"content-length: {len(body)}", *fields) + body


def chunked(*chunks):
    return head("POST", "/keys/k", "transfer-encoding: chunked") + b"".join(chunks)


def statuses(came):
    return [int(status) for status in re.findall(rb"HTTP/1\.1 (\d{3}) ", came)]


class Pings(Beside):
    """A thread that pings a node all the while."""

    def __init__(self, port):
        self.port, self.longest, self.count, self.fault = port, 0.0, 0, None
        super().__init__(self.work)

    def work(self):
        while not self.is_over.wait(0.05):
            begun = time.monotonic()
            try:
                answer = call(self.port, message("ping", checksum=NOBODY, changes=[]), 2)
                if not answer or answer["kind"] != "ack":
                    self.fault = self.fault or f"a ping is answered by {answer}"
            except (OSError, ValueError) as fault:
                self.fault = self.fault or f"a ping is not answered: {fault}"
            self.count, self.longest = self.count + 1, max(self.longest, time.monotonic() - begun)


class Hostile:
    def __init__(self, agent, other, pings):
        self.agent, self.other, self.pings = agent, other, pings

    def connect(self):
        return connect(self.agent.port + STEP, 10)

    def check_up(self, what, within=5.0):
        """The agent answers in time, so do pings, and the other holds it as alive."""
        begun = time.monotonic()
        expect(self.agent.ask("GET", "/healthz")[0] == 200, f"{what}: then it is not well")
        told = self.agent.ask("POST", "/keys/k", b"hello")
        expect(told[0] == 200 and told[1].endswith(" hello"), f"{what}: then a request is answered by {told}")
        spent = time.monotonic() - begun
        expect(not is_late(spent, within), f"{what}: then others are answered after {spent:.1f} s")
        expect(not self.pings.fault, f"{what}: {self.pings.fault}")
        if set(self.other.members().values()) != {"alive"}:
            raise Wrong(f"{what}: another agent holds {self.other.members()}")
        print(f"{what}: others are answered after {spent:.3f} s", flush=True)

    def hears(self, sent):
        return hears(self.agent.port + STEP, sent, 10, is_all=True)

    def check(self, what, sent, *wanted):
        """The agent answers with these statuses, and then hangs up."""
        came = self.hears(sent)
        expect(statuses(came) == list(wanted), f"{what}: {came[:300]} in place of {wanted}")
        self.check_up(what)

    def keys(self):
        self.check("a key of no bytes", post("/keys/", b"hello"), 400)
        self.check("a key of 1,024 bytes", post("/keys/" + "a" * MAX_KEY_BYTES, b"hello"), 200)
        self.check("a key of 1,025 bytes", post("/keys/" + "a" * (MAX_KEY_BYTES + 1), b"hello"), 400)
        self.check("a key of 1,024 encoded bytes", post("/keys/" + "%c3%bc" * (MAX_KEY_BYTES // 2), b"hello"), 200)
        self.check("a key that is not UTF-8", post("/keys/%ff", b"hello"), 400)
        self.check("half a character", head("GET", "/owner/%c3"), 400)
        for key in ("%", "%z", "%zz", "%0", "a%"):
            told = self.agent.ask("POST", "/keys/" + key, b"hello")
            expect(told[0] == 200 and told[1].startswith(f"{key}: "), f"the key {key} is answered by {told}")
        self.check_up("percent signs that encode nothing")
        told = self.agent.ask("POST", "/keys/" + quote("\0\r\n../..//?#", safe=""), b"hello")
        expect(told[0] == 200 and told[1].startswith("\0\r\n../..//?#: "), f"a key of controls is answered by {told}")
        for count in ("n=0", "n=-1", "n=4097", "n=99999999999999999999", "n=", "n=1&n=2", "m=1"):
            self.check(f"a count {count}", head("GET", "/owner/k?" + count), 400)

    def bodies(self):
        self.check("no body and no length", head("POST", "/keys/k"), 200)
        self.check("a body that is not UTF-8", post("/keys/k", b"\xff\xfe"), 400)
        self.check("the longest body", post("/keys/k", b"a" * (MAX_BODY_BYTES - 100)), 200)
        self.check("a byte more than the longest", post("/keys/k", b"a" * (MAX_BODY_BYTES + 1)), 413)
        self.check("a gigabyte announced", head("POST", "/keys/k", f"content-length: {1 << 30}"), 413)
        self.check("more than any number", head("POST", "/keys/k", f"content-length: {1 << 70}"), 400)
        self.check("a length below nothing", head("POST", "/keys/k", "content-length: -1"), 400)
        self.check("two lengths", head("POST", "/keys/k", "content-length: 1", "content-length: 2") + b"ab", 400)
        self.check("a length and chunks", head("POST", "/keys/k", "content-length: 5", "transfer-encoding: chunked") + b"0\r\n\r\n", 400)
        self.check("an unknown coding", head("POST", "/keys/k", "transfer-encoding: gzip, chunked"), 501)
        self.check("chunks", chunked(b"3\r\nabc\r\n", b"2;x=y\r\nde\r\n", b"0\r\n\r\n"), 200)
        self.check("a chunk of no length", chunked(b"zz\r\n"), 400)
        self.check("a chunk of a gigabyte", chunked(b"40000000\r\n", b"a" * (MAX_READ_BYTES + 1)), 413)
        self.check("a chunk longer than it says", chunked(b"1\r\nabc\r\n0\r\n\r\n"), 400)
        for count, last in (5, b"0\r\n\r\n"), (33, b""):
            self.check(f"{count} chunks that are too long together", chunked(*[b"8000\r\n" + b"a" * 0x8000 + b"\r\n"] * count, last), 413)
        self.check("half a body and the end", head("POST", "/keys/k", "content-length: 10") + b"half", 400)

    def heads(self):
        self.check("the end at once", b"")
        self.check("half a line and the end", b"GET / HT", 400)
        self.check("junk", os.urandom(5_000).replace(b"\n", b" ") + b"\r\n\r\n", 400)
        self.check("the start of TLS", b"\x16\x03\x01\x02\x00\x01\x00\x01\xfc\x03\x03" + os.urandom(100), 400)
        self.check("the start of HTTP/2", b"PRI * HTTP/2.0\r\n\r\nSM\r\n\r\n", 400)
        self.check("no host", b"GET /digest HTTP/1.1\r\n\r\n", 400)
        self.check("a line of a node", b'{"kind":"join"}\n', 400)
        self.check("a field of 20,000 bytes", head("GET", "/digest", "a: " + "b" * 20_000), 431)
        self.check("a path of 20,000 bytes", head("GET", "/" + "a" * 20_000), 414)
        self.check("a hundred fields", head("GET", "/digest", *(f"a{number}: b" for number in range(100))), 431)
        self.check("a folded field", head("GET", "/digest", "a: b", " c"), 400)
        self.check("two million bytes without a line", b"a" * 2_000_000, 414)
        self.check("another method", head("DELETE", "/keys/k"), 405)
        self.check("the head of an answer", head("HEAD", "/digest"), 200)
        if not re.search(rb"content-length: 65\r\n(.+\r\n)*\r\n$", self.hears(head("HEAD", "/digest")), re.IGNORECASE):
            raise Wrong("a HEAD is not answered by the head of a GET alone")
        self.check("the head of what is changed", head("HEAD", "/stop"), 405)
        self.check("a page of another site", post("/keys/k", b"hello", "origin: http://example.org"), 403)
        self.check("another site that stops it", head("POST", "/stop", "origin: null"), 403)

    def pipelines(self):
        self.check("ten at once", head("GET", "/digest") * 10, *[200] * 10)
        self.check("one, and garbage behind it", head("GET", "/digest") + b"\0\1garbage\r\n\r\n" + head("GET", "/digest"), 200, 400)
        self.check("one, and one that is refused", post("/keys/k", b"\xff") + head("GET", "/digest"), 400, 200)
        self.check("a body that looks like a request", post("/keys/k", head("POST", "/stop")) + head("GET", "/digest"), 200, 200)

    def is_cut(self, what, sent=b"", drip=b""):
        """Notes when the agent hangs up on a client that sends these bytes, and then more each second; never, if not in three times the time that it has."""
        begun, self.cut[what] = time.monotonic(), math.inf
        with self.connect() as stream:
            stream.settimeout(1.0)
            stream.sendall(sent)
            while time.monotonic() < begun + 3 * PATIENCE:
                try:
                    if not stream.recv(65_536):
                        break
                except TimeoutError:
                    pass
                except ConnectionResetError:
                    break
                try:
                    stream.sendall(drip)
                except (BrokenPipeError, ConnectionResetError):
                    break
            else:
                return
        self.cut[what] = time.monotonic() - begun

    def slow(self):
        """Clients that do not end their request, side by side: each is cut after half a minute."""
        self.cut = {}
        clients = [
            ("silence", b"", b""), ("half a line and silence", b"GET / HT", b""),
            ("a head that drips", b"GET /digest HTTP/1.1\r\na: ", b"b"),
            ("a body that does not come", head("POST", "/keys/k", "content-length: 10"), b""),
            ("a body that drips", head("POST", "/keys/k", "content-length: 100000"), b"a"),
            ("chunks that drip", chunked(), b"1\r\na\r\n"), ("silence behind an answer", head("GET", "/digest"), b""),
        ]
        with concurrent.futures.ThreadPoolExecutor(len(clients)) as pool:
            cut = [pool.submit(self.is_cut, what, sent, drip) for what, sent, drip in clients]
            self.check_up("slow clients")
            for it in cut:
                it.result()
        expect(not (late := {what: spent for what, spent in self.cut.items() if is_late(spent, PATIENCE + 3)}), f"not cut in time: {late}")
        print("cut after", ", ".join(f"{spent:.0f} s ({what})" for what, spent in self.cut.items()), flush=True)

    def deaf(self):
        """Clients that ask much and read nothing, or a KiB each two seconds."""
        before = self.agent.held_at_rest()[1]
        streams = [deaf(self.agent.port + STEP, head("GET", "/") * 500) for _ in range(10)]
        begun = time.monotonic()
        time.sleep(1)
        self.check_up("ten that read nothing")
        while self.agent.held_at_rest()[1] > before:
            with contextlib.suppress(OSError):
                streams[0].recv(1_024)
            expect(not is_late(time.monotonic() - begun, 15), "clients that do not take their answers keep their connections")
        print(f"ten that read nothing were cut within {time.monotonic() - begun:.0f} s", flush=True)
        for stream in streams:
            stream.close()

    def crowd(self):
        for sent in (b"", b"GET / HT", head("POST", "/keys/k", "content-length: 10") + b"half"):
            for _ in range(100):
                with self.connect() as stream:
                    stream.sendall(sent)
            self.check_up("100 that hang up")
        for count in (200, FRONTS - 4, FRONTS + 50):
            idle = [self.connect() for _ in range(count)]
            self.check_up(f"{count} that say nothing", 3.0)
            for stream in idle:
                stream.close()
        with knocking(self.agent.port + STEP, 1_000):
            time.sleep(PATIENCE / 2)
            if self.pings.fault or set(self.other.members().values()) != {"alive"}:
                raise Wrong(f"1,000 that say nothing: {self.pings.fault}, {self.other.members()}")
        self.check_up("1,000 that said nothing")

    def play(self):
        for number in range(50):
            self.agent.ask("POST", f"/keys/{number}", b"hello")
        self.check_up("at first")
        before = self.agent.held_at_rest()
        for part in (self.keys, self.bodies, self.heads, self.pipelines, self.deaf, self.crowd, self.slow):
            part()
        self.check_up("at the end")
        after = self.agent.held_at_rest()
        print(f"descriptors {before[1]}, then {after[1]}; KiB {before[0]}, then {after[0]}")
        print(f"{self.pings.count} pings, the longest {self.pings.longest:.3f} s")
        expect(after[0] <= before[0] + GROWTH and after[1] <= before[1], "the agent holds more than at the start")


class SlowService:
    """An agent with a service that can be slow, and another agent."""

    def __init__(self, own, other):
        self.own, self.other = own, other
        self.keys = (key for key in map(str, range(10_000)) if own.owners(key) == [own.own])

    def ask(self, agent, count, seconds):
        """Asks for keys of this agent at once; their answers, and after how many seconds the last came. Each was asked for once."""
        keys = [next(self.keys) for _ in range(count)]
        begun = time.monotonic()
        told = collections.Counter(at_once(*(lambda key=key: agent.ask("POST", f"/keys/{key}", seconds.encode()) for key in keys)))
        spent, counts = time.monotonic() - begun, json.loads(fetch(self.own.app, "GET", "/")[1])
        if often := {key: counts.get(f"/keys/{key}") for key in keys if counts.get(f"/keys/{key}") != 1}:
            raise Wrong(f"requests of {seconds} s are not asked once each: {often}")
        print(f"{count} requests of {seconds} s by {agent.own}: {dict(told)} after {spent:.1f} s", flush=True)
        return told, spent

    def check_slow(self):
        """Each request is asked for once, over connections that were kept and from another node."""
        self.ask(self.own, 16, "0.2")
        failed = (502, "no whole answer of the owner's application came\n")
        for agent in (self.own, self.other):
            told, spent = self.ask(agent, 16, "6")
            if set(told) != {failed} or spent < LIMIT - 0.1 or is_late(spent, LIMIT_IN_ALL + 1):
                raise Wrong(f"16 requests to a service that takes 6 s: {told} after {spent:.1f} s")
        told, spent = self.ask(self.other, 64, "2")
        if told[200, "2"] < 60 or set(told) - {(200, "2"), failed} or is_late(spent, LIMIT_IN_ALL + 1):
            raise Wrong(f"64 requests of 2 s by another node: {told} after {spent:.1f} s")

    def failures(self):
        return counted([self.own], "ringpop_application_failures_total")

    def answers_again(self):
        """The service answers, the log says so, and may say more."""
        key, end = next(self.keys), time.monotonic() + 2 * QUIET + 1
        while time.monotonic() < end:
            self.own.ask("POST", f"/keys/{key}", b"0")
            time.sleep(0.5)
        last = self.lines()[-1:]
        expect(last == ["answers again"], f"the log says at last that a service {last}")

    def check_bad(self):
        """An answer that can't be passed on is counted and logged."""
        self.answers_again()
        before = self.failures()
        told, _ = self.ask(self.own, 1, "bad")
        bad = (502, "bad answer of the owner's application: not HTTP/1, not UTF-8, too long or of a status not 200 to 599\n")
        if set(told) != {bad} or self.failures() != before + 1:
            raise Wrong(f"an answer that is not UTF-8: {told}, {self.failures() - before} counted")
        self.wait_for("gave an answer that can't be passed on", 1)

    def wait_for(self, text, count):
        wait_until(f"{count} times {text!r} in the log", 20, lambda: self.said(text) == count)

    def said(self, text):
        """How often the log, which both agents write, has this text."""
        return self.own.said().count(text)

    def lines(self):
        return re.findall(f"the application at {re.escape(self.own.app)} (.*)", self.own.said())

    def check_in_turn(self):
        """A service that answers well and badly in turn: of some hundred pairs the log tells a few."""
        self.answers_again()
        key, pairs, begun, before = next(self.keys), 0, time.monotonic(), len(self.lines())
        while time.monotonic() < begun + 25:
            for asked in (b"bad", b"0"):
                self.own.ask("POST", f"/keys/{key}", asked)
            time.sleep(0.05)
            pairs += 1
        self.answers_again()
        said, spent = len(self.lines()) - before, time.monotonic() - begun
        print(f"{pairs} answers well and badly in turn: {said} lines in {spent:.0f} s", flush=True)
        expect(pairs >= 100 and 2 <= said <= spent / QUIET + 1, f"{said} lines about {pairs} pairs of answers")

    def check_stopped(self):
        """A node that is stopped and goes on in turn: the log tells that not each time, and at last that it answers."""
        of, begun, times = self.other.own, time.monotonic(), 0
        kinds = (f"{of} did not answer", f"{of} answers again")
        before = sum(map(self.said, kinds))
        while time.monotonic() < begun + 25:
            for signal_number in (signal.SIGSTOP, signal.SIGCONT):
                self.other.process.send_signal(signal_number)
                time.sleep(0.8)
            times += 1
        wait_until("said at last that the node answers", 2 * QUIET + 5, lambda: self.own.said().rfind(kinds[1]) > self.own.said().rfind(kinds[0]))
        said, spent = sum(map(self.said, kinds)) - before, time.monotonic() - begun
        print(f"a node that stops {times} times: {said} lines in {spent:.0f} s", flush=True)
        expect(2 <= said <= spent / QUIET + 1, f"{said} lines about a node that stopped {times} times")
        expect(self.said(f"{kinds[0]}: the link failed: timed out"), "the log does not say that a stopped node did not answer in time")

    def check_silent(self):
        """The first message that is not answered is logged, and the first that is again."""
        failed, back = f"{self.other.own} did not answer", f"{self.other.own} answers again"
        before = self.said(failed), self.said(back)
        self.other.kill()
        self.wait_for(failed, before[0] + 1)
        time.sleep(3)
        self.other.start()
        self.wait_for(back, before[1] + 1)
        if self.said(failed) != before[0] + 1:
            raise Wrong(f"{self.said(failed) - before[0]} lines say that a node does not answer")


def check_slow_service(program, port):
    app = "python3", str(ROOT / "scripts" / "slow_app.py")
    with tempfile.NamedTemporaryFile() as log, running(program, port, port + 1, app=app, log=log, until=agree) as agents:
        service = SlowService(*agents)
        for part in (service.check_slow, service.check_bad, service.check_in_turn, service.check_silent, service.check_stopped):
            part()


def check_address(program, port):
    ended = subprocess.run([program, "agent", f"0.0.0.0:{port}"], capture_output=True, text=True, timeout=10)
    expect(ended.returncode == 1 and ended.stderr == "ringpop: the node's address is 0.0.0.0: give that to --bind\n", f"0.0.0.0 as the node's address: {ended}")


def check(program, agents, port):
    """Tries the first two of these agents."""
    check_address(program, port + 3)
    check_slow_service(program, port + 4)
    pings = Pings(port)
    try:
        Hostile(*agents[:2], pings).play()
    finally:
        pings.end()
