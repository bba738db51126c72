"""Agents with applications, each in a process of its own, and what scripts ask of them."""
import concurrent.futures
import contextlib
import functools
import http.client
import http.server
import json
import pathlib
import re
import subprocess
import tempfile
import threading
import time
from urllib.parse import quote

from nodes import Beside, NOBODY, PATIENCE, ROOT, STEP, address, call, change, ending, expect, held, in_time, message, wait_until


def fetch(at, method, path, body=None, fields={}, seconds=60):
    """The status, the bytes and the fields of an answer."""
    with contextlib.closing(http.client.HTTPConnection(at, timeout=seconds)) as link:
        link.request(method, path, body, fields)
        answer = link.getresponse()
        return answer.status, answer.read(), answer.headers


class Agent:
    """An agent with an application, whose port is this much above the node's."""

    above = 2 * STEP
    # a program that starts the agent, and its words
    under = ()

    def __init__(self, program, port, hosts, app=("python3", str(ROOT / "examples" / "app.py")), log=None, more=()):
        self.program, self.port, self.hosts, self.more = program, port, hosts, more
        self.log = log or tempfile.NamedTemporaryFile()
        self.own, self.http, self.app = address(port), address(port + STEP), address(port + self.above)
        self.words = [*app, str(port + self.above)]
        self.start_application()
        self.start()

    def start_application(self):
        self.application = subprocess.Popen(self.words, stderr=subprocess.DEVNULL)

    def start(self):
        self.process = subprocess.Popen(
            [*self.under, self.program, "agent", *self.more, "--http", self.http, "--app", self.app, self.own, *map(address, self.hosts)],
            stdout=subprocess.DEVNULL, stderr=self.log)

    def ask(self, method, path, body=None):
        status, text, _ = fetch(self.http, method, path, body)
        return status, text.decode()

    def is_ok(self, path):
        with contextlib.suppress(OSError, http.client.HTTPException):
            return self.ask("GET", path)[0] == 200
        return False

    def is_well(self):
        return self.is_ok("/healthz")

    def is_up(self):
        """Whether it answers HTTP, well or not."""
        return self.is_ok("/livez")

    def tell(self, members, incarnation, status, source=None):
        """Tells the node that these members are so; returns its answer."""
        told = message("ping", checksum=NOBODY, changes=[change(it, incarnation, status, source) for it in members])
        answer = in_time(lambda: call(self.port, told), bool)
        expect(answer and answer["kind"] != "refused", f"a node that is told of members answers {answer}")
        return answer

    def json(self, path):
        return json.loads(self.ask("GET", path)[1])

    def owners(self, key, count=1):
        return self.json(f"/owner/{quote(key, safe='')}?n={count}")["owners"]

    def said(self):
        return pathlib.Path(self.log.name).read_text()

    def rounds(self):
        """How many rounds its node has made."""
        return sum(counted([self], f'ringpop_rounds_total{{outcome="{it}"}}') for it in ("idle", "reached", "suspected", "inconclusive", "error"))

    def told(self, what):
        """This of each member, by its address."""
        return {member["address"]: member[what] for member in self.json("/members")["members"]}

    def members(self):
        return self.told("status")

    def incarnations(self):
        return self.told("incarnation")

    def held_at_rest(self):
        """The least of what it holds within two seconds."""
        looks = []
        for _ in range(20):
            looks.append(held(self.process))
            time.sleep(0.1)
        return tuple(map(min, zip(*looks)))

    def stop_application(self):
        self.application.kill()
        self.application.wait()

    def tell_of_end(self):
        """Prints for one who reads of a failure what has ended, and what the log says last."""
        ended = {name: it.poll() for name, it in (("agent", self.process), ("application", self.application)) if isinstance(it, subprocess.Popen)}
        print(f"{self.own}: {ended}", *self.said().splitlines()[-5:], sep="\n  ", flush=True)

    def kill(self):
        """Ends it without its application."""
        self.process.kill()
        self.process.wait()

    def end(self):
        self.kill()
        self.stop_application()


class Server(http.server.ThreadingHTTPServer):
    daemon_threads, request_queue_size = True, 128

    def handle_error(self, *_):
        """(an agent resets a connection over which more came than an answer)"""


class Playing(Agent):
    """An agent whose application is a handler of the script, once it serves."""

    application = None

    def serve(self, handler):
        self.application = Server(("127.0.0.1", self.port + self.above), handler)
        threading.Thread(target=self.application.serve_forever, daemon=True).start()

    def stop_application(self):
        if self.application:
            self.application.shutdown()
            self.application.server_close()


def built(service, folder):
    """The command of a service. One in Go is built first: `go run` would leave it running."""
    if service[0] != "go":
        return service
    program = f"{folder}/service"
    subprocess.run(["go", "build", "-o", program, service[-1]], check=True)
    return (program,)


@contextlib.contextmanager
def running(program, *ports, hosts=None, kind=Agent, until=None, **more):
    """Agents at these ports, which join one another if no hosts are given, and end with the block. It begins once `until` is so of them."""
    with ending() as agents:
        for port in ports:
            agents.append(kind(program, port, ports if hosts is None else hosts, **more))
        try:
            if until:
                wait_until(until.__name__, PATIENCE, lambda: until(agents))
            yield agents
        except Exception:
            for agent in agents:
                agent.tell_of_end()
            raise


def counted(agents, name):
    """What these agents have counted under this name in all."""
    return sum(int(re.search(rf"\n{re.escape(name)} (\d+)\n", agent.ask("GET", "/metrics")[1])[1]) for agent in agents)


def keys_of(agents, owner, count):
    """Keys that an agent owns, as the first agent names it."""
    keys = (f"key {number}" for number in range(100_000))
    owned = (key for key in keys if agents[0].owners(key) == [owner.own])
    return [next(owned) for _ in range(count)]


def at_once(*checks):
    """What these checks give, side by side; the first that fails is told once all have ended."""
    with concurrent.futures.ThreadPoolExecutor(len(checks)) as pool:
        return [it.result() for it in [pool.submit(check) for check in checks]]


def well(agents):
    return all(agent.is_well() for agent in agents)


def agree(agents):
    """Whether all agents are well and hold the same members."""
    return well(agents) and len({agent.ask("GET", "/digest")[1] for agent in agents}) == 1


class Load(Beside):
    """Threads that ask for keys through agents, and check each answer; with `single` each request has a connection of its own."""

    def __init__(self, agents, keys, threads=8, most=None, single=False):
        self.agents, self.keys, self.most = agents, keys, most
        self.fields = {"connection": "close"} if single else {}
        self.lock = threading.Lock()
        self.asked, self.answered, self.elsewhere, self.failed, self.wrong, self.lost, self.longest = 0, 0, 0, {}, [], {}, 0.0
        self.refused = set()
        super().__init__(*(functools.partial(self.work, number) for number in range(threads)))

    def take(self):
        with self.lock:
            if self.is_over.is_set() or self.asked == self.most:
                return None
            self.asked += 1
            return self.asked

    def one(self, link, agent, number):
        """Asks once; whether the connection may be used again."""
        key, body = self.keys[number % len(self.keys)], f"b{number}"
        start = time.monotonic()
        link.request("POST", "/keys/" + quote(key, safe=""), body.encode(), self.fields)
        answer = link.getresponse()
        text, owner = answer.read().decode(), answer.headers.get("x-ringpop-owner")
        with self.lock:
            self.longest = max(self.longest, time.monotonic() - start)
            if answer.status == 200:
                self.answered, self.elsewhere = self.answered + 1, self.elsewhere + (owner != agent.own)
                if not text.startswith(f"{key}: ") or not text.endswith(f" {body}") or not self.is_owner(key, owner):
                    self.wrong.append((agent.own, key, owner, text))
            else:
                self.failed[answer.status] = self.failed.get(answer.status, 0) + 1
        return answer.headers.get("connection") != "close"

    def is_owner(self, key, owner):
        return owner is not None

    def work(self, first):
        link, agent, at = None, None, first
        while (number := self.take()) is not None:
            for _ in range(20):
                try:
                    if link is None:
                        at += 1
                        agent = self.agents[at % len(self.agents)]
                        link = http.client.HTTPConnection(agent.http, timeout=60)
                        link.connect()
                    break
                except OSError:
                    with self.lock:
                        self.refused.add(agent.own)
                    link = None
                    time.sleep(0.05)
            if link is None:
                continue
            try:
                if not self.one(link, agent, number):
                    link = None
            except (OSError, http.client.HTTPException):
                with self.lock:
                    self.lost[agent.own] = self.lost.get(agent.own, 0) + 1
                link = None

    def end(self):
        if self.most is None:
            self.is_over.set()
        for thread in self.threads:
            thread.join()
        expect(not self.wrong, f"{len(self.wrong)} wrong answers, the first {self.wrong[:1]}")
        return self

    def __str__(self):
        return f"{self.answered} answered, failed {self.failed}, lost {self.lost}, the longest {self.longest:.2f} s"
