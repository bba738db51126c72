"""An agent that tells its service of the ring, for `scripts/agent short`."""
import contextlib
import http.server
import json
import threading
import time

from agents import Playing, counted, running
from nodes import Wrong, expect, is_late, wait_until


class Told(Playing):
    """An agent whose application comes a second after it, keeps the notices of the ring, and answers each only once it may: the first two 500, and on request
    each while the node serves."""

    def start_application(self):
        self.fails, self.fields, self.notices, self.may_answer, agent = False, [], [], threading.Event(), self
        self.may_answer.set()

        class Application(http.server.BaseHTTPRequestHandler):
            def do_POST(self):
                body = self.rfile.read(int(self.headers["content-length"]))
                agent.fields.append((self.request_version, sorted((it.lower(), value) for it, value in self.headers.items()), len(body)))
                agent.notices.append((self.path, json.loads(body)))
                is_refused = len(agent.notices) < 3 or agent.fails and json.loads(body)["now"]["serving"]
                agent.may_answer.wait(3)
                self.send_response_only(500 if is_refused else 204)
                self.end_headers()

        threading.Timer(1, self.serve, [Application]).start()

    def ring(self):
        """The ring as it stands in a notice."""
        told = self.json("/ring")
        return {"ring": told["ring"], "serving": told["serving"]}

    def check_fields(self):
        """Each notice has these fields and no others."""
        for version, fields, length in self.fields:
            wanted = [("connection", "close"), ("content-length", str(length)), ("content-type", "application/json"), ("host", self.app)]
            expect((version, fields) == ("HTTP/1.1", wanted), f"a notice is {version} with {fields}")

    def is_told(self, times, now, before):
        """Whether this number of notices came, and the last one tells these rings."""
        return len(self.notices) == times and self.notices[-1] == ("/moved", {"own": self.own, "replicas": 100, "now": now, "before": before})


def check(program, first, second):
    """An application is told of the ring once the node is in it, until it takes the notice, then of the last change; while it is slow, rounds are made.
    At a stop it is told at once, though the notice before failed, and the agent waits for its answer, but not long."""
    def counts():
        return [counted([agent], f"ringpop_notices_{it}") for it in ('total{outcome="taken"}', 'total{outcome="failed"}', "untold")]

    with running(program, first, hosts=(), kind=Told, more=("--tell-app",)) as (agent,), contextlib.ExitStack() as ends:
        wait_until("told at the third time", 10, lambda: len(agent.notices) == 3)
        alone = agent.ring()
        wait_until("counted", 5, lambda: counts() == [1, 2, 0])
        said = agent.said()
        is_logged = said.count("is not told of the ring: it answers 500") == 1
        if agent.notices[0] != agent.notices[2] or not agent.is_told(3, alone, None) or not is_logged:
            raise Wrong(f"an application that answers 500 twice gets {agent.notices}, and the log says {said!r}")
        other, = ends.enter_context(running(program, second, hosts=[first]))
        wait_until("told of another node", 20, lambda: agent.is_told(4, agent.ring(), alone))
        both = agent.ring()
        agent.may_answer.clear()
        other.ask("POST", "/leave")
        wait_until("told that it left", 10, lambda: agent.is_told(5, alone, both))
        rounds = agent.rounds()
        wait_until("two rounds later, while the application is slow", 1, lambda: agent.rounds() > rounds + 1)
        if counts() != [2, 2, 1]:
            raise Wrong(f"while the application is slow, the notice is not counted: {counts()}")
        other.ask("POST", "/rejoin")
        agent.may_answer.set()
        wait_until("told that it is back", 10, lambda: agent.is_told(6, both, alone))
        wait_until("counted", 5, lambda: counts() == [4, 2, 0])
        agent.fails = True
        other.ask("POST", "/leave")
        wait_until("not taken four times", 15, lambda: counts()[1] >= 6)
        expect(counts()[::2] == [4, 1], f"of an application that takes no notice {counts()} are counted")
        agent.ask("POST", "/stop")
        begun = time.monotonic()
        agent.process.wait(15)
        last = agent.notices[-1][1]
        expect(not last["now"]["serving"] and last["before"] == both, f"at a stop after failures the application is told {agent.notices[-1]}")
        expect(not is_late(time.monotonic() - begun, 9), f"a stop took {time.monotonic() - begun:.1f} s")
        agent.check_fields()
