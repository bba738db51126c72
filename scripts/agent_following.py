"""Agents that follow their services into the ring and out of it, for `scripts/agent following`.

Two agents are joined by a third under requests, whose service starts two seconds later: none fails. It leaves the ring two to four seconds after
its service was killed, says so, and comes back with it; an agent that was told to leave stays away when its service comes back, until it is told
to rejoin; one with `--no-wait-app` and `--leave-after 0` joins and stays without it.
"""
import time

from agents import Agent, Load, agree, counted, running
from nodes import Wrong, expect, is_late, wait_until

KEYS = [f"order {number}" for number in range(500)]
# the seconds after which an agent of these trials leaves, and by when a ring of three has heard of it on a busy machine
AFTER, HEARD = 2, 4
# the seconds between two looks at a service, and what a busy machine adds
BETWEEN_LOOKS = 0.6
OUT = "the node is not in the ring, since its application accepts no connection\n"


class Follower(Agent):
    """An agent whose service is started apart from it."""

    def start_application(self):
        self.application = None

    def serve(self):
        Agent.start_application(self)

    def stop_application(self):
        if self.application:
            super().stop_application()
        self.application = None


def owns(agents, owner):
    """How many of the first keys an agent owns, as the first agent names it."""
    return sum(agents[0].owners(key) == [owner.own] for key in KEYS[:40])


def check_health(agent, status, line):
    told = agent.ask("GET", "/healthz")
    expect(told == (status, line), f"{agent.own} says {told} of its health, and not {status} {line!r}")


def check_join(agents, late):
    """A node whose service starts two seconds later joins under requests, and none fails."""
    load = Load(agents, KEYS, threads=16)
    time.sleep(2)
    check_health(late, 503, OUT)
    if owns(agents, late) or counted([late], "ringpop_service_up") != 0 or late.ask("GET", "/livez")[0] != 200:
        raise Wrong("a node whose service is not up has joined, or counts its service as up, or its agent as hung")
    late.serve()
    spent = wait_until("joined with its service", 10, lambda: owns(agents, late) > 0 and late.is_well())
    time.sleep(2)
    load.end()
    expect(not load.failed and not load.lost and counted([late], "ringpop_service_up") == 1, f"a node joined with its service: {load}")
    for text in ("this node joins once it does", "this node comes into the ring"):
        expect(text in (said := late.said()), f"the log does not say that {text}: {said}")
    print(f"a node joined {spent:.1f} s after its service was started: {load}")


def check_loss(agents, late):
    """A node whose service was killed leaves some seconds after the last look at which that took a connection, and comes back with it."""
    begun = time.monotonic()
    late.stop_application()
    wait_until("out of the ring", AFTER + HEARD, lambda: owns(agents, late) == 0)
    spent = time.monotonic() - begun
    check_health(late, 503, OUT)
    said, why = late.said(), "this node leaves the ring, since its application accepts no connection"
    expect(spent >= AFTER - BETWEEN_LOOKS and why in said, f"a node whose service was killed left after {spent:.1f} s: {said}")
    load = Load([*agents, late], KEYS, threads=16)
    time.sleep(2)
    late.serve()
    back = wait_until("back with its service", 10, lambda: owns(agents, late) > 0 and late.is_well())
    time.sleep(1)
    load.end()
    expect(not load.failed and not load.lost, f"a node came back with its service: {load}")
    print(f"a node left {spent:.1f} s after its service was killed, and was back {back:.1f} s after it was started: {load}")


def check_told(agents, late):
    """A node that was told to leave stays away whatever its service does, until it is told to rejoin."""
    expect(late.ask("POST", "/leave")[0] == 200, "no leave")
    late.stop_application()
    time.sleep(1)
    late.serve()
    time.sleep(3)
    check_health(late, 503, "the node has left\n")
    expect(late.ask("POST", "/rejoin")[0] == 200, "no return")
    wait_until("back", 10, lambda: agree([*agents, late]) and owns(agents, late) > 0)
    # one that is out because of its service, too, once it is told to leave
    late.stop_application()
    wait_until("out of the ring", AFTER + HEARD, lambda: late.ask("GET", "/healthz") == (503, OUT))
    expect(late.ask("POST", "/leave") == (409, "the node has left already\n"), "a node that is out because of its service leaves")
    late.serve()
    time.sleep(3)
    check_health(late, 503, "the node has left\n")
    # and one that is told to rejoin while its service is down leaves again, not at once
    late.stop_application()
    begun = time.monotonic()
    expect(late.ask("POST", "/rejoin")[0] == 200, "no return")
    check_health(late, 503, "the application does not answer\n")
    wait_until("out of the ring again", AFTER + HEARD, lambda: late.ask("GET", "/healthz") == (503, OUT))
    expect(time.monotonic() - begun >= AFTER - 0.5, "a node that came back by hand left at once")


def check_without(program, port, hosts):
    """An agent that does not wait, and never leaves, is in the ring without its service."""
    with running(program, port, hosts=hosts, kind=Follower, more=("--no-wait-app", "--leave-after", "0")) as (bold,):
        wait_until("answered over HTTP", 10, bold.is_up)
        wait_until("joined", 10, lambda: bold.ask("GET", "/healthz") == (503, "the application does not answer\n"))
        time.sleep(AFTER + 1)
        expect(bold.members()[bold.own] == "alive", "an agent with --leave-after 0 left")


def check(program, agents, port):
    ports = [port, port + 1, port + 2]
    late_port = port + 3
    late = Follower(program, late_port, ports, more=("--leave-after", str(AFTER)))
    agents.append(late)
    others = agents[:3]
    wait_until("answered over HTTP", 10, late.is_up)
    check_join(others, late)
    check_loss(others, late)
    check_told(others, late)
    begun = time.monotonic()
    if late.ask("POST", "/stop")[0] != 200 or late.process.wait(40) != 0 or is_late(time.monotonic() - begun, 8):
        raise Wrong("a node that is out of the ring is not stopped")
    check_without(program, port + 4, ports)
