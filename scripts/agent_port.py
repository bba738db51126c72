"""The ports of nodes among clients that say nothing, too little, or take no answer, for `scripts/agent port`.

For ten seconds 32 connections a second come to the port of an agent and say nothing, after 500 at once, and 100 send a byte of a line each 0.2 seconds,
and come again once they are closed. Meanwhile nine of ten pings are answered within 50 milliseconds, and each within 400; no agent suspects another; a line that
comes in parts is answered; the metrics count the connections; and the agent has no more threads. Each connection is closed once its half
second is up, and none is left.

Then the node has 400 more members, and for ten seconds 16 clients a second ask for all of them, and take nothing of the answer. Pings are answered in the same times; the
metrics count these connections, and each is closed in time with a part of its answer. One that takes the answer within its half second has it whole.
"""
import json
import time

from agents import counted
from nodes import Beside, NOBODY, address, check_pings, connect, deaf, expect, held, in_time, message, ping_beside, rest, wait_until

SECONDS = 10
USED = 'ringpop_connections_used{port="node"}'
# how many clients a second take nothing of an answer that lists this many members
UNREADING, MEMBERS = 16, 400
# the bytes of a segment on a network: for the longer ones on this machine the system keeps more of an answer than it has
SEGMENT = 1_460
ASK = json.dumps(message("join", checksum=NOBODY, changes=[])).encode() + b"\n"


class Unreading(Beside):
    """A thread that makes connections which ask a node for its members, and take nothing of the answer."""

    def __init__(self, port):
        self.port, self.streams = port, []
        super().__init__(self.work)

    def work(self):
        while not self.is_over.wait(1 / UNREADING):
            self.streams.append(deaf(self.port, ASK, SEGMENT))


def check_parts(port):
    """A ping that comes in three parts is answered."""
    line = json.dumps(message("ping", checksum=NOBODY, changes=[])).encode() + b"\n"
    with connect(port) as stream:
        for part in (line[:20], line[20:-1], line[-1:]):
            stream.sendall(part)
            time.sleep(0.1)
        came = rest(stream)
    expect(came and json.loads(came)["kind"] == "ack", f"a ping in three parts is answered by {came}")


def slowly_taken(port):
    """The answer to a client that takes nothing of it for a fifth of a second."""
    with deaf(port, ASK, SEGMENT) as stream:
        time.sleep(0.2)
        stream.settimeout(5)
        return rest(stream)


def check_unreading(agent):
    """Clients that take nothing of their answers delay no pings, and lose their connections."""
    agent.tell([address(20_000 + number) for number in range(MEMBERS)], 1, "leave")
    used = lambda: counted([agent], USED)
    clients = Unreading(agent.port)
    most = ping_beside(clients, agent.port, SECONDS, used)
    expect(most > UNREADING / 4, f"{most} connections at most are held while their answers are taken")
    wait_until("free of clients that take nothing", 2, lambda: used() <= 1)
    for stream in clients.streams:
        with stream:
            stream.settimeout(5)
            expect(not rest(stream).endswith(b"\n"), "a client that took nothing in time has its whole answer")
    in_time(lambda: expect(len(json.loads(slowly_taken(agent.port))["changes"]) > MEMBERS, "an answer that is taken slowly is not whole"))


def check(agents):
    agent = agents[0]
    threads, suspects = held(agent.process)[2], [it.said().count(" is suspect, ") for it in agents]

    def used():
        expect(held(agent.process)[2] == threads, "connections that say nothing take threads")
        return counted([agent], USED)

    check_pings(agent.port, SECONDS, used)
    expect([it.said().count(" is suspect, ") for it in agents] == suspects, "an agent is suspected since others say nothing at its port")
    in_time(lambda: check_parts(agent.port))
    wait_until("free of them", 2, lambda: counted([agent], USED) <= 1)
    check_unreading(agent)
