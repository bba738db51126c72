"""What an agent does whose standard error is a pipe that is not read, for `scripts/agent unread`.

It makes rounds and answers for a minute, while another one stands still now and then; it counts the lines that it drops, says how many once it is
read, and stops though it is not read. One with a log of JSON says it in JSON.
"""
import fcntl
import json
import os
import re
import signal
import time

from agents import Agent, agree, counted
from nodes import Beside, PATIENCE, Wrong, expect, is_late, wait_until

SECONDS = 60
# the most lines that wait to be written
MOST = 1_024
MEMBERS = [f"10.0.1.{number + 1}:1" for number in range(200)]
SAID = r"(\d+) lines of the log were dropped here: standard error was not read in time"
DROPPED = re.compile(rf"\[WARN \] {SAID}\n".encode())


def raise_lines(agent, incarnation):
    """Has an agent log a line for each of some members that left."""
    for start in range(0, len(MEMBERS), 50):
        agent.tell(MEMBERS[start : start + 50], incarnation, "leave")


def check_unread(agent, other):
    """For a minute, in which another agent stands still three times, an agent makes rounds and answers."""
    begun, before, slowest = time.monotonic(), agent.rounds(), 1_000
    for second in range(1, SECONDS + 1):
        if second % 20 in (5, 12):
            os.kill(other.process.pid, signal.SIGSTOP if second % 20 == 5 else signal.SIGCONT)
        raise_lines(agent, second)
        for path in ("/livez", "/members", "/digest"):
            asked = time.monotonic()
            status = agent.ask("GET", path)[0]
            if status != 200 or is_late(time.monotonic() - asked, 1):
                raise Wrong(f"an agent whose log is not read answers GET {path} by {status} after {time.monotonic() - asked:.1f} s")
        if second % 10 == 0:
            rounds = agent.rounds()
            before, slowest = rounds, min(slowest, rounds - before)
        time.sleep(max(0, begun + second - time.monotonic()))
    used, dropped = (counted([agent], f"ringpop_log_lines_{it}") for it in ("used", "dropped_total"))
    print(f"not read for {SECONDS} s: {slowest} rounds or more in ten seconds, {used} lines wait, {dropped} were dropped")
    expect(slowest >= 3 and used == MOST and dropped >= 500, "an agent whose log is not read makes no rounds, or counts no lines")


class Reader(Beside):
    """A thread that reads a pipe."""

    def __init__(self, pipe):
        self.pipe, self.read = pipe, b""
        super().__init__(self.work)

    def work(self):
        os.set_blocking(self.pipe, False)
        while not self.is_over.is_set():
            try:
                self.read += os.read(self.pipe, 65_536)
            except BlockingIOError:
                time.sleep(0.01)


def check_read(agent, pipe):
    """Once somebody reads, the log says how many lines were dropped, and where."""
    reader = Reader(pipe)
    wait_until("written", 10, lambda: counted([agent], "ringpop_log_lines_used") == 0)
    raise_lines(agent, SECONDS + 1)
    dropped = counted([agent], "ringpop_log_lines_dropped_total")
    wait_until("told how many were dropped", 10, lambda: sum(map(int, DROPPED.findall(reader.read))) == dropped)
    wait_until("told of the last", 10, lambda: f"{MEMBERS[-1]} is still leave, incarnation {SECONDS + 1}".encode() in reader.read)
    reader.end()
    lines = reader.read.decode().splitlines()
    expect(all(re.fullmatch(rf"\d{{4}}-\d\d-\d\dT\d\d:\d\d:\d\d\.\d{{3}}Z {re.escape(agent.own)} \[.*", it) for it in lines), "a line of the log is torn")
    print(f"{len(lines)} lines were read, which tell of {dropped} that were dropped")


def check_end(agent):
    """An agent whose log is not read stops all the same."""
    for number in range(20):
        raise_lines(agent, SECONDS + 2 + number)
        time.sleep(0.3)
    wait_until("full", 10, lambda: counted([agent], "ringpop_log_lines_used") == MOST)
    begun = time.monotonic()
    agent.ask("POST", "/stop")
    status, spent = agent.process.wait(timeout=60), time.monotonic() - begun
    print(f"stopped with status {status} after {spent:.1f} s")
    expect(status == 0 and not is_late(spent, 12), "an agent whose log is not read does not stop")


def told_as_json(reader):
    """How many lines were dropped, as the lines of a log of JSON tell that were read so far."""
    lines = map(json.loads, reader.read.decode().split("\n")[:-1])
    told = [re.fullmatch(SAID, line["message"]) for line in lines if line["level"] == "WARN" and not line["target"]]
    return sum(int(it[1]) for it in told)


def check_json(agent, pipe):
    """A log of JSON says in JSON how many lines were dropped."""
    wait_until("well", PATIENCE, agent.is_well)
    for number in range(20):
        raise_lines(agent, SECONDS + 100 + number)
        time.sleep(0.3)
    reader = Reader(pipe)
    wait_until("written", 10, lambda: counted([agent], "ringpop_log_lines_used") == 0)
    raise_lines(agent, SECONDS + 200)
    wait_until("told in JSON", 10, lambda: told_as_json(reader) == counted([agent], "ringpop_log_lines_dropped_total") > 0)
    reader.end()


def start(program, agents, port, *more):
    """An agent whose standard error is a pipe that holds little, and the end where that is read."""
    pipe, end = os.pipe()
    fcntl.fcntl(pipe, fcntl.F_SETPIPE_SZ, 4_096)
    agents.append(Agent(program, port, [it.port for it in agents], log=end, more=more))
    os.close(end)
    return agents[-1], pipe


def check(program, agents, port):
    agent, pipe = start(program, agents, port)
    wait_until("agreed", PATIENCE, lambda: agree(agents))
    check_unread(agent, agents[0])
    check_read(agent, pipe)
    check_end(agent)
    check_json(*start(program, agents, port + 1, "--log-json"))
