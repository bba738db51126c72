"""Agents of two clusters of which one gets an address that the other knows, for `scripts/agent short`.

With a name each they stay two, and both say so, in the log and in the metrics; without names they become one.
"""
import contextlib
import json
import subprocess

from agents import agree, counted, running, well
from nodes import NOBODY, address, expect, hears, message, wait_until


def refused(agent):
    return counted([agent], 'ringpop_lines_refused_total{reason="cluster"}')


def words_of(name):
    return ("--period", "100", *(("--cluster", name) if name else ()))


@contextlib.contextmanager
def exchanged(program, first, reused, other, names=(None, None)):
    """An agent of one cluster, and two of another, the second at the address of one that the former knows."""
    mine, theirs = map(words_of, names)
    with running(program, first, reused, more=mine, until=agree) as (left, gone):
        gone.end()
        with running(program, other, reused, more=theirs, until=well) as right:
            yield left, right


def check_apart(left, right):
    """Two clusters do not become one: each refuses what the other sends, counts it and logs it."""
    wait_until("refused on both sides", 10, lambda: refused(left) and refused(right[1]))
    wait_until("held as faulty", 20, lambda: left.members()[right[1].own] == "faulty")
    expect(set(left.members()) == {left.own, right[1].own}, f"a member of another cluster is known: {left.members()}")
    expect(all(set(it.members()) == {agent.own for agent in right} for it in right), "a node of another cluster is known to one that it met")
    expect(agree(right), "the agents of one cluster do not agree")
    for agent, said in ((left, "it is of cluster b, and this node of a"), (right[1], "it is of cluster a, and this node of b")):
        expect(said in agent.said(), f"the log of an agent that met another cluster: {agent.said()}")


def check_newcomer(program, port, host):
    """An agent that asks a host of another cluster to admit it is not admitted."""
    before = len(host.members())
    with running(program, port, hosts=(host.port,), more=words_of("a")) as (newcomer,):
        wait_until("refused", 10, lambda: newcomer.is_up() and refused(newcomer))
        expect(not newcomer.is_well() and "it is of cluster b, and this node of a" in newcomer.said(), "a host of another cluster admits an agent")
    expect(len(host.members()) == before, "an agent of another cluster is a member")


def answer(agent, line):
    """What an agent answers to a line, as it came and as JSON."""
    came = hears(agent.port, line.encode() + b"\n").decode()
    return came, json.loads(came)


def check_lines(program, port):
    """A line has the name of its cluster first, or is refused; an answer has it too, to readers that do not look at it."""
    ping = json.dumps(message("ping", checksum=NOBODY, changes=[]))
    others = ("", '"cluster":"b",', '"cluster":"A",', '"cluster":"aa",', '"cluster": "a",', '"cluster":"a" ,', '"kind":"ping","cluster":"a",')
    with running(program, port, hosts=(), more=words_of("a"), until=well) as (agent,):
        for number, other in enumerate(others):
            came, read = answer(agent, "{" + other + ping[1:])
            expect(read["cluster"] == "a" and read["kind"] == "refused" and read["reason"] == "malformed", f"a line with {other!r} is answered {came}")
            expect(refused(agent) == number + 1, f"a line with {other!r} is not counted")
        came, read = answer(agent, '{"cluster":"a",' + ping[1:])
        expect(came.startswith('{"cluster":"a","') and read["kind"] == "ack", f"an agent of a cluster with a name answers {came}")
        expect(refused(agent) == len(others), "a line with the name is refused")


def check_commands(program, port, other):
    """`members`, `ask` and `tell` are answered by an agent of the same cluster, and by no other: they end with 1, and name both clusters."""
    def asked(of, name, *given):
        came = subprocess.run([program, given[0], *(("--cluster", name) if name else ()), *given[1:2], of.own, *given[2:]], input="", capture_output=True, text=True, timeout=20)
        return came.returncode, came.stdout, came.stderr

    given = (("members", "--lines"), ("ask", "--any", "k", "b"), ("tell",))
    with running(program, port, hosts=(), more=words_of("a"), until=well) as (named,), running(program, other, hosts=(), until=well) as (nameless,):
        for words in given:
            own, same = asked(named, "a", *words), asked(nameless, None, *words)
            expect(own[::2] == same[::2] == (0, "") and own[1] and same[1], f"{words} of the same cluster: {own}, {same}")
            for of, name, first, second in (
                (named, None, "refused malformed", f"{named.own} is of cluster a: add --cluster a"),
                (named, "b", "no answer", f"{named.own} is of cluster a, and --cluster is b"),
                (nameless, "b", "no answer", f"{nameless.own} names no cluster, and --cluster is b"),
            ):
                came = asked(of, name, *words)
                expect(came == (1, "", f"ringpop: {first}\nringpop: {second}\n"), f"{words} of another cluster: {came}")
        expect(set(named.members()) == {named.own}, f"a command is a member: {named.members()}")


def check_serve(program, port, other):
    """`serve`, whose node is of no cluster with a name, says so of a host that is of one, and not that no message came from it."""
    with running(program, port, hosts=(), more=words_of("a"), until=well) as (named,):
        came = subprocess.run([program, "serve", address(other), "1", "1", named.own], capture_output=True, text=True, timeout=20)
        said = f"ringpop: no host joined\nringpop: {named.own} is of cluster a and takes no node without this name, as serve makes it\n"
        expect((came.returncode, came.stdout, came.stderr) == (1, "", said), f"serve with a host of a cluster that has a name: {came}")


def check(program, first, reused, other, newcomer):
    with exchanged(program, first, reused, other, ("a", "b")) as (left, right):
        check_apart(left, right)
        check_newcomer(program, newcomer, right[0])
    check_lines(program, newcomer)
    check_commands(program, first, other)
    check_serve(program, first, other)
    with exchanged(program, first, reused, other) as (left, right):
        wait_until("one cluster without names", 20, lambda: agree([left, *right]) and len(left.members()) == 3)
