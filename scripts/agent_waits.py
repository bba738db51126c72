"""Requests whose wait the client limits by `X-Ringpop-Wait`, for `scripts/agent waits`.

A request whose owner is slow, hangs, or is dead ends in 504 once its wait is over, by a word that says whether it may have been performed; no send
is begun later, and no node and no service is blamed for it. One with time enough is answered as it is without the field, and a value that is not a
number of milliseconds is refused by a line that names the field. Last the owner is told to stop while its service performs a forwarded request, and
answers it before it ends.
"""
import signal
import sys
import time
from concurrent.futures import ThreadPoolExecutor

from agents import agree, counted, fetch, keys_of, running
from nodes import PATIENCE, ROOT, Wrong, expect, is_late, wait_until

SLOW = (sys.executable, f"{ROOT}/scripts/slow_app.py")
LOST, SILENT = "the answer was lost: the owner may have performed the request\n", "the owner does not answer\n"
NO_WHOLE = "no whole answer of the owner's application came\n"
# with so long between two rounds it is requests alone that can blame a node; a join tells two nodes of each other, if none leaves until its service is up
STILL = ("--period", "60000", "--no-wait-app", "--leave-after", "0")
# what no wait is
BAD = ("0", "60001", "-1", "+5", "1.5", "5 s", "", "18446744073709551617", "5, 6")


def ask(agent, key, wait, body="0", method="POST"):
    """The status, the line and the word of an answer to a request with this wait, and the seconds that it took."""
    begun = time.monotonic()
    status, text, fields = fetch(agent.http, method, f"/keys/{key}", body, {"x-ringpop-wait": wait} if wait else {})
    return (status, text.decode(), fields.get("x-ringpop-error")), time.monotonic() - begun


def check_over(what, agent, key, wait, wanted, body="0"):
    """A request ends once its wait is over, and not before."""
    came, spent = ask(agent, key, str(wait), body)
    expect(came == wanted, f"{what}, a request that may wait for {wait} ms is answered {came}")
    if spent < wait / 1000 - 0.05 or is_late(spent, wait / 1000 + 0.5):
        raise Wrong(f"{what}, a request that may wait for {wait} ms is answered after {spent:.2f} s")


def check_bad(agent, key):
    for wait in BAD:
        came, _ = ask(agent, key, wait or " ")
        expect(came == (400, "bad X-Ringpop-Wait: not one number from 1 to 60000, in milliseconds\n", "bad-wait-field"), f"a wait of {wait!r} is answered {came}")
    for wait in ("1000", "60000", "007000"):
        came, _ = ask(agent, key, wait)
        expect(came == (200, "0", None), f"a wait of {wait!r} is answered {came}")


def check_slow(agents, own, other):
    """The application of the owner is slow: the agent's own, and another's."""
    for what, key in (("own application slow", own), ("another's application slow", other)):
        check_over(what, agents[0], key, 400, (504, LOST, "answer-lost"), "2")
        came, _ = ask(agents[0], key, "5000", "1")
        expect(came == (200, "1", None), f"{what}, a request that may wait for longer is answered {came}")


def check_blame(agent, key):
    """The agent's own service fails where it takes longer than its four seconds or takes no connection, and not where its client does not wait."""
    def failures():
        return counted([agent], "ringpop_application_failures_total")

    before = failures()
    for _ in range(10):
        check_over("own service slow", agent, key, 100, (504, LOST, "answer-lost"), "0.5")
    expect(failures() == before, f"a service is blamed {failures() - before} times for answers that its clients did not wait for")
    expect(agent.is_well() and "gave no whole answer" not in agent.said(), f"an agent is not well since its clients do not wait: {agent.said()}")
    came, _ = ask(agent, key, "20000", "5")
    expect(came == (502, NO_WHOLE, "application-unresponsive") and failures() == before + 1, f"a service slower than its limit: {came}")
    agent.stop_application()
    came, _ = ask(agent, key, "1000")
    expect(came[0] == 502 and failures() == before + 2, f"a service that takes no connection within a client's wait: {came}")
    agent.start_application()
    wait_until("well", PATIENCE, agent.is_well)


def check_dead(agents, key, sends):
    """The owner is dead: its connection is refused at once, which the log says, and no send is begun once the wait is over."""
    agents[1].kill()
    check_over("owner dead", agents[0], key, 1000, (504, SILENT, "owner-unresponsive"))
    time.sleep(4)
    expect(counted(agents[:1], "ringpop_forwards_total") == sends + 1, "a request is sent again once its wait is over")
    expect(f"{agents[1].own} did not answer: the link failed: Connection refused" in (said := agents[0].said()), f"the log does not say why: {said}")
    agents[1].start()
    wait_until("back", PATIENCE, lambda: agree(agents))


def check_silent(agents, key):
    """The owner is paused: it takes a connection, and may perform the request later. No node is blamed for what a client does not wait for."""
    failures = counted(agents[:1], "ringpop_link_failures_total")
    agents[1].process.send_signal(signal.SIGSTOP)
    try:
        check_over("owner paused", agents[0], key, 700, (504, LOST, "answer-lost"))
        expect(counted(agents[:1], "ringpop_link_failures_total") == failures, "a node is blamed for an answer that its client did not wait for")
    finally:
        agents[1].process.send_signal(signal.SIGCONT)
    wait_until("whole", PATIENCE, lambda: agree(agents))


def check_stop(agents, key):
    """An agent that is told to stop answers the request of another node that its service performs, and then ends."""
    with ThreadPoolExecutor(1) as pool:
        asked = pool.submit(ask, agents[0], key, None, "3.5")
        time.sleep(0.5)
        expect(agents[1].ask("POST", "/stop")[0] == 200, "an agent is not told to stop")
        came, spent = asked.result()
    expect(came == (200, "3.5", None), f"a forwarded request is answered {came} where its owner is told to stop")
    expect(counted(agents[:1], "ringpop_link_failures_total") == 0 and not is_late(spent, 4.5), f"it is sent again where its owner is told to stop: {spent:.2f} s")
    expect(agents[1].process.wait(PATIENCE) == 0, "an agent that is told to stop does not end")


def check(program, port):
    with running(program, port, port + 1, app=SLOW, more=STILL) as agents:
        wait_until("agreed", PATIENCE, lambda: agree(agents))
        (own,), (other,) = (keys_of(agents, agent, 1) for agent in agents)
        own, other = own.replace(" ", "%20"), other.replace(" ", "%20")
        check_bad(agents[0], own)
        check_bad(agents[0], other)
        check_slow(agents, own, other)
        check_blame(agents[0], own)
        check_silent(agents, other)
        check_dead(agents, other, counted(agents[:1], "ringpop_forwards_total"))
    with running(program, port, port + 1, app=SLOW) as agents:
        wait_until("agreed", PATIENCE, lambda: agree(agents))
        key, = keys_of(agents, agents[1], 1)
        check_stop(agents, key.replace(" ", "%20"))
