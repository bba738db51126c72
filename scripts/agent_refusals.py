"""What agents say of what they and others refuse, for `scripts/agent refusals`.

Each answer that an agent makes itself has its word, and no answer of a service has one. A newcomer that is refused says why, in its health, log
and metrics; a node that becomes full says so, and one that refuses a line at its port logs and counts it. The level of the log changes while an agent
runs, but not by the page of another site; at debug, and at no other level, each HTTP request has a line. A log of JSON has an object on each line.
"""
import itertools
import json
import re
import time
from email.utils import parsedate_to_datetime
from urllib.parse import quote

from agents import counted, fetch, keys_of, running
from nodes import PATIENCE, Wrong, address, expect, hears, wait_until

# the members of a line of a log of JSON, and the levels
LINE, LEVELS = ["time", "address", "level", "target", "message"], ("ERROR", "WARN", "INFO", "DEBUG")
# the most addresses that a node holds, and the number from which on an agent lets no new one join
MOST, MARGIN = 4_096, 4_000
# values of Accept, and whether they name JSON
ACCEPTS = [("application/json", True), ("text/html, APPLICATION/JSON;q=0.5, */*", True), ("application/json ; charset=utf-8", True),
           (None, False), ("*/*", False), ("application/*", False), ("text/plain", False), ("application/json-patch+json, a/application/json", False)]


def told_apart(agent, method, path, body=None):
    """The status of an answer, the word by which it is told from a service's, and after how many seconds to ask again."""
    status, _, fields = fetch(agent.http, method, path, body)
    check_date(fields)
    return status, fields.get("x-ringpop-error"), fields.get("retry-after")


def check_words(agents):
    """An agent's own answers have a word, those of services have none, whatever their status is."""
    keys = [key for owner in agents for key in keys_of(agents, owner, 1)]
    for key in keys:
        for status, agent in itertools.product((200, 404, 422, 502, 503), agents):
            body = f"status {status}"
            told, text, fields = fetch(agent.http, "POST", f"/keys/{quote(key)}", body)
            if told != status or not text.decode().endswith(body) or "x-ringpop-error" in fields or "retry-after" in fields:
                raise Wrong(f"{agent.own} tells a service's answer {status} as {told} {text}, with {fields.items()}")
    wanted = {("GET", "/nothing"): (404, "not-found", None), ("GET", "/keys/k"): (405, "bad-method", None),
              ("POST", "/rejoin"): (409, "not-left", None), ("GET", "/owner/"): (400, "bad-key", None)}
    for (method, path), told in wanted.items():
        if told_apart(agents[0], method, path) != told:
            raise Wrong(f"{method} {path} is told as {told_apart(agents[0], method, path)}, and not {told}")
    agents[1].stop_application()
    if told_apart(agents[1], "GET", "/healthz") != (503, "application-down", "1"):
        raise Wrong("a refusal of the agent's health has no word, or no time to ask again")
    check_json(agents[1], "GET", "/healthz", None, (503, "application-down", "the application does not answer"))
    check_json(agents[0], "GET", "/owner/k?n=0", None, (400, "bad-count", "bad count: not n=1 to n=4096"))
    for agent in agents:
        check_json(agent, "POST", f"/keys/{quote(keys[1])}", b"x", (502, "application-not-accepting", "the owner's application accepts no connection"))
        told = told_apart(agent, "POST", f"/keys/{quote(keys[1])}", b"x")
        expect(told == (502, "application-not-accepting", None), f"a 502 of the owner's agent is told as {told}")


def check_json(agent, method, path, body, wanted):
    """A refusal is JSON where a field Accept names it, and else its line; both have a date."""
    status, word, line = wanted
    as_json = json.dumps({"error": word, "message": line}, separators=(",", ":"))
    for accept, is_json in ACCEPTS:
        status_now, text, fields = fetch(agent.http, method, path, body, {"Accept": accept} if accept else {})
        form = ("application/json", as_json) if is_json else ("text/plain; charset=utf-8", line)
        told = status_now, fields.get("x-ringpop-error"), fields.get("content-type"), text.decode()
        expect(told == (status, word, form[0], f"{form[1]}\n"), f"{method} {path} with Accept {accept} is told as {told}")
        check_date(fields)


def check_date(fields):
    dates = [parsedate_to_datetime(value) for value in fields.get_all("date", [])]
    expect(len(dates) == 1 and abs(dates[0].timestamp() - time.time()) < 5, f"the dates of an answer are {dates}")


def check_margin(program, full, port):
    """A node that holds 3,999 addresses lets a newcomer join, and no other one after it, unless it knows it; it goes on to take news of others."""
    fill(full, MARGIN - 1)
    with running(program, port, hosts=(full.port,)) as (last,):
        wait_until("admitted", 20, last.is_well)
        wait_until("at the margin", 10, lambda: counted([full], "ringpop_addresses_used") == MARGIN)
    with running(program, port, hosts=(full.port,)) as (last,):
        wait_until("admitted again", 20, last.is_well)
    check_newcomer(program, port + 1, full.port)
    expect(counted([full], "ringpop_addresses_used") == MARGIN, "a node lets a newcomer join beyond the margin")


def check_full(program, first, second):
    """A node that becomes full says so, and a newcomer that it refuses, too."""
    with running(program, first, hosts=(), more=("--log-json",)) as (full,):
        wait_until("well", PATIENCE, full.is_well)
        wait_until("in its third round", 10, lambda: full.rounds() > 1)
        check_margin(program, full, second + 1)
        fill(full)
        wait_until("full", 10, lambda: counted([full], "ringpop_addresses_used") == MOST)
        wait_until("said to be full", 10, lambda: f"{MOST} of {MOST} addresses are used" in full.said())
        check_newcomer(program, second, first)
        check_line(full)
        check_log_json(full)


def fill(agent, most=MOST):
    """Tells a node of members that left, until it holds this number of them, itself among them."""
    held = counted([agent], "ringpop_addresses_used")
    members = [f"10.0.{number // 250}.{number % 250 + 1}:1" for number in range(held, most)]
    for start in range(0, len(members), 500):
        agent.tell(members[start : start + 500], 1, "leave")


def check_newcomer(program, port, host):
    with running(program, port, hosts=(host,)) as (newcomer,):
        refused = 503, "a host refused this node: full\n"
        wait_until("said to be refused", 20, lambda: newcomer.is_up() and newcomer.ask("GET", "/healthz") == refused)
        said = newcomer.said()
        expect(f"{address(host)} refused a message of this node: full" in said, f"the log of a node that is refused: {said}")
        if not counted([newcomer], 'ringpop_joins_total{outcome="refused"}') or not counted([newcomer], "ringpop_messages_refused_total"):
            raise Wrong("the metrics of a node that is refused do not count it")


def check_line(agent):
    """A line at the port of the node that is not a message is refused, counted and logged."""
    hears(agent.port, b"hello\n")
    wait_until("counted", 5, lambda: counted([agent], 'ringpop_lines_refused_total{reason="malformed"}') == 1)
    wait_until("logged", 5, lambda: re.search(r"a line of 127\.0\.0\.1:\d+ was refused: malformed", agent.said()))


def log_level(agent, method, query="", fields={}):
    status, text, _ = fetch(agent.http, method, f"/log{query}", None, fields)
    return status, text.decode()


def check_level(agent):
    """The level of a log changes while its agent runs, and only to one that there is."""
    bad = 400, "bad level: not level=off, level=error, level=warn, level=info or level=debug\n"
    for query in ("", "?level=trace", "?level=DEBUG", "?level=debug&level=debug", "?n=debug"):
        expect(log_level(agent, "POST", query) == bad, f"POST /log{query} is answered {log_level(agent, 'POST', query)}")
    told = log_level(agent, "POST", "?level=off", {"Origin": "http://example.org"})
    expect(told == (403, "refused: asked by a page of another site\n"), f"the page of another site is answered {told}")
    expect(log_level(agent, "PUT", "?level=off") == (405, "bad method: this path takes GET and POST\n"), "PUT /log is answered")
    levels = ("info", "debug", "off", "error", "warn", "info")
    for before, level in itertools.pairwise(levels):
        told = log_level(agent, "POST", f"?level={level}"), log_level(agent, "GET")
        expect(told == ((200, f"log level {level}, was {before}\n"), (200, f"log level {level}\n")), f"the level {level} is told as {told}")


def check_requests(agents):
    """At the level debug each HTTP request has a line, which says who answered, and at info none has."""
    agent, owner = agents[:2]
    path = f"/keys/{quote(keys_of(agents, owner, 1)[0])}"
    for level, name in (("info", "a"), ("debug", "b"), ("info", "c"), ("debug", "d")):
        log_level(agent, "POST", f"?level={level}")
        told = [fetch(agent.http, method, at, body)[0] for method, at, body in (("POST", path, b"status 503"), ("GET", f"/nothing/{name}?secret", None))]
        expect(told == [503, 404], f"requests at the level {level} are answered {told}")
    wait_until("logged", 5, lambda: "GET /nothing/d" in agent.said())
    log_level(agent, "POST", "?level=info")
    lines = re.findall(rf"\[DEBUG agent_api::api\] (.*) \d+\.\d\d\d ms 127\.0\.0\.1$", agent.said(), re.M)
    said = [line for line in lines if " /log " not in line]
    wanted = [line for name in "bd" for line in (f"POST {path} 503 service", f"GET /nothing/{name} 404 agent")]
    expect(said == wanted, f"the log has the requests {said}")


def check_unread(agent):
    """At the level debug a request that HTTP itself refuses has a line, without what the agent does not know, and at info it has none."""
    port = int(agent.http.split(":")[1])
    requests = b"no HTTP\r\n\r\n", b"POST /keys/a HTTP/1.1\r\nHost: a\r\nContent-Length: 1048577\r\n\r\n"
    for level in ("info", "debug"):
        log_level(agent, "POST", f"?level={level}")
        statuses = [hears(port, sent).split()[1].decode() for sent in requests]
        expect(statuses == ["400", "413"], f"requests that HTTP refuses are answered {statuses}")
    wait_until("logged", 5, lambda: "- - 413 " in agent.said())
    log_level(agent, "POST", "?level=info")
    said = re.findall(r"\[DEBUG agent_api::http_refusals\] (.*)", agent.said())
    expect(said == [f"- - {status} agent - ms 127.0.0.1" for status in statuses], f"the log has of requests that HTTP refuses {said}")


def logged(agent):
    """The lines of a log of JSON, each with the same members."""
    lines = [json.loads(line) for line in agent.said().split("\n")[:-1]]
    for line in lines:
        is_whole = [*line] == LINE and re.fullmatch(r"\d{4}-\d\d-\d\dT\d\d:\d\d:\d\d\.\d{3}Z", line["time"])
        expect(is_whole and line["address"] == agent.own and line["level"] in LEVELS, f"a log of JSON has the line {line}")
    return lines


def check_log_json(agent):
    """The level of a log of JSON changes as that of a text; a line is read back whatever stands in it."""
    for level, name in (("debug", 'a"\\'), ("error", "b"), ("debug", "c"), ("info", "d")):
        log_level(agent, "POST", f"?level={level}")
        fetch(agent.http, "GET", f"/nothing/{name}")
    wait_until("logged", 5, lambda: "GET /nothing/c" in agent.said())
    said = [line["message"].split()[1] for line in logged(agent) if (line["level"], line["target"]) == ("DEBUG", "agent_api::api")]
    expect([it for it in said if it != "/log"] == ['/nothing/a"\\', "/nothing/c"], f"a log of JSON has the requests {said}")


def check(program, agents, first, second):
    check_level(agents[0])
    check_requests(agents)
    check_unread(agents[0])
    check_full(program, first, second)
    check_words(agents)
