"""Requests that another node passes on whole, for `scripts/agent forms`: each is a Forward that this script sends itself.

A Forward whose text is a whole request reaches the service unchanged: method, path, fields and a binary body; its answer comes back with its
status, its fields and its body. Each other text reaches it as a body, a client's that looks so too.
"""
import base64
import json
import sys

from agents import running, well
from nodes import ROOT, Wrong, call, expect, request

SERVICE = (sys.executable, f"{ROOT}/scripts/any_service.py")
BINARY = bytes(range(256)) * 40
# what a service gets, and what it answers with: the method, the target, the fields and the body of each
ASKED = [
    ("PUT", "/keys/k/files/a?b=1", [("host", "shop.example"), ("content-type", "image/png")], BINARY),
    ("GET", "/keys/k/files/a?b=1", [("host", "shop.example")], b""),
    ("HEAD", "/keys/k/files/a?b=1", [("host", "shop.example")], b""),
    ("DELETE", "/other/path/files/none", [("host", "x"), ("x-empty", "")], b""),
    ("PROPFIND", "/keys/k/status/404", [("host", "x")], b"\x00\xff"),
    ("POST", "/keys/k/cookies", [("host", "x"), ("x-many", "1"), ("x-many", "2")], b"a"),
    ("PATCH", "/keys/k/chunks", [("host", "x")], BINARY),
    ("OPTIONS", "/keys/k/status/204", [("host", "x")], b""),
]


def packed(parts):
    """The text of parts: each is its length in eight bytes and its bytes."""
    return "\x03" + base64.b64encode(b"".join(len(part).to_bytes(8, "big") + part for part in parts)).decode()


def unpacked(text):
    """The parts of a text; none if it is not that of parts."""
    if not text.startswith("\x03"):
        return []
    data, parts = base64.b64decode(text[1:], validate=True), []
    while data:
        size = 8 + int.from_bytes(data[:8], "big")
        parts, data = [*parts, data[8:size]], data[size:]
    return parts


def told(agent, text):
    answer = call(agent.port, request("k", text))
    expect(answer and answer["kind"] == "reply", f"a Forward is answered {answer}")
    return answer["body"]


def ask(agent, method, target, fields, body):
    """The status, the body and the fields of the answer to a request that is passed on whole."""
    flat = [part.encode("latin-1") for field in fields for part in field]
    parts = unpacked(told(agent, packed([method.encode(), target.encode(), body, *flat])))
    expect(len(parts) >= 2 and not len(parts) % 2, f"{method} {target} is answered {parts}")
    named = [part.decode("latin-1") for part in parts[2:]]
    return int(parts[0]), parts[1], list(zip(named[::2], named[1::2]))


def check_asked(agent):
    """A service gets each request unchanged, and so does its answer come back."""
    answers = [ask(agent, *asked) for asked in ASKED]
    expect([answer[0] for answer in answers] == [201, 200, 200, 404, 404, 200, 200, 204], f"the statuses are {[answer[0] for answer in answers]}")
    for number, body in ((0, b"kept"), (1, BINARY), (2, b""), (5, b"c"), (6, BINARY + b"end"), (7, b"")):
        expect(answers[number][1] == body, f"{ASKED[number][:2]} is answered {answers[number]}")
    for number, field in ((0, ("location", "/keys/k/files/a?b=1")), (2, ("content-length", str(len(BINARY)))), (4, ("www-authenticate", 'Basic realm="x"'))):
        expect(field in answers[number][2], f"{ASKED[number][:2]} is answered the fields {answers[number][2]}")
    cookies = [field for field in answers[5][2] if field[0] in ("set-cookie", "x-odd")]
    expect(cookies == [("set-cookie", "a=1; Path=/"), ("x-odd", "caf\xe9"), ("set-cookie", "b=2")], f"fields that repeat come back as {cookies}")
    status, body, _ = ask(agent, "QUERY", "/keys/k/?q", [("host", "h"), ("cookie", "a=1")], BINARY)
    got = json.loads(body)
    if (status, got["method"], got["target"], got["length"]) != (200, "QUERY", "/keys/k/?q", len(BINARY)) or ["cookie", "a=1"] not in got["fields"]:
        raise Wrong(f"a service was asked {got}")


def check_bodies(agent):
    """A text that is a body reaches the service as one, also if it starts as a whole request does."""
    for text, length in (("hello", 5), (packed([b"\x03hello"]), 6), ("\x03hello", 6), (packed([b"DELETE", b"/", b"", b"odd"]), None)):
        got = json.loads(told(agent, text)[5:])
        if (got["method"], got["target"]) != ("POST", "/keys/k") or got["length"] != (length or len(text)):
            raise Wrong(f"the text {text} reached the service as {got}")
    status, body = agent.ask("POST", "/keys/k", packed([b"DELETE", b"/", b""]))
    got = json.loads(body)
    expect(status == 200 and (got["method"], got["target"]) == ("POST", "/keys/k"), f"a client's body reached the service as {got}")


def check_down(agent):
    """A service that is down is told in the same form, with a field that says so."""
    agent.stop_application()
    word, line = "application-not-accepting", "the owner's application accepts no connection"
    as_json = json.dumps({"error": word, "message": line}, separators=(",", ":"))
    for accept, kind, text in (("*/*", "text/plain; charset=utf-8", line), ("text/html, application/json", "application/json", as_json)):
        status, body, fields = ask(agent, "GET", "/keys/k", [("host", "x"), ("accept", accept)], b"")
        if (status, body.decode()) != (502, text + "\n") or not {("x-ringpop-error", word), ("content-type", kind)} <= set(fields):
            raise Wrong(f"a service that is down is told as {status} {body} {fields}")


def check(program, port):
    with running(program, port, app=SERVICE, until=well) as (agent,):
        check_asked(agent)
        check_bodies(agent)
        check_down(agent)
