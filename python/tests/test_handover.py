"""State follows its keys from service to service. The agents are played: all know of a change at once."""
import http.server
import json
import threading
import time
import unittest
import unittest.mock
from urllib.parse import unquote

from ringpop import Client, HandOver, Member, Ring


class Tally:
    """A set of words: each request adds its body, and the answer is how many there are."""

    def __init__(self, _: str) -> None:
        self.words: set[str] = set()

    def do(self, body: bytes) -> bytes:
        if body == b"bad":
            raise ValueError("a bad word")
        self.words.add(body.decode())
        return str(len(self.words)).encode()

    def state(self) -> "list[str] | None":
        return sorted(self.words) or None

    def merge(self, state: "list[str]") -> None:
        self.words.update(state)


def served(answer) -> str:
    """The URL of a server that answers a path and a body with a status, a body and fields."""

    class Handler(http.server.BaseHTTPRequestHandler):
        protocol_version, wbufsize, log_message = "HTTP/1.1", -1, lambda *_: None

        def do_POST(self) -> None:
            status, text, fields = answer(self.path, self.rfile.read(int(self.headers["content-length"] or 0)))
            self.send_response_only(status)
            for name, value in {**fields, "content-length": str(len(text))}.items():
                self.send_header(name, value)
            self.end_headers()
            self.wfile.write(text)

        do_GET = do_POST

    server = http.server.ThreadingHTTPServer(("127.0.0.1", 0), Handler)
    server.daemon_threads, server.handle_error = True, lambda *_: None  # (a client may have gone)
    threading.Thread(target=server.serve_forever, daemon=True).start()
    return f"http://127.0.0.1:{server.server_address[1]}"


class Town:
    """Nodes with a service and an agent each."""

    def __init__(self) -> None:
        self.members: list[Member] = []
        self.urls: dict[str, str] = {}

    def join(self) -> HandOver:
        own = f"10.0.0.{len(self.members) + 1}:7946"
        over = HandOver(Client(served(lambda path, body: self.agent(own, path, body))), own, service=self.urls.get, new=Tally)
        self.urls[own] = served(lambda path, body: (*over.respond(path, body), {}))
        threading.Thread(target=over.run, daemon=True).start()
        self.members = [*self.members, Member(own)]
        return over

    def agent(self, own: str, path: str, body: bytes):
        """Answers for the agent of a node."""
        ring = Ring(self.members)
        if path == "/leave":
            self.members = [it._replace(status="leave") if it.address == own else it for it in self.members]
            return 200, b"left\n", {}
        if path == "/members":
            members = [{"address": it.address, "status": it.status, "incarnation": 0, "weight": 1} for it in ring.members]
            return 200, json.dumps({"address": own, "digest": str(ring.members), "replicas": 100, "members": members}).encode(), {}
        if path.startswith("/ring"):
            while f"after={ring.digest}&" in path:
                time.sleep(0.05)
                ring = Ring(self.members)
            serving = [{"address": address, "weight": weight} for address, weight in ring.serving]
            return 200, json.dumps({"own": own, "replicas": 100, "serving": serving}).encode(), {}
        owner = ring.owner(unquote(path[len("/keys/"):]))
        if owner is None:
            return 503, b"nobody serves\n", {}
        return *asked(self.urls[owner], path, body), {"x-ringpop-owner": owner}


def asked(url: str, path: str, body: bytes):
    with Client(url) as client:
        answer = client._ask("POST", path, body)
        return answer.status, answer.body


def holds(over: HandOver) -> int:
    """How many keys a node keeps some state of."""
    with over._lock:
        return sum(it.kept.state() is not None for it in over._held.values())


class Handed(unittest.TestCase):
    def asks(self, over: HandOver, keys: "list[str]", body: str, wanted: int) -> None:
        """Has a word added to keys, and each answer has to be this number."""
        self.assertEqual([over.client.request(key, body).text for key in keys], [str(wanted)] * len(keys))

    def within(self, seconds: float, is_so) -> None:
        end = time.monotonic() + seconds
        while not is_so():
            self.assertLess(time.monotonic(), end)
            time.sleep(0.05)

    def test_state_follows_its_keys(self) -> None:
        town, keys = Town(), ["/ü%?", *(f"trip-{i}" for i in range(60))]
        one, two = town.join(), town.join()
        before = Ring(town.members)
        self.asks(one, keys, "first", 1)
        three = town.join()
        self.asks(two, keys, "second", 2)  # (before all is handed over)
        moved = len(Ring(town.members).moved(keys, before))
        self.within(20, lambda: (holds(three), holds(one) + holds(two)) == (moved, len(keys) - moved))
        self.assertTrue(moved and three.leave())
        self.assertEqual((holds(three), three.left), (0, 0))
        self.asks(one, keys, "third", 3)

    def test_requests_that_come_to_a_node_that_is_no_owner(self) -> None:
        """As by older rings of other nodes: none is lost from sight, and in the end the owner has all."""
        town = Town()
        one, two = town.join(), town.join()
        for count in range(1, 31):
            to = (one, two, two)[count % 3].own
            self.assertEqual(asked(town.urls[to], "/keys/trip-1", str(count).encode()), (200, str(count).encode()))
            time.sleep(count % 4 * 0.05)
        other = two if Ring(town.members).owner("trip-1") == one.own else one
        self.within(20, lambda: not holds(other))
        self.asks(one, ["trip-1"], "last", 31)

    def test_a_service_that_does_not_answer(self) -> None:
        """One that is slow may have what was acknowledged, so nothing is answered without it; one that is gone has nothing."""
        town = Town()
        one, two = town.join(), town.join()
        key = next(key for key in map(str, range(1000)) if Ring(town.members).owner(key) == one.own)
        town.urls[two.own] = served(lambda path, body: (time.sleep(1) or 200, b"{}", {}))
        with unittest.mock.patch("ringpop._handover.PATIENCE", 0.3):
            self.assertEqual(one.client.request(key, "first").status, 503)
        town.urls[two.own] = "http://127.0.0.1:9"
        self.asks(one, [key], "first", 1)

    def test_what_is_refused(self) -> None:
        over = Town().join()
        self.asks(over, ["trip-1"], "first", 1)
        for path, body, status in (
            ("/keys/trip-1", b"bad", 400),
            ("/keys/trip-1", b'{"merge":["first"],"by":"10.0.0.9:7946"}', 200),
            ("/moved", b'{"by":"10.0.0.9:7946"}', 404),
            ("/take", b'{"key":"trip-1"}', 404),
            ("/take", b'{"key":"trip-1","by":"10.0.0.09:7946"}', 404),
        ):
            self.assertEqual(over.respond(path, body)[0], status, (path, body))
        self.assertEqual((over.leave(2), over.left), (False, 1))  # (nobody serves)
