"""What a client is told by three agents, which scripts/rings runs."""
import contextlib
import http.server
import json
import os
import pickle
import threading
import unittest
from collections.abc import Callable, Iterator
from unittest import mock

from ringpop import AgentError, BadAnswer, BadKey, Client, Ring, Unreachable

Told = tuple[int, bytes, dict[str, str]]


@contextlib.contextmanager
def client_of(answer: Callable[[str], Told]) -> Iterator[Client]:
    """A client of a server that gives this answer to a request of a path."""

    class Server(http.server.BaseHTTPRequestHandler):
        def do_GET(self) -> None:
            status, body, fields = answer(self.path)
            self.send_response_only(status)
            for field in (*fields.items(), ("content-length", str(len(body)))):
                self.send_header(*field)
            self.end_headers()
            self.wfile.write(body)

        do_POST = do_GET

    with http.server.HTTPServer(("127.0.0.1", 0), Server) as server:
        threading.Thread(target=server.serve_forever, daemon=True).start()
        with Client(f"http://127.0.0.1:{server.server_port}") as client:
            yield client
        server.shutdown()


def told(*lasts: int, replicas: int = 100) -> Told:
    """What an agent tells of a ring, and of its members."""
    members = [{"address": f"10.0.0.{last}:7946", "weight": 1} for last in lasts]
    own = members[0]["address"]
    return 200, json.dumps({"own": own, "address": own, "replicas": replicas, "serving": members, "members": members}).encode(), {}


NOT_JOINED: Told = (503, b"no host has answered\n", {"x-ringpop-error": "not-joined", "retry-after": "1"})


class Asked(unittest.TestCase):
    def setUp(self) -> None:
        if "RINGPOP_AGENTS" not in os.environ:
            self.skipTest("RINGPOP_AGENTS names no agents: scripts/rings runs some")
        self.clients = [Client(f"http://{it}") for it in os.environ["RINGPOP_AGENTS"].split()]
        for client in self.clients:
            self.addCleanup(client.close)

    def test_the_owner_answers(self) -> None:
        key = "trip 42/ü%"
        answers = [client.request(key, "hello") for client in self.clients]
        self.assertEqual([(it.status, it.text.endswith(" hello"), it.text.startswith(f"{key}: ")) for it in answers], [(200, True, True)] * 3)
        self.assertEqual({it.owner for it in answers}, {self.clients[0].owner(key)})
        self.assertEqual(self.clients[0].request(key, b"status 418").status, 418)

    def test_owners_of_many_keys(self) -> None:
        keys = [f"trip-{i}" for i in range(5000)]
        ring = Ring.from_agent(self.clients[0].url)
        self.assertEqual(self.clients[1].owners(keys), [[ring.owner(key)] for key in keys])
        self.assertEqual(self.clients[1].owners(["a", b"b"], 2), [ring.owners("a", 2), ring.owners("b", 2)])
        self.assertEqual(self.clients[1].owners([]), [])
        long = [f"{i}" + "ü" * 400 for i in range(2000)]  # (more than a megabyte)
        self.assertEqual(self.clients[1].owners(long), [[ring.owner(key)] for key in long])
        with self.assertRaisesRegex(TypeError, "^give a list of keys, and not one key: 'trip'$"):
            self.clients[1].owners("trip")

    def test_watch_sees_a_node_leave_and_return(self) -> None:
        client = self.clients[2]
        rings = self.clients[0].watch()
        first = next(rings)
        self.assertEqual((len(first.serving), client.ring().own), (3, client.members()[2].address))
        client.leave()
        self.assertEqual([address for address, _ in next(rings).serving], [it.address for it in first.members[:2]])
        with self.assertRaises(AgentError) as told:
            client.leave()
        self.assertEqual((told.exception.status, told.exception.line), (409, "the node has left already"))
        client.rejoin()
        self.assertEqual(next(rings), first)
        rings.close()

    def test_refused(self) -> None:
        with self.assertRaises(AgentError) as told:
            self.clients[0].request("", "hello")
        self.assertEqual((told.exception.status, told.exception.line), (400, "bad key: not 1 to 1024 bytes of UTF-8"))
        self.assertEqual(pickle.loads(pickle.dumps(self.clients[0])).members(), self.clients[0].members())
        for size in 131_073, 1_048_577:
            with self.assertRaises(AgentError) as told:
                self.clients[0].request("trip", b"x" * size)
            self.assertEqual((told.exception.status, told.exception.name), (413, "long-body"))


class Alone(unittest.TestCase):
    def test_no_agent(self) -> None:
        with self.assertRaisesRegex(Unreachable, r"^no agent answers at http://127\.0\.0\.1:9: .*refused"):
            Client("http://127.0.0.1:9").owner("trip-42")

    def test_what_another_server_says(self) -> None:
        """A refusal keeps what the answer has: its line or else the words of its status, its name, and when to ask again."""
        wanted = [
            AgentError(503, "nobody serves", "no-member-serves", 1.0),
            AgentError(404, "Not Found"),
            AgentError(502, "the owner's application accepts no connection", "application-not-accepting"),
        ]
        line = b"the owner's application accepts no connection\n"
        answers: list[Told] = [
            (503, b"nobody serves\n", {"x-ringpop-error": "no-member-serves", "retry-after": "1"}),
            (404, b"", {}),
            (502, line, {"x-ringpop-error": "application-not-accepting", "x-ringpop-owner": "10.0.0.1:7946"}),
            (502, line, {"x-ringpop-owner": "10.0.0.1:7946"}),
            (200, b"[]", {}),
            (200, b'{"own":"10.0.0.1:7946","replicas":0,"serving":[]}', {}),
        ]
        with client_of(lambda _: answers.pop(0)) as client:
            for it in wanted:
                with self.assertRaises(AgentError) as said:
                    client.request("trip", b"x")
                self.assertEqual(said.exception, it)
                self.assertEqual(pickle.loads(pickle.dumps(said.exception)), it)
            self.assertEqual(client.request("trip", b"x").status, 502)  # (of the service)
            with self.assertRaisesRegex(BadAnswer, "members cannot be read"):
                client.members()
            with self.assertRaisesRegex(BadAnswer, "serving cannot be read"):
                client.ring()

    def test_a_ring_waits_until_the_hosts_were_asked(self) -> None:
        """The members that the agent holds before are itself alone."""
        with client_of(lambda path: told(1) if path == "/members" else NOT_JOINED) as client:
            for ask in client.ring, lambda: Ring.from_agent(client.url):
                with self.assertRaises(AgentError) as said:
                    ask()
                self.assertEqual((said.exception.status, said.exception.name), (503, "not-joined"))
            self.assertEqual(len(client.members()), 1)
        with client_of(lambda path: told(1, 2) if path == "/members" else (404, b"nothing at this path\n", {})) as client:
            self.assertEqual(len(client.ring()), 2)  # (an agent that knows no `GET /ring`)

    def test_watch_goes_on_after_each_failure(self) -> None:
        """And it asks for the whole ring then: all agents may have been started again with other replicas, which the digest does not tell."""
        first = [NOT_JOINED, (200, b"[]", {}), told(1, 2)]
        asked: list[str] = []

        def answer(path: str) -> Told:
            asked.append(path)
            if "after" not in path:
                return first.pop(0) if len(first) > 1 else first[0]
            if first[0] == told(1, 2):
                first[0] = told(1, 2, replicas=50)
                return 500, b"", {}
            return (304, b"", {}) if len(asked) < 20 else told(1)

        with mock.patch("ringpop._client.PAUSE", 0.01), client_of(answer) as client:
            rings = client.watch()
            self.assertEqual([(len(it.serving), it.replicas) for it in (next(rings), next(rings))], [(2, 100), (2, 50)])
            self.assertEqual(asked[:2], ["/ring", "/ring"])

    def test_what_a_client_refuses(self) -> None:
        client = Client("http://127.0.0.1:9")
        for key in b"\xff", "\ud800":
            with self.assertRaisesRegex(BadKey, "^a key is not UTF-8: "):
                client.owners(["a", key])
        for ask in client.owner, client.request, Ring([]).owner:
            with self.assertRaises(BadKey):
                ask("\ud800")
        with self.assertRaisesRegex(TypeError, "'str' object cannot be interpreted as an integer"):
            client.owners(["a"], "1&not-mine=1")  # type: ignore[arg-type]
        with self.assertRaisesRegex(TypeError, "^a body is str or bytes, and not NoneType: None$"):
            client.request("a", None)  # type: ignore[arg-type]

    def test_bad_urls(self) -> None:
        places = "http://127.0.0.1/keys", "http://127.0.0.1:99999", "http://127.0.0.1:x", "http://127.0.0.1:0", "http://127.0.0.1 b:1"
        for url in "127.0.0.1:7980", "https://127.0.0.1", "http://", *places:
            with self.assertRaisesRegex(ValueError, "^bad URL .*: give where an agent answers HTTP, as http://127.0.0.1:7980$"):
                Client(url)


if __name__ == "__main__":
    unittest.main()
