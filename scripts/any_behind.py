"""An agent whose service sends more than the answer over a connection that is kept, for `scripts/any-request`."""
import http.server
import itertools
import time

from agents import Playing, fetch, running, well
from nodes import expect

# bytes behind an answer, which come while the connection is kept
BEHIND = {
    "another answer": b"HTTP/1.1 200 OK\r\nContent-Length: 5\r\n\r\nwrong",
    "the end of a request": b"HTTP/1.1 408 Request Timeout\r\nContent-Length: 0\r\nConnection: close\r\n\r\n",
    "a body of a HEAD": b"5\r\nwrong\r\n0\r\n\r\n",
}
# how long after the answer they come, in seconds
LATE = 0.1


class Talking(Playing):
    """An agent whose service answers with the target, and to a request with X-Behind with those bytes as well."""

    def start_application(self):
        class Service(http.server.BaseHTTPRequestHandler):
            protocol_version = "HTTP/1.1"

            def any(self):
                self.rfile.read(int(self.headers.get("content-length", 0)))
                self.send_response_only(200)
                self.send_header("Content-Length", str(len(self.path)))
                self.end_headers()
                self.wfile.write(self.path.encode() if self.command != "HEAD" else b"")
                if behind := self.headers.get("x-behind"):
                    time.sleep(LATE)
                    self.wfile.write(BEHIND[behind])

            do_GET = do_HEAD = do_PUT = do_POST = any

            def log_message(self, *_):
                pass

        self.serve(Service)


def answer(agent, method, target, fields={}):
    return fetch(agent.http, method, target, b"x" if method in ("PUT", "POST") else None, {"X-A": "1", **fields})[:2]


def check_behind(program, port):
    """No bytes that a service sends behind an answer become the answer of another request."""
    with running(program, port, kind=Talking, more=("--any-request",), until=well) as (agent,):
        for behind, first, method in itertools.product(BEHIND, ("GET", "HEAD"), ("GET", "PUT", "POST")):
            answer(agent, first, "/keys/a/first", {"X-Behind": behind})
            time.sleep(3 * LATE)
            for number in range(3):
                target = f"/keys/a/{method}-{number}"
                told = answer(agent, method, target)
                expect(told == (200, target.encode()), f"{method} {target} is answered {told} after {behind} came behind the answer to a {first}")
