#!/usr/bin/env python3
"""A service that keeps each rider's trips where the rider's owner is, and hands them over when the ring changes: `store.py NODE AGENT`.

NODE is the address of the agent's node, AGENT where the agent answers HTTP. On SIGTERM it hands everything over before it ends. It needs the package
of python/: installed, or its folder in PYTHONPATH. docs/HANDOVER.md explains it.
"""
import json
import signal
import sys
import threading
from http.server import BaseHTTPRequestHandler, ThreadingHTTPServer

from ringpop import Client, HandOver, RingpopError


class Rider:
    """A rider has trips, and each of them once."""

    def __init__(self, _):
        self.trips = set()

    def do(self, body):
        """Adds a trip, if one is named; how many there are."""
        if trip := json.loads(body).get("trip"):
            self.trips.add(trip)
        return json.dumps({"trips": len(self.trips)}).encode()

    def state(self):
        return sorted(self.trips) or None

    def merge(self, trips):
        self.trips.update(trips)


class Store(BaseHTTPRequestHandler):
    protocol_version, wbufsize, log_message = "HTTP/1.1", -1, lambda *_: None

    def do_POST(self):
        status, text = hand_over.respond(self.path, self.rfile.read(int(self.headers["content-length"])))
        self.send_response_only(status)
        self.send_header("content-length", str(len(text)))
        self.end_headers()
        self.wfile.write(text)


class Server(ThreadingHTTPServer):
    request_queue_size, daemon_threads = 128, True


def service(node):
    """The service beside a node listens 200 above the node's port, so that services find one another."""
    host, port = node.split(":")
    return host, int(port) + 200


def main():
    server = Server(service(sys.argv[1]), Store)
    for work in (hand_over.run, server.serve_forever):
        threading.Thread(target=work, daemon=True).start()
    told = threading.Event()
    signal.signal(signal.SIGTERM, lambda *_: told.set())
    told.wait()
    try:
        sys.exit(0 if hand_over.leave() else f"the trips of {hand_over.left} riders are not handed over")
    except RingpopError as error:
        sys.exit(str(error))


hand_over = HandOver(Client(sys.argv[2]), sys.argv[1], service=lambda node: "http://{}:{}".format(*service(node)), new=Rider)
main()
