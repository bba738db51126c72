#!/usr/bin/env python3
"""A service for scripts: `slow_app.py PORT`. It takes as many seconds for a request as its body says, answers the body `bad` by bytes that
are not UTF-8, and tells at `GET /` how often each path was asked for.
"""
import collections
import json
import sys
import threading
import time
from http.server import BaseHTTPRequestHandler, ThreadingHTTPServer

COUNTS, LOCK = collections.Counter(), threading.Lock()


class Service(BaseHTTPRequestHandler):
    protocol_version, wbufsize = "HTTP/1.1", -1

    def do_POST(self):
        body = self.rfile.read(int(self.headers.get("content-length", 0))).decode()
        with LOCK:
            COUNTS[self.path] += 1
        if body == "bad":
            return self.tell(b"\xff")
        time.sleep(float(body))
        self.tell(body.encode())

    def do_GET(self):
        with LOCK:
            self.tell(json.dumps(COUNTS).encode())

    def tell(self, text):
        self.send_response_only(200)
        self.send_header("content-length", str(len(text)))
        self.end_headers()
        self.wfile.write(text)

    def log_message(self, *_):
        pass


ThreadingHTTPServer.request_queue_size, ThreadingHTTPServer.daemon_threads = 256, True
ThreadingHTTPServer(("127.0.0.1", int(sys.argv[1])), Service).serve_forever()
