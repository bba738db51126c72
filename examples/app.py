#!/usr/bin/env python3
"""A service that counts the requests of each key: `app.py PORT`, behind `ringpop agent --app 127.0.0.1:PORT ..`."""
import sys, threading, time
from http.server import BaseHTTPRequestHandler, ThreadingHTTPServer
from urllib.parse import unquote

counts, lock = {}, threading.Lock()

class App(BaseHTTPRequestHandler):
    protocol_version, wbufsize = "HTTP/1.1", -1  # connections are kept, and answers sent at once

    def do_POST(self):
        if not self.path.startswith("/keys/"):
            return self.send_error(404)
        key = unquote(self.path.removeprefix("/keys/"))
        body = self.rfile.read(int(self.headers.get("content-length", 0))).decode()
        time.sleep(2 if body == "slow" else 0)
        with lock:
            counts[key] = counts.get(key, 0) + 1
            text = f"{key}: {counts[key]} {body}".encode()
        self.send_response_only(int(body[7:]) if body.startswith("status ") else 200)
        self.send_header("content-length", str(len(text)))
        self.end_headers()
        self.wfile.write(text)

    def log_message(self, *_):
        pass

ThreadingHTTPServer.request_queue_size, ThreadingHTTPServer.daemon_threads = 128, True
ThreadingHTTPServer(("127.0.0.1", int(sys.argv[1])), App).serve_forever()
