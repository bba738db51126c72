#!/usr/bin/env python3
"""A service that knows nothing of agents: `any_service.py PORT`. It answers any method at any path. `../files/NAME` keeps bodies,
`../status/N` answers with a status, `../cookies` with fields that repeat, `../chunks` in chunks, `../hang/N` after N seconds, and anything
else with what it was sent: the method, the target, the fields and the body's sum. It prints the method and the target of each request.
"""
import hashlib
import json
import sys
import threading
import time
from http.server import BaseHTTPRequestHandler, ThreadingHTTPServer

FILES, LOCK = {}, threading.Lock()


class Service(BaseHTTPRequestHandler):
    protocol_version, wbufsize = "HTTP/1.1", -1

    def handle_expect_100(self):
        super().handle_expect_100()
        self.wfile.flush()
        return True

    def body(self):
        """The body, of a length or in chunks."""
        if self.headers.get("transfer-encoding") != "chunked":
            return self.rfile.read(int(self.headers.get("content-length", 0)))
        body = b""
        while size := int(self.rfile.readline().split(b";")[0], 16):
            body += self.rfile.read(size)
            self.rfile.readline()
        while self.rfile.readline() != b"\r\n":
            pass
        return body

    def files(self, name, body):
        if self.command == "PUT":
            fresh, FILES[name] = name not in FILES, body
            return self.tell(201 if fresh else 200, b"kept", [("Location", self.path)])
        if self.command == "DELETE":
            return self.tell(404 if FILES.pop(name, None) is None else 204, b"")
        if name not in FILES:
            return self.tell(404, b"<p>none</p>", [("Content-Type", "text/html")])
        tag = f'"{hashlib.sha256(FILES[name]).hexdigest()[:8]}"'
        if self.headers.get("if-none-match") == tag:
            return self.tell(304, b"", [("ETag", tag), ("Vary", "Accept, Cookie")])
        return self.tell(200, FILES[name], [("Content-Type", "application/octet-stream"), ("ETag", tag)])

    def any(self):
        body, parts = self.body(), self.path.split("?")[0].split("/")
        with LOCK:
            print(f"{self.command} {self.path}\n", end="", flush=True)
            if "files" in parts:
                return self.files(self.path, body)
        if "hang" in parts:
            time.sleep(float(parts[-1]))
        if "status" in parts:
            return self.tell(int(parts[-1]), b"" if parts[-1] in ("204", "205", "304") else b'{"a":1}', [("WWW-Authenticate", 'Basic realm="x"')])
        if "cookies" in parts:
            return self.tell(200, b"c", [("Set-Cookie", "a=1; Path=/"), ("X-Odd", "caf\xe9"), ("Set-Cookie", "b=2")])
        if "chunks" in parts:
            return self.tell(200, body + b"end", chunked=True)
        fields = sorted((name.lower(), value) for name, value in self.headers.items())
        told = {"method": self.command, "target": self.path, "fields": fields, "length": len(body), "sum": hashlib.sha256(body).hexdigest()}
        return self.tell(200, json.dumps(told).encode(), [("Content-Type", "application/json")])

    def tell(self, status, body, fields=(), chunked=False):
        self.send_response_only(status)
        for name, value in fields:
            self.send_header(name, value)
        if chunked:
            self.send_header("Transfer-Encoding", "chunked")
            body = b"".join(b"%x\r\n%s\r\n" % (len(part), part) for part in (body[:3], body[3:]) if part) + b"0\r\n\r\n"
        elif status not in (204, 304):
            self.send_header("Content-Length", str(len(body)))
        self.end_headers()
        if self.command != "HEAD":
            self.wfile.write(body)

    def __getattr__(self, name):
        if name.startswith("do_"):
            return self.any
        raise AttributeError(name)

    def log_message(self, *_):
        pass


class Server(ThreadingHTTPServer):
    request_queue_size, daemon_threads = 128, True


Server(("127.0.0.1", int(sys.argv[1])), Service).serve_forever()
