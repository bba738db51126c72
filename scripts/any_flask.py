"""What any_service.py is, in Flask, with Flask's own server, which speaks HTTP/1.0: `any_flask.py PORT`."""
import hashlib
import json
import logging
import sys
import time

import flask.cli
from flask import Flask, Response, request

app, files = Flask(__name__), {}
logging.getLogger("werkzeug").disabled = True
flask.cli.show_server_banner = lambda *_: None


def keep(name, body):
    if request.method == "PUT":
        fresh, files[name] = name not in files, body
        return Response(b"kept", 201 if fresh else 200, {"Location": name})
    if request.method == "DELETE":
        return Response(status=404 if files.pop(name, None) is None else 204)
    if name not in files:
        return Response("<p>none</p>", 404)
    answer = Response(files[name], content_type="application/octet-stream")
    answer.add_etag()
    return answer.make_conditional(request)


@app.before_request
def any_request():
    body, target = request.get_data(), request.environ["REQUEST_URI"]
    parts = target.split("?")[0].split("/")
    print(f"{request.method} {target}\n", end="", flush=True)
    if "files" in parts:
        return keep(target, body)
    if "hang" in parts:
        time.sleep(float(parts[-1]))
    if "status" in parts:
        return Response(b"" if parts[-1] in ("204", "205", "304") else b'{"a":1}', int(parts[-1]), {"WWW-Authenticate": 'Basic realm="x"'})
    if "cookies" in parts:
        return Response(b"c", headers=[("Set-Cookie", "a=1; Path=/"), ("X-Odd", "caf\xe9"), ("Set-Cookie", "b=2")])
    if "chunks" in parts:
        return Response(iter((body, b"end")))
    fields = sorted((name.lower(), value) for name, value in request.headers)
    told = {"method": request.method, "target": target, "fields": fields, "length": len(body), "sum": hashlib.sha256(body).hexdigest()}
    return Response(json.dumps(told), content_type="application/json")


app.run("127.0.0.1", int(sys.argv[1]), threaded=True)
