"""Requests that two readers may read in two ways, and what comes of each at an agent with --any-request, for `scripts/any-request`.

Each row has requests in bytes, the statuses of the answers to one of them, and the targets that the service is asked for. FRONT is below a key, and
EVIL is a request that stands in a body or behind one: what asks for it, or gives the service a field `X-Evil`, was smuggled.
"""
import json
import re

from nodes import Wrong, hears

FRONT = b"POST /keys/a/front HTTP/1.1\r\nHost: x\r\n"
EVIL = b"GET /keys/a/evil HTTP/1.1\r\nHost: x\r\n\r\n"
EMPTY = b"Content-Length: 0\r\n\r\n"
CHUNKED = b"Transfer-Encoding: chunked\r\n"
END = b"0\r\n\r\n"


def lengths(*values):
    return [b"%sContent-Length: %s\r\n\r\nhello" % (FRONT, value) for value in values]


def codings(*values):
    return [b"%sTransfer-Encoding: %s\r\n\r\n%s%s" % (FRONT, value, END, EVIL) for value in values]


def chunks(*bodies):
    return [b"%s%s\r\n%s%s" % (FRONT, CHUNKED, body, EVIL) for body in bodies]


def fields(*lines):
    return [b"%s%s\r\n%s" % (FRONT, line, EMPTY) for line in lines]


def heads(*lines):
    return [b"%s\r\nHost: x\r\n%s" % (line, EMPTY) for line in lines]


def hosts(*values):
    return [b"POST /keys/a/front HTTP/1.1\r\nHost: %s\r\n%s" % (value, EMPTY) for value in values]


def targets(*paths):
    """A row for each path that is passed on as it is."""
    return [(heads(b"POST %s HTTP/1.1" % path), [200], [path.decode()]) for path in paths]


def told_of(data):
    return b"%sContent-Length: %d\r\n\r\n%s" % (FRONT, len(data), data)


BOTH = ["/keys/a/front", "/keys/a/evil"]
ROWS = [
    # a length and chunks, or two lengths
    ([FRONT + b"Content-Length: 4\r\n" + CHUNKED + b"\r\n" + END + EVIL, FRONT + CHUNKED + b"Content-Length: 0\r\n\r\n" + END + EVIL,
      FRONT + b"Content-Length: 5\r\nContent-Length: 6\r\n\r\nhello!"], [400], []),
    # lengths
    (lengths(b"5, 5", b"5,6", b"+5", b"-5", b"0x5", b"1e1", b"", b"5;", b"5.0", b"5 5", b"\x0b5", b"5\x00", b"9" * 20), [400], []),
    ([FRONT + b"Content-Length : 5\r\n\r\nhello", FRONT + b"Content-Length\t: 5\r\n\r\nhello"], [400], []),
    (lengths(b"5 ", b"\t5", b"05", b"5\r\nContent-Length: 5"), [200], BOTH[:1]),
    # a path that the agent's own client does not write: the service is not asked
    (heads(b"POST /keys/a/front\xc3\xbc HTTP/1.1"), [502], []),
    # codings
    (codings(b"", b"identity", b"xchunked", b'"chunked"', b"chunked;q=1", b"chunked,", b"chunked, identity", b"chunked, chunked", b"\x0bchunked",
             b"chunked\x0b", b"chunked\x00", b"chu\nked", b"chunked\r\nTransfer-Encoding: identity", b"chunked\r\nTransfer-Encoding: chunked"), [400], []),
    (codings(b"gzip, chunked", b"identity, chunked"), [501], []),
    ([FRONT + b"Transfer-Encoding : chunked\r\n\r\n" + END + EVIL, FRONT + b"Transfer-Encoding:\r\n chunked\r\n\r\n" + END + EVIL,
      FRONT.replace(b"1.1", b"1.0") + CHUNKED + b"\r\n" + END + EVIL], [400], []),
    (codings(b"chunked", b"\tChunked", b",chunked"), [200, 200], BOTH),
    # chunks
    (chunks(b"-1\r\na\r\n" + END, b"+1\r\na\r\n" + END, b"0x1\r\na\r\n" + END, b" 1\r\na\r\n" + END, b"\r\na\r\n" + END, b"g\r\na\r\n" + END,
            b"1\na\r\n" + END, b"1;e\na\r\n" + END, b"1\r\ra\r\n" + END, b'1;e="\n"\r\na\r\n' + END, b"1\r\nab\r\n" + END, b"1\r\na" + END,
            b"1\r\na\n" + END, b"1\r\na\r\n0\n\n", b"1\r\na\r\n0\r\n\n", b"1\r\na\r\n0\r\n folded\r\n\r\n", b"f" * 17 + b"\r\na\r\n" + END,
            b"10000000000000001\r\na\r\n" + END), [400], []),
    (chunks(b"01\r\na\r\n" + END, b"1 \r\na\r\n" + END, b"1;e\r\na\r\n" + END, b"1\r\na\r\n0\r\nX-Evil: 1\r\nContent-Length: 9\r\n\r\n"), [200, 200], BOTH),
    # fields
    (fields(b"X-A: 1\r\n folded", b"X-A: 1\r\n\tfolded", b"X-A: a\nX-Evil: 1", b"X-A: a\rX-Evil: 1", b"X-A: a\x00b", b"X-A: \x7f", b"X A: 1", b"X-A : 1",
            b": 1", b"X-A", b"X-A\xe9: 1", b"X-(A): 1", b"\x00X: 1", b"Host: y", b"host: x"), [400], []),
    ([b"POST /keys/a/front HTTP/1.1\r\n X-A: 1\r\nHost: x\r\n" + EMPTY, FRONT.replace(b"\r\n", b"\n") + b"Content-Length: 0\n\n",
      FRONT.replace(b"\r\n", b"\r") + b"\r\r", FRONT + b"Content-Length: 0\r\n\n" + EVIL, b"\n" + FRONT + EMPTY], [400], []),
    (fields(*(b"Connection: %s\r\nX-Ringpop-Owner: evil" % name for name in (b"X-Ringpop-Key", b"Host, Content-Length", b"X-Ringpop-Owner, close"))),
     [200], BOTH[:1]),
    ([FRONT + b"Connection: X-Evil\r\nX-Evil: 1\r\n" + EMPTY], [200], BOTH[:1]),
    # hosts
    ([FRONT.replace(b"Host: x\r\n", b"") + EMPTY, *hosts(b"x y", b"x, y", b"u@x", b"x/evil", b"x:a", b"[::1", b"x\x00", b"\xc3\xbc")], [400], []),
    # first lines
    (heads(b"POST  /keys/a/front HTTP/1.1", b"POST\t/keys/a/front\tHTTP/1.1", b"POST /keys/a/front HTTP/1.1 ", b" POST /keys/a/front HTTP/1.1",
           b"POST /keys/a/fr ont HTTP/1.1", b"POST /keys/a/front\x0bHTTP/1.1", b"POST /keys/a/front\x01 HTTP/1.1", b"POST /keys/a/front http/1.1",
           b"POST /keys/a/front HTTP/0.9", b"POST /keys/a/front HTTP/1.2", b"POST /keys/a/front HTTP/2.0", b"POST /keys/a/front",
           b"P(ST /keys/a/front HTTP/1.1", b"POST keys/a/front HTTP/1.1"), [400], []),
    (heads(b"POST /%6beys/a/front HTTP/1.1", b"POST //keys/a/front HTTP/1.1", b"OPTIONS * HTTP/1.1", b"CONNECT x:80 HTTP/1.1"), [404], []),
    (heads(b"POST http://x/keys/a/front HTTP/1.1", b"POST HTTPS://x:80/keys/a/front HTTP/1.1"), [200], BOTH[:1]),
    (heads(b"CONNECT /keys/a/front HTTP/1.1") + fields(b"Upgrade: websocket"), [501], []),
    ([FRONT + b"Connection: Upgrade, HTTP2-Settings\r\nUpgrade: h2c\r\nHTTP2-Settings: AAMAAABkAAQAAP__\r\n" + EMPTY + EVIL], [501, 200], BOTH[1:]),
    *targets(b"/keys/a%0d%0aX-Evil:%201/front", b"/keys/a%0D%0A%0D%0AGET%20/front", b"/keys/a%00/front", b"/keys/a/front%0d%0aX-Evil:1",
             b"/keys/a/front?q=%0d%0aX-Evil:1", b"/keys/../stop", b"/keys/a/../../stop", b"/keys/a/%2e%2e/stop", b"/keys/a\\..\\stop"),
    # a request as a body
    ([told_of(EVIL), told_of(EVIL).replace(b"POST", b"GET"), told_of(EVIL).replace(b"POST", b"HEAD")], [200], BOTH[:1]),
    (chunks(b"%x\r\n%s\r\n%s" % (len(EVIL), EVIL, END)), [200, 200], BOTH),
]


def check_smuggled(at, key, log):
    """Has an agent answer each request of the rows, below a key of one letter; the services append to the log what they are asked for."""
    host, port = at.split(":")
    for requests, statuses, asked in ROWS:
        for data in requests:
            data, seen = data.replace(b"/keys/a", b"/keys/" + key.encode()), len(log.read_text().splitlines())
            came = hears(int(port), data, 10, True, host)
            told = [json.loads(it) for it in re.findall(rb'{"method".*}', came)]
            names = [name for it in told for name, _ in it["fields"]]
            performed = [line.split(" ", 1)[1] for line in log.read_text().splitlines()[seen:]]
            if ([int(it) for it in re.findall(rb"HTTP/1\.1 (\d{3}) ", came)] != statuses or performed != [it.replace("/keys/a", f"/keys/{key}") for it in asked]
                    or {"x-evil", "x-ringpop-owner"} & {*names} or names.count("x-ringpop-key") != len(told)):
                raise Wrong(f"{data} is answered {came[:300]}, and the service was asked for {performed}, with {told}")
