"""What an agent answers over HTTP."""
from __future__ import annotations

import http.client
import json
import threading
import time
from collections.abc import Iterable, Iterator, Mapping
from operator import index
from typing import Any, NamedTuple
from urllib.parse import quote, urlsplit

from ._errors import AgentError, BadAnswer, BadKey, RingpopError, Unreachable
from ._ring import Member, Ring, Text, encoded

IDLE = 20.0
"""Seconds after which a kept connection is not used again: an agent closes one that is idle for 30."""
MOST_KEYS = 4096
"""Keys that an agent names the owners of in one request, at most."""
MOST_BYTES = 1_000_000
"""Bytes of JSON in one request for owners, at most; an agent takes 1,048,576."""
MOST_BODY = 1 << 20
"""Bytes of a body that an agent reads at most: it closes a connection over which more are announced. Of a key's request it takes 131,072."""
PAUSE = 1.0
"""Seconds before `watch` asks an agent again that gave no ring."""


class Answer(NamedTuple):
    """What the service of a key's owner answered."""

    status: int
    body: bytes
    owner: str | None
    headers: Mapping[str, str]

    @property
    def text(self) -> str:
        return self.body.decode()


class Client:
    """Asks an agent over HTTP. It may be shared between threads: each has a connection of its own, which is kept.

    Each call raises Unreachable if no agent answers, and AgentError with the agent's own line if it refuses. After its agent restarted a thread's next
    call may raise Unreachable once, since the kept connection has ended.
    """

    def __init__(self, url: str = "http://127.0.0.1:7980", *, timeout: float = 60.0) -> None:
        """Makes a client of the agent at this URL. A request may take `timeout` seconds, connecting included: after a crash one for a key takes nine.

        Raises ValueError if the URL is not `http://HOST:PORT`.
        """
        parts = urlsplit(url)
        try:
            self._port = 80 if parts.port is None else parts.port
        except ValueError:
            self._port = 0  # (past 65,535, or no number)
        if parts.scheme != "http" or not parts.hostname or " " in parts.netloc or not self._port or parts.path.strip("/") or parts.query:
            raise ValueError(f"bad URL {url!r}: give where an agent answers HTTP, as http://127.0.0.1:7980")
        self.url, self.timeout = f"http://{parts.netloc}", timeout
        self._host = parts.hostname
        self._mine = threading.local()

    def request(self, key: Text, body: Text = b"", *, method: str = "POST", headers: Mapping[str, str] | None = None) -> Answer:
        """Has the service of the key's owner answer, and returns its answer, whatever its status.

        Raises AgentError if the service gave no answer, too: its status is 502 then, and its name says why (HTTP.md). A request may be done twice,
        and may have been done after an error (AGENT.md): give what may not be repeated an id. An agent that passes on no method but POST refuses
        another one, and drops the headers.
        """
        answer = self._ask(method, _path("/keys/", key), body, headers)
        if answer.owner is None or "x-ringpop-error" in answer.headers:
            raise _refusal(answer)
        return answer

    def owner(self, key: Text) -> str | None:
        """The address of the key's owner, as the agent sees it now; None if no member serves."""
        answer = self._ask("GET", _path("/owner/", key))
        return None if _is_nobody(answer) else self._json(answer)["owners"][0]

    def owners(self, keys: Iterable[Text], n: int = 1) -> list[list[str]]:
        """The first n owners of each key, the owner first, in the order of the keys; empty lists if no member serves.

        Those of each request are of one moment: 4,096 keys, or some megabyte of them. An agent that knows no `POST /owners` is asked for its ring instead.
        Raises BadKey for a key that is not UTF-8.
        """
        if isinstance(keys, (str, bytes)):
            raise TypeError(f"give a list of keys, and not one key: {keys!r}")
        wanted, found = [_text(key) for key in keys], []
        for part in _parts(wanted):
            answer = self._ask("POST", f"/owners?n={index(n)}", json.dumps(part, ensure_ascii=False).encode())
            if answer.status in (404, 405):
                ring = self.ring()
                return [ring.owners(key, n) for key in wanted]
            found += [[] for _ in part] if _is_nobody(answer) else self._json(answer)["owners"]
        return found

    def members(self) -> list[Member]:
        """The members that the agent holds, ascending by address, those that do not serve included."""
        return list(self._all().members)

    def ring(self) -> Ring:
        """The ring of the members that serve, as the agent sees it now. Raises AgentError with 503 until the agent has asked its hosts."""
        answer = self._ask("GET", "/ring")
        if answer.status == 404:  # (an agent that knows no `GET /ring`)
            return self._all()
        return self._ring(self._json(answer), "serving")

    def watch(self, ring: Ring | None = None, *, wait: float = 30.0) -> Iterator[Ring]:
        """The ring now, unless it equals the one that is given, and from then on each other ring.

        It has no end: an agent that does not answer, refuses, or answers what cannot be read is asked again after a second. One that knows `GET /ring`
        holds each question for at most `wait` seconds, 1 to 60, and answers as soon as it has another ring; one that does not is asked for its members
        each second. A ring that did not last until it was asked for is passed over.
        """
        known: Ring | None = None  # what the agent told; none once it may have been started again, maybe with other replicas, which the digest does not tell
        while True:
            try:
                known = self._later(known, wait)
            except RingpopError:
                known = None
                time.sleep(PAUSE)
                continue
            if known != ring:
                ring, known = known, None
                yield ring

    def leave(self) -> None:
        """Has the node leave the ring: it owns no key from then on, and still passes requests to their owners."""
        self._told("/leave")

    def rejoin(self) -> None:
        """Has the node come back to the ring."""
        self._told("/rejoin")

    def close(self) -> None:
        """Closes this thread's connection. A later call makes another one. A `with` does it at its end."""
        link, self._mine.link = getattr(self._mine, "link", None), None
        if link is not None:
            link.close()

    def __enter__(self) -> Client:
        return self

    def __exit__(self, *_: object) -> None:
        self.close()

    def __repr__(self) -> str:
        return f"Client({self.url!r})"

    def __getstate__(self) -> tuple[str, float]:
        return self.url, self.timeout

    def __setstate__(self, state: tuple[str, float]) -> None:
        Client.__init__(self, state[0], timeout=state[1])

    def _told(self, path: str) -> None:
        answer = self._ask("POST", path)
        if answer.status != 200:
            raise _refusal(answer)

    def _all(self) -> Ring:
        """The ring of all members, those that do not serve included."""
        return self._ring(self._json(self._ask("GET", "/members")), "members")

    def _later(self, known: Ring | None, wait: float) -> Ring:
        """The ring as soon as it is another one than this, or this one after the wait."""
        if known is None:
            return self.ring()
        asked = time.monotonic()
        answer = self._ask("GET", f"/ring?after={known.digest}&wait={max(1, min(60, int(wait)))}", extra=wait)
        if answer.status != 304:
            return self._ring(self._json(answer), "serving")
        if time.monotonic() - asked >= PAUSE:
            return known
        time.sleep(PAUSE)  # (it did not wait)
        return self.ring()

    def _ring(self, told: Any, name: str) -> Ring:
        """The ring of an answer whose members have this name."""
        try:
            members = [Member(it["address"], it["weight"], it.get("status", "alive"), it.get("incarnation", 0)) for it in told[name]]
            return Ring(members, replicas=told["replicas"], own=told["address" if name == "members" else "own"])
        except (KeyError, TypeError, AttributeError, RingpopError) as error:
            raise BadAnswer(self.url, f"{name} cannot be read: {error!r}") from error

    def _json(self, answer: Answer) -> Any:
        if answer.status != 200:
            raise _refusal(answer)
        try:
            return json.loads(answer.body)
        except ValueError as error:
            raise BadAnswer(self.url, "it is not JSON") from error

    def _ask(self, method: str, path: str, body: Text = b"", headers: Mapping[str, str] | None = None, extra: float = 0.0) -> Answer:
        """The answer to a request over the thread's connection, which may take `extra` seconds more."""
        if not isinstance(body, (str, bytes)):
            raise TypeError(f"a body is str or bytes, and not {type(body).__name__}: {body!r}")
        sent = body.encode() if isinstance(body, str) else body
        if len(sent) > MOST_BODY:
            raise AgentError(413, f"bad body: it has {len(sent)} bytes, and an agent reads no more than {MOST_BODY}", "long-body")
        link, last = getattr(self._mine, "link", None), getattr(self._mine, "last", 0.0)
        if link is None or time.monotonic() - last > IDLE:
            link = http.client.HTTPConnection(self._host, self._port)
        self._mine.link = None
        link.timeout = self.timeout + extra
        try:
            if link.sock is not None:
                link.sock.settimeout(link.timeout)
            link.request(method, path, sent or None, dict(headers or {}))
            got = link.getresponse()
            told = {name.lower(): value for name, value in got.getheaders()}
            answer = Answer(got.status, got.read(), told.get("x-ringpop-owner"), told)
        except (OSError, http.client.HTTPException) as error:
            link.close()
            raise Unreachable(self.url, str(error) or type(error).__name__) from error
        if link.sock is not None:
            self._mine.link, self._mine.last = link, time.monotonic()
        return answer


def _path(start: str, key: Text) -> str:
    return start + quote(encoded(key), safe="")


def _text(key: Text) -> str:
    try:
        return encoded(key).decode()
    except UnicodeDecodeError:
        raise BadKey(key) from None


def _parts(keys: list[str]) -> Iterator[list[str]]:
    """The keys in lists that fit one request for owners each."""
    part, size = [], 0
    for key in keys:
        length = len(json.dumps(key, ensure_ascii=False).encode()) + len(", ")
        if part and (len(part) == MOST_KEYS or size + length > MOST_BYTES):
            yield part
            part, size = [], 0
        part.append(key)
        size += length
    if part:
        yield part


def _is_nobody(answer: Answer) -> bool:
    return answer.status == 503 and answer.body == b"nobody serves\n"


def _refusal(answer: Answer) -> AgentError:
    line = answer.body.decode(errors="replace").rstrip("\n") or http.client.responses.get(answer.status, "")
    after = answer.headers.get("retry-after", "")
    return AgentError(answer.status, line, answer.headers.get("x-ringpop-error"), float(after) if after.isdigit() else None)
