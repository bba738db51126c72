"""State by key that follows the owners of its keys."""
from __future__ import annotations

import json
import threading
import time
from collections.abc import Callable
from typing import Any, Protocol
from urllib.parse import quote, unquote

from ._client import Client
from ._errors import AgentError, BadAnswer, RingpopError, Unreachable
from ._ring import Ring, number_of

MOST_ASKED = 3
"""Nodes that are asked for the state of a key."""
MOST_HOPS = 2
"""How often a request goes on from service to service."""
ENOUGH = 2
"""Sweeps in a row that have to find nothing."""
TICK = 1.0
"""Seconds between two sweeps."""
PATIENCE = 3.0
"""Seconds that another node's service may take."""
SLOW = 10.0
"""Seconds for which a service that takes connections and does not answer may only be slow."""
SPARED = 5.0
"""Seconds for which a node whose service is gone is not asked for the state of a key."""

Said = tuple[int, bytes]


class Kept(Protocol):
    """What a service keeps of one key. A HandOver calls all that it has by one thread at a time, so no method should wait for anything."""

    def do(self, body: bytes) -> bytes:
        """Does a client's request; the answer. A ValueError is answered with status 400 and its text."""
        ...

    def state(self) -> Any:
        """What `merge` takes elsewhere, as JSON can have it: equal as long as nothing changes, and None if there is nothing to hand over. The body of a
        request has to have room for it, 131,072 bytes."""
        ...

    def merge(self, state: Any) -> None:
        """Adds the state that another node has. To merge it twice is to merge it once."""
        ...


class _Held:
    """What is held of a key."""

    def __init__(self, kept: Kept) -> None:
        self.kept = kept
        self.is_whole = False  # whether the nodes that may hold the key were asked
        self.taker: str | None = None  # the node that took the key since


class HandOver:
    """Keeps what a service keeps by key where the key's owner is, and hands it over when the ring changes, as docs/HANDOVER.md says.

    The first request for a key takes its state from the nodes that may hold it, requests for a key that another node took go on to that one, and what
    another node owns is pushed there. Have `respond` answer each POST of the service, and call `run` in a thread of its own, both before the agent
    starts.
    """

    def __init__(self, client: Client, own: str, *, service: Callable[[str], str], new: Callable[[str], Kept]) -> None:
        """Makes one for the node with the address `own`, whose agent the client asks.

        `service` is the URL of a node's service, as http://10.0.0.2:8146: there each node has a HandOver, or what does the same. `new` makes what is
        kept of a key, with nothing in it.
        """
        self.client, self.own = client, own
        self._service, self._new, self._noted = service, new, threading.Event()
        self._spared: dict[str, float] = {}  # when a node is asked again whose service is gone
        self._silent: dict[str, float] = {}  # since when a node's service has not answered
        self._everyone: tuple[str, Ring] = ("", Ring([]))  # of the members with this digest, as if each served
        self._lock = threading.Lock()  # of all that follows
        self._held: dict[str, _Held] = {}
        self._now: Ring | None = None
        self._left = self._empty = 0  # how many keys of other nodes the last sweep found, and how many sweeps in a row found none

    def respond(self, path: str, body: bytes) -> Said:
        """The status and body of the answer to a POST: of the agent, or of another node's service. 404 is the answer to a path of neither."""
        path, _, hops = path.partition("?hops=")
        told = _told(body)
        is_told = number_of(told.get("by")) is not None
        if path == "/take" and is_told and isinstance(told.get("key"), str):
            return self._give(told["key"], told["by"])
        if not path.startswith("/keys/"):
            return 404, b"nothing at this path\n"
        key = unquote(path[len("/keys/"):])
        try:
            if is_told and "merge" in told:
                return self._merge(key, told["merge"], told["by"])
            return self._answer(key, body, int(hops or 0))
        except ValueError as error:
            return 400, f"{error}\n".encode()

    def run(self) -> None:
        """Follows the ring, and sweeps on each change and each second until two sweeps in a row found nothing. It has no end."""
        threading.Thread(target=self._follow, daemon=True).start()
        while True:
            self._sweep()
            self._noted.wait(TICK)
            self._noted.clear()

    def leave(self, timeout: float = 60.0) -> bool:
        """Has the node leave the ring; whether two sweeps in a row found nothing within `timeout` seconds. Meanwhile `run` has to run.

        Then the agent may be stopped, and after it the service, or the service may be restarted and the client told to rejoin.
        """
        try:
            self.client.leave()
        except AgentError as error:
            if error.name != "already-left":
                raise
        end = time.monotonic() + timeout
        while not self._is_gone():
            if time.monotonic() > end:
                return False
            time.sleep(TICK / 10)
        return True

    @property
    def left(self) -> int:
        """How many keys the last sweep found that another node owns."""
        return self._left

    def _is_gone(self) -> bool:
        """Whether the node has left the ring, and sweeps found nothing since."""
        with self._lock:
            return self._now is not None and self._empty == ENOUGH and self.own not in (address for address, _ in self._now.serving)

    def _of(self, key: str) -> _Held:
        """What is held of a key, with the lock."""
        if key not in self._held:
            self._held[key] = _Held(self._new(key))
        return self._held[key]

    def _changing(self, key: str) -> _Held:
        """What is held of a key, to which something is added, with the lock: if it is another node's, it has to be swept."""
        if self._is_elsewhere(key):
            self._empty = 0
        return self._of(key)

    def _is_elsewhere(self, key: str) -> bool:
        """Whether another node owns a key by the ring that was noted last, with the lock."""
        return self._now is not None and self._now.owner(key) != self.own

    def _give(self, key: str, by: str) -> Said:
        """What is kept of a key, for the node that takes it: from here on requests go on to that one."""
        with self._lock:
            it = self._of(key)
            it.taker = by
            state = it.kept.state()
        return _said({} if state is None else {"merge": state})

    def _merge(self, key: str, state: Any, by: str) -> Said:
        """Adds what another node pushed."""
        with self._lock:
            it = self._changing(key)
            it.kept.merge(state)
            if it.taker == by:
                it.taker, it.is_whole = None, False
        return _said({"at": self.own})

    def _answer(self, key: str, body: bytes, hops: int) -> Said:
        """Has a client's request done where the key was taken to, or else here, once the key is whole."""
        while True:
            with self._lock:
                taker, is_whole = self._of(key).taker, self._of(key).is_whole
            try:
                if taker and hops < MOST_HOPS:
                    answer = self._ask(taker, f"/keys/{quote(key, safe='')}?hops={hops + 1}", body)
                    if answer is not None:
                        return answer
                elif not is_whole:
                    self._fetch(key)
            except RingpopError as error:
                return 503, f"{error}\n".encode()
            with self._lock:
                it = self._changing(key)
                if it.taker == taker and (taker or it.is_whole):
                    it.taker = None
                    return 200, it.kept.do(body)

    def _fetch(self, key: str) -> None:
        """Takes a key's state from the nodes that may hold it: those that would be its first owners if all members served."""
        body, states = json.dumps({"key": key, "by": self.own}).encode(), []
        for node in self._everybody().owners(key, MOST_ASKED):
            if node != self.own and time.monotonic() > self._spared.get(node, 0.0):
                answer = self._ask(node, "/take", body)
                states.append(_told(answer[1]) if answer else {})
        with self._lock:
            it = self._changing(key)
            for told in states:
                if "merge" in told:
                    it.kept.merge(told["merge"])
            it.is_whole = True

    def _everybody(self) -> Ring:
        """The ring that there would be if each member served, also one that left or failed. It is kept until the members change."""
        with Client(self.client.url, timeout=self.client.timeout) as agent:  # (a thread that ends soon keeps no connection)
            told = agent._json(agent._ask("GET", "/members"))
        if self._everyone[0] != told["digest"]:
            members = [{**it, "status": "alive"} for it in told["members"]]
            self._everyone = told["digest"], self.client._ring({**told, "members": members}, "members")
        return self._everyone[1]

    def _ask(self, node: str, path: str, body: bytes) -> Said | None:
        """The answer of another node's service; None if that is gone. Raises Unreachable if it may only be slow: then it may have what was acknowledged."""
        try:
            with Client(self._service(node), timeout=PATIENCE) as peer:
                answer = peer._ask("POST", path, body)
        except Unreachable as error:
            now = time.monotonic()
            if not isinstance(error.__cause__, ConnectionRefusedError) and now - self._silent.setdefault(node, now) < SLOW:
                raise
            self._spared[node] = now + SPARED
            return None
        self._silent.pop(node, None)
        return answer.status, answer.body

    def _follow(self) -> None:
        """Takes note of each ring. A key that this node owns again is asked for again."""
        for ring in self.client.watch():
            with self._lock:
                self._now, self._empty = ring, 0
                for key, it in self._held.items():
                    if it.taker and not self._is_elsewhere(key):
                        it.taker, it.is_whole = None, False
            self._noted.set()

    def _sweep(self) -> None:
        """Pushes what another node owns to it, and passes over the other keys of a node that takes none."""
        silent = set()
        for key, owner in self._away():
            if owner not in silent:
                try:
                    self._push(key)
                except RingpopError as error:
                    if getattr(error, "name", None) != "long-body":
                        silent.add(owner)

    def _away(self) -> list[tuple[str, str | None]]:
        """The held keys that another node owns, with the owner. Those of which nothing is kept are forgotten."""
        with self._lock:
            if self._now is None or self._empty == ENOUGH:
                return []
            others = [key for key in self._held if self._is_elsewhere(key)]
            for key in others:
                if self._held[key].kept.state() is None:
                    del self._held[key]
            found = [(key, self._now.owner(key)) for key in others if key in self._held]
            self._left, self._empty = len(found), 0 if found else self._empty + 1
            return found

    def _push(self, key: str) -> None:
        """Has the owner of a key merge its state, and forgets the key if that is another node, and its state still the same."""
        with self._lock:
            state = self._held[key].kept.state() if key in self._held else None
        if state is None:
            return
        answer = self.client.request(key, json.dumps({"merge": state, "by": self.own}))
        at = _told(answer.body).get("at")
        if answer.status != 200 or at is None:
            raise BadAnswer(self.client.url, f"no service with a HandOver answers for {key!r}")
        with self._lock:
            if at != self.own and key in self._held and self._held[key].kept.state() == state:
                del self._held[key]


def _told(body: bytes) -> dict[str, Any]:
    """What a service tells, and nothing if a body is not of that form."""
    try:
        told = json.loads(body)
    except ValueError:
        return {}
    return told if isinstance(told, dict) else {}


def _said(told: dict[str, Any]) -> Said:
    return 200, json.dumps(told).encode()
