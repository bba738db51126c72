"""The owners of keys among members that do not change."""
from __future__ import annotations

import hashlib
import json
import re
from bisect import bisect_left
from collections.abc import Iterable
from typing import Any, NamedTuple, Union

from . import _library
from ._errors import BadKey, BadLine, BadMember, BadReplicas, TooManyMembers

Text = Union[str, bytes]
MAX_MEMBERS = 4096
"""Members of a cluster at most."""
MAX_LINE = 1 << 20
MAX_NUMBER = (1 << 53) - 1
RANKS = {"alive": 0, "suspect": 1, "faulty": 2, "leave": 3, "tombstone": 4}
_ADDRESS = re.compile(r"(\d{1,3})\.(\d{1,3})\.(\d{1,3})\.(\d{1,3}):(\d{1,5})", re.ASCII)


class Member(NamedTuple):
    """A member of the cluster. It serves, and so may own keys, while it is alive or suspect."""

    address: str
    weight: int = 1
    status: str = "alive"
    incarnation: int = 0

    @property
    def serves(self) -> bool:
        return RANKS[self.status] < 2


class Move(NamedTuple):
    """A key whose owner is another one than before. None stands for no owner: no member served."""

    key: Text
    before: str | None
    after: str | None


def number_of(address: object) -> int | None:
    """The number by which addresses ascend; None if it is not the one text of an address."""
    parts = _ADDRESS.fullmatch(address) if isinstance(address, str) else None
    if parts is None or any(len(part) > 1 and part[0] == "0" for part in parts.groups()):
        return None
    *octets, port = map(int, parts.groups())
    return int.from_bytes(octets, "big") << 16 | port if max(octets) < 256 and 0 < port < 65536 else None


def encoded(key: Text) -> bytes:
    """The bytes of a key: a text counts as its UTF-8."""
    if isinstance(key, bytes):
        return key
    if isinstance(key, str):
        try:
            return key.encode()
        except UnicodeEncodeError:
            raise BadKey(key) from None
    raise TypeError(f"a key is str or bytes, and not {type(key).__name__}: {key!r}")


def _point(text: bytes) -> int:
    return int.from_bytes(hashlib.sha256(text).digest()[:8], "big")


def _is_number(value: object, most: int, least: int = 0) -> bool:
    return type(value) is int and least <= value <= most


def _checked(members: Iterable[Member]) -> list[Member]:
    """The members, ascending by address."""
    held: dict[int, Member] = {}
    for it in members:
        number = number_of(it.address) if isinstance(it, Member) else None
        if number is None:
            raise BadMember(it, "a member is a Member with an address like '10.0.0.1:7946'")
        if not _is_number(it.weight, 8, 1) or it.status not in RANKS:
            raise BadMember(it, f"a weight is 1 to 8, and a status one of {', '.join(RANKS)}")
        if held.setdefault(number, it) is not it:
            raise BadMember(it, "two members have one address")
    return [held[number] for number in sorted(held)]


# What each field of a change has to be.
_FIELDS = {
    "address": lambda it: number_of(it) is not None,
    "incarnationNumber": lambda it: _is_number(it, MAX_NUMBER),
    "source": lambda it: number_of(it) is not None,
    "sourceIncarnationNumber": lambda it: _is_number(it, MAX_NUMBER),
    "status": lambda it: isinstance(it, str) and it in RANKS,
    "tombstone": lambda it: isinstance(it, bool),
    "weight": lambda it: _is_number(it, 8, 1),
}


def _member_of(line: bytes, number: int) -> Member:
    """The member that a change line tells of."""
    if len(line) > MAX_LINE:
        raise BadLine(number, "the line is too long")
    try:
        change = json.loads(line.decode())
    except (ValueError, RecursionError):
        raise BadLine(number, "not JSON") from None
    if not isinstance(change, dict):
        raise BadLine(number, "not an object")
    for name, is_good in _FIELDS.items():
        if name == "tombstone" and change["status"] != "faulty" or name in ("tombstone", "weight") and name not in change:
            continue
        if name not in change:
            raise BadLine(number, f"the field {name} is missing")
        if not is_good(change[name]):
            raise BadLine(number, f"the field {name} is bad: {change[name]!r}")
    is_tombstone = change["status"] == "faulty" and change.get("tombstone", False)
    status = "tombstone" if is_tombstone else change["status"]
    return Member(change["address"], change.get("weight", 1), status, change["incarnationNumber"])


def _lines_of(lines: Text | Iterable[Text]) -> Iterable[bytes]:
    if isinstance(lines, (str, bytes)):
        # (not splitlines, which would split at other characters too)
        whole = lines.encode() if isinstance(lines, str) else lines
        lines = whole.removesuffix(b"\n").split(b"\n") if whole else []
    for line in lines:
        yield (line.encode() if isinstance(line, str) else line).removesuffix(b"\n")


class Ring:
    """The owners of keys among members that do not change: for other members make another ring.

    It names the same owners, in the same order, as each node of a cluster with these members and this number of replicas, and as
    `ringpop owner`. Rings with the same serving members, weights and replicas are equal. A ring may be shared between threads, and pickled.
    The C library makes its look-ups where it is installed; they are the same without it.
    """

    def __init__(self, members: Iterable[Member], *, replicas: int = 100, own: str | None = None) -> None:
        """Makes the ring of members with different addresses; `own` names the node that told them.

        Raises BadReplicas if `replicas` is not 1 to 1,000, BadMember, and TooManyMembers.
        """
        if not _is_number(replicas, 1000, 1):
            raise BadReplicas(replicas)
        self.members = tuple(_checked(members))
        """The members, ascending by address, those that do not serve included."""
        if len(self.members) > MAX_MEMBERS:
            raise TooManyMembers
        self.replicas = replicas
        self.own = own
        """The address of the node whose members they are; None if it is not known."""
        self.serving = tuple((it.address, it.weight) for it in self.members if it.serves)
        """The addresses and weights of the members that serve."""
        self._view = _library.view_of(self.serving, replicas)
        if self._view is None:
            self._place()

    def _place(self) -> None:
        """Places the points of the serving members on the circle; at one hash the lower address comes first."""
        points = [
            (_point(f"{address}{i}".encode()), place)
            for place, (address, weight) in enumerate(self.serving)
            for i in range(self.replicas * weight)
        ]
        points.sort()
        self._hashes = [hash for hash, _ in points]
        self._names = [self.serving[place][0] for _, place in points]

    @classmethod
    def from_members(cls, lines: Text | Iterable[Text], *, replicas: int = 100) -> Ring:
        """Makes the ring of change lines, as `ringpop members --lines` prints them: one text, or a line at a time.

        `replicas` is that of the cluster, 1 to 1,000. Of the changes of one member the greatest counts, wherever it stands.

        Raises BadLine at the first line that is not a change, BadReplicas, and TooManyMembers.
        """
        held: dict[str, Member] = {}
        for number, line in enumerate(_lines_of(lines), 1):
            member = _member_of(line, number)
            known = held.get(member.address)
            if known is None or _order(known) < _order(member):
                held[member.address] = member
        return cls(held.values(), replicas=replicas)

    @classmethod
    def from_agent(cls, url: str = "http://127.0.0.1:7980", *, timeout: float = 10.0) -> Ring:
        """Makes the ring of the members that serve, as an agent sees it now; `url` is where it answers HTTP.

        Raises Unreachable, BadAnswer, and AgentError, with 503 until the agent has asked its hosts.
        """
        from ._client import Client

        return Client(url, timeout=timeout).ring()

    def owner(self, key: Text) -> str | None:
        """The address of the key's owner, as '10.0.0.1:7946'. None if no member serves. A text counts as its UTF-8."""
        if self._view is not None:
            return self._view.owner(encoded(key))
        names = self._names
        place = bisect_left(self._hashes, _point(encoded(key)))
        return names[place] if place < len(names) else names[0] if names else None

    def owners(self, key: Text, n: int) -> list[str]:
        """The first n owners of the key, all different, the owner first, or all that serve if those are fewer.

        Raises ValueError if n is negative.
        """
        if n < 0:
            raise ValueError(f"n is {n}, and not 0 or more")
        wanted = min(n, len(self.serving))
        if self._view is not None:
            return self._view.owners(encoded(key), wanted)
        found: dict[str, None] = {}
        place = bisect_left(self._hashes, _point(encoded(key)))
        while len(found) < wanted:
            found[self._names[place % len(self._names)]] = None
            place += 1
        return list(found)

    def moved(self, keys: Iterable[Text], other: Ring) -> list[Move]:
        """Those keys that have another owner here than in another ring, such as the ring before: in their order, with both owners."""
        if isinstance(keys, (str, bytes)):
            raise TypeError(f"give a list of keys, and not one key: {keys!r}")
        moves = (Move(key, other.owner(key), self.owner(key)) for key in keys)
        return [move for move in moves if move.before != move.after]

    @property
    def digest(self) -> str:
        """The ring's digest in 64 hexadecimal digits, as `GET /ring` of an agent gives it: equal digests, equal serving members."""
        text = ";".join(f"{address}alive0" + (f"*{weight}" if weight > 1 else "") for address, weight in self.serving)
        return hashlib.sha256(text.encode()).hexdigest()

    def __len__(self) -> int:
        """How many members it was made of, those that do not serve included."""
        return len(self.members)

    def __eq__(self, other: object) -> bool:
        return isinstance(other, Ring) and (self.serving, self.replicas) == (other.serving, other.replicas)

    def __hash__(self) -> int:
        return hash((self.serving, self.replicas))

    def __repr__(self) -> str:
        return f"<Ring of {len(self.members)} members, {len(self.serving)} serving, {self.replicas} replicas, digest {self.digest[:8]}>"

    def __reduce__(self) -> Any:
        return _made, (self.members, self.replicas, self.own)


def _made(members: tuple[Member, ...], replicas: int, own: str | None) -> Ring:
    return Ring(members, replicas=replicas, own=own)


def _order(member: Member) -> tuple[int, int, int]:
    """By which of two changes of one member the greater counts."""
    return member.incarnation, RANKS[member.status], member.weight
