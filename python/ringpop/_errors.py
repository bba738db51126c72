"""The errors of the package. Each keeps what was at fault as attributes, may be compared, and may be pickled."""
from __future__ import annotations


class RingpopError(Exception):
    """An error of this package; the others are kinds of it."""

    def __eq__(self, other: object) -> bool:
        return type(self) is type(other) and self.args == other.args

    def __hash__(self) -> int:
        return hash((type(self), self.args))


class BadLine(RingpopError, ValueError):
    """A line that is not a change: its number, from 1, and why it is not one."""

    def __init__(self, line: int, reason: str) -> None:
        super().__init__(line, reason)
        self.line, self.reason = line, reason

    def __str__(self) -> str:
        return f"line {self.line}: {self.reason}"


class BadReplicas(RingpopError, ValueError):
    """A number of replicas that is not from 1 to 1,000."""

    def __init__(self, replicas: object) -> None:
        super().__init__(replicas)
        self.replicas = replicas

    def __str__(self) -> str:
        return f"replicas is {self.replicas!r}, and not from 1 to 1000"


class BadKey(RingpopError, ValueError):
    """A key that is not UTF-8."""

    def __init__(self, key: object) -> None:
        super().__init__(key)
        self.key = key

    def __str__(self) -> str:
        return f"a key is not UTF-8: {self.key!r}"


class BadMember(RingpopError, ValueError):
    """A member that a ring cannot have: the member, and what is wrong with it."""

    def __init__(self, member: object, reason: str) -> None:
        super().__init__(member, reason)
        self.member, self.reason = member, reason

    def __str__(self) -> str:
        return f"{self.reason}: {self.member!r}"


class TooManyMembers(RingpopError, ValueError):
    """More members than a cluster can have."""

    def __str__(self) -> str:
        return "more than 4096 members"


class AgentError(RingpopError):
    """An agent's refusal: the status and the line of its answer, which says why; its word (HTTP.md) as `name`, and the seconds after which to ask
    again as `retry_after`, each if the agent gave one."""

    def __init__(self, status: int, line: str, name: str | None = None, retry_after: float | None = None) -> None:
        super().__init__(status, line, name, retry_after)
        self.status, self.line, self.name, self.retry_after = status, line, name, retry_after

    def __str__(self) -> str:
        return f"{self.status}: {self.line}"


class Unreachable(RingpopError, OSError):
    """No agent answered at a URL, and why."""

    def __init__(self, url: str, reason: str) -> None:
        super().__init__(url, reason)
        self.url, self.reason = url, reason

    def __str__(self) -> str:
        return f"no agent answers at {self.url}: {self.reason}"


class BadAnswer(RingpopError, ValueError):
    """An answer that is none of an agent: the URL, and what is wrong with it."""

    def __init__(self, url: str, reason: str) -> None:
        super().__init__(url, reason)
        self.url, self.reason = url, reason

    def __str__(self) -> str:
        return f"what answers at {self.url} is no agent of this version: {self.reason}"
