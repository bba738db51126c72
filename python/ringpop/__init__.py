"""Which node owns a key: asked of an agent, or found in process.

    from ringpop import Client, Ring

    client = Client("http://127.0.0.1:7980")    # an agent, `ringpop agent --http 127.0.0.1:7980 ..`
    client.request("trip-42", b"hello")         # the answer of the service whose node owns the key
    ring = Ring.from_agent("http://127.0.0.1:7980")
    ring.owner("trip-42")                       # '10.0.0.2:7946', without asking anyone
    for ring in client.watch():                 # now, and again after each change of the ring
        ...

A HandOver answers for a service whose state follows the owners of its keys.
"""
from ._client import Answer, Client
from ._errors import AgentError, BadAnswer, BadKey, BadLine, BadMember, BadReplicas, RingpopError, TooManyMembers, Unreachable
from ._handover import HandOver, Kept
from ._ring import MAX_MEMBERS, Member, Move, Ring

__version__ = "1.0.0-dev"
__all__ = [
    "MAX_MEMBERS", "AgentError", "Answer", "BadAnswer", "BadKey", "BadLine", "BadMember", "BadReplicas", "Client", "HandOver",
    "Kept", "Member", "Move", "Ring", "RingpopError", "TooManyMembers", "Unreachable",
]
