"""Sequences of docs/DESIGN.md: who sends what to whom, with the calls of the node in between. Calls, kinds of messages and limits are
those of the sources: one that the sources do not have ends the script."""
import hashlib
import json
import pathlib
import re
import subprocess
import sys

from svg import AMBER, BLUE, FAINT, GREEN, GRID, INK, PURPLE, RED, Picture

ROOT = pathlib.Path(__file__).resolve().parents[2]
LIMITS = "crates/transport/src/tcp_links.rt"
COLUMN, STEP, TOP = 236, 34, 74


def read(name):
    return (ROOT / name).read_text()


def kind(word):
    """A kind of message."""
    if f'"{word}"' not in read("crates/message_core/src/kinds.rt"):
        sys.exit(f"sequences: no kind of message is {word}")
    return word


def call(name):
    """A call of the node."""
    sources = (it.read_text() for it in (ROOT / "crates" / "node_core" / "src").glob("*.rt"))
    if not any(f"pub fn {name}" in source for source in sources):
        sys.exit(f"sequences: node_core has no call {name}")
    return name


def limit(field):
    """How long an answer to a kind of message is waited for, in milliseconds."""
    return number(rf"{field}: Duration::from_millis\(([\d_]+)\)", LIMITS)


def number(pattern, name):
    found = re.search(pattern, read(name))
    if not found:
        sys.exit(f"{name}: nothing has the form {pattern}")
    return int(found[1].replace("_", ""))


def helped_round():
    """A ping that is lost, and two helpers, the second of which reaches the target."""
    ping, helper = limit("ping"), limit("helper")
    actors = ["node A", "helper C", "helper D", "target B"]
    steps = [
        ("does", 0, f"{call('probe')}: B is the next of A's random order"),
        ("lost", 0, 3, f"{kind('ping')}, {call('ping_to')}: A waits {ping} ms, no answer comes"),
        ("does", 0, f"{call('lost')}: the node names helpers, three if it has them; here C and D"),
        ("send", 0, 1, f"{kind('ping-req')} for B, {helper:,} ms"),
        ("lost", 1, 3, f"{kind('ping')}, {ping} ms, no answer"),
        ("back", 1, 0, f"{kind('ping-req-ack')}: not reached"),
        ("does", 0, f"{call('helper_said')}: the probe goes on"),
        ("send", 0, 2, f"{kind('ping-req')} for B"),
        ("send", 2, 3, f"{kind('ping')}"),
        ("back", 3, 2, f"{kind('ack')}"),
        ("back", 2, 0, f"{kind('ping-req-ack')}: reached"),
        ("does", 0, f"{call('helper_said')}: the round is Reached, B stays alive"),
    ]
    below = ["If no helper reaches B, the round is Suspected: A writes B as suspect and tells it by gossip.", "If all helpers fail, it is Inconclusive: A may be the one that is cut off."]
    return drawn("A round of gossip in which a ping is lost", actors, steps, below)


def passed_request():
    """A request that one agent sends to the owner's."""
    service = number(r"const MAX_APPLICATION_MILLIS: u64 = ([\d_]+);", "crates/agent_application/src/applications.rt")
    other = limit("other")
    actors = ["client", "agent A", "agent B, the owner", "service of B"]
    steps = [
        ("send", 0, 1, "POST /keys/trip-42"),
        ("does", 1, f"{call('view')}: B owns trip-42"),
        ("send", 1, 2, f"{kind('forward')}, {other:,} ms"),
        ("does", 2, f"{call('view')}: this node owns trip-42"),
        ("send", 2, 3, f"POST /keys/trip-42, {service:,} ms"),
        ("back", 3, 2, "200 and a body"),
        ("back", 2, 1, f"{kind('reply')} with status and body"),
        ("back", 1, 0, "200, X-Ringpop-Owner: B"),
    ]
    below = ["If B's members say that C owns the key, B passes the request on to C, or answers not-owner. After that, or if no answer comes,", "A pauses 3, 6 and 12 seconds before further tries, each at the owner of that time; after the fourth failure it answers 504."]
    kind("not-owner")
    return drawn("A request that comes to an agent whose node does not own its key", actors, steps, below)


def place(column):
    return 110 + column * COLUMN


def drawn(title, actors, steps, below):
    """A picture of a sequence, from above to below."""
    low = TOP + STEP * len(steps) + 16
    picture = Picture(place(len(actors) - 1) + 130, low + 30 + 18 * len(below), title)
    picture.text(20, 28, title, INK, 15, weight="bold")
    for i, actor in enumerate(actors):
        picture.rect(place(i) - 84, 42, 168, 26, "#e7f0f8", BLUE, 5)
        picture.text(place(i), 60, actor, INK, 13, "middle", "bold")
        picture.path([(place(i), 68), (place(i), low)], GRID, 1.5)
    for i, step in enumerate(steps):
        draw_step(picture, TOP + STEP * i + 26, *step)
    picture.lines(20, low + 24, below, gap=18, fill=FAINT, size=12)
    return picture


def draw_step(picture, y, what, *rest):
    if what == "does":
        actor, words = rest
        picture.rect(place(actor) - 5, y - 16, 10, 18, AMBER, "none", 2)
        picture.text(place(actor) + 12, y - 3, words, AMBER, 12)
        return
    start, end, words = rest
    (a, b), colour = (place(start), place(end)), {"send": BLUE, "back": GREEN, "lost": RED}[what]
    side = 1 if b > a else -1
    tip = b - side * 26 if what == "lost" else b - side * 2
    picture.path([(a, y), (tip, y)], colour, 2, dash="6 4" if what == "back" else None)
    if what == "lost":
        picture.path([(tip - 6, y - 6), (tip + 6, y + 6)], colour, 2)
        picture.path([(tip - 6, y + 6), (tip + 6, y - 6)], colour, 2)
    else:
        picture.head((a, y), (tip, y), colour)
    picture.text(min(a, b) + 12, y - 6, words, colour, 12)


# From changes to an owner.

RANKS = ["alive", "suspect", "faulty", "leave", "tombstone"]
KEY = "trip-42"


def greatest(changes):
    """The change of each address that holds: by incarnation, then status, then weight."""
    members = {}
    for it in changes:
        rank = (it["incarnationNumber"], RANKS.index(it["status"]), it.get("weight", 1))
        if it["address"] not in members or rank > members[it["address"]][0]:
            members[it["address"]] = (rank, it)
    return {address: it for address, (_, it) in sorted(members.items())}


def hashed(text):
    return int.from_bytes(hashlib.sha256(text.encode()).digest()[:8], "big")


def points_of(servers):
    replicas = number(r"replicas: (\d+),\s+max_members", "crates/node_core/src/configs.rt")
    return sorted((hashed(f"{address}{i}"), address) for address, it in servers.items() for i in range(replicas * it.get("weight", 1)))


def owner_of(key, points):
    return next((address for at, address in points if at >= hashed(key)), points[0][1])


def text_of(it):
    weight = it.get("weight", 1)
    return f"{it['address'].split(':')[0]} {it['status']} {it['incarnationNumber']}" + (f" *{weight}" if weight > 1 else "")


def owner_picture():
    """The changes of data/changes.jsonl, what a node holds after them, and the owner of a key."""
    changes = [json.loads(line) for line in read("data/changes.jsonl").splitlines()]
    members = greatest(changes)
    servers = {address: it for address, it in members.items() if it["status"] in ("alive", "suspect")}
    points = points_of(servers)
    after = [it for it in points if it[0] >= hashed(KEY)][:3]
    columns = [
        ("log: changes, in any order", [text_of(it) for it in changes], INK),
        ("members: the greatest", [text_of(it) for it in members.values()], INK),
        ("servers: alive or suspect", [text_of(it) for it in servers.values()], GREEN),
        (f"{len(points)} points on the ring", [f"{at:016x}"[:10] + f".. {address.split(':')[0]}" for at, address in after], PURPLE),
    ]
    picture = Picture(960, 330, "From changes to the owner of a key")
    picture.text(20, 28, "From changes to the owner of a key (data/changes.jsonl)", INK, 15, weight="bold")
    for i, (head, texts, colour) in enumerate(columns):
        x = 20 + 236 * i
        picture.rect(x, 46, 212, 226, "#f6f8fa", "#8c959f", 6)
        picture.text(x + 12, 68, head, INK, 12, weight="bold")
        picture.lines(x + 12, 92, texts, gap=20, fill=colour, size=12)
        if i:
            picture.arrow((x - 22, 150), (x - 2, 150), width=2)
    x = 20 + 236 * 3 + 12
    picture.lines(x, 92 + 20 * len(after) + 16, [f"hash of {KEY}:", f"{hashed(KEY):016x}"[:10] + "..", "the next point upwards", f"is of {after[0][1].split(':')[0]}: the owner"], gap=20, fill=BLUE, size=12)
    picture.text(20, 296, "Order and repetition of the changes make no difference. A server that comes or goes moves keys to or from itself alone.", FAINT, 12)
    picture.text(20, 314, "A server has 100 points for each unit of weight; a point is the first 8 bytes of the SHA-256 of its address and a number.", FAINT, 12)
    return picture


def owner_apart(program):
    """Yields what is wrong if the built program names another owner than the picture."""
    changes = read("data/changes.jsonl")
    printed = subprocess.run([program, "owner", KEY], input=changes, capture_output=True, text=True).stdout.strip()
    members = greatest([json.loads(line) for line in changes.splitlines()])
    drawn_owner = owner_of(KEY, points_of({a: it for a, it in members.items() if it["status"] in ("alive", "suspect")}))
    if printed != drawn_owner:
        yield f"owner.svg: {KEY}: the program says {printed}, the picture {drawn_owner}"


DRAWN = {"round.svg": helped_round, "request.svg": passed_request, "owner.svg": owner_picture}
