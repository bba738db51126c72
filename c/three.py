"""Three nodes in one process, by ctypes: usage: three.py LIBRINGPOP.SO [count]"""
import ctypes as c
import hashlib
import json
import sys
import time

MAX_LINE, PORT, LOOKUPS = 1 << 20, 7946, 300_000
DONE, NOTHING = 0, 1
JOINED, ACK = 1, 3
lib = c.CDLL(sys.argv[1])


class Handle(c.Structure):
    _fields_ = [("at", c.c_void_p), ("full", c.c_bool)]


class Config(c.Structure):
    _fields_ = [("replicas", c.c_uint32), ("piggyback", c.c_uint32), ("max_members", c.c_size_t), ("suspect_ms", c.c_uint64),
                ("faulty_ms", c.c_uint64), ("helpers", c.c_size_t), ("per_message", c.c_size_t), ("weight", c.c_uint8)]


class Address(c.Structure):
    _fields_ = [("ip", c.c_uint32), ("port", c.c_uint16)]


handle, size = c.POINTER(Handle), c.POINTER(c.c_size_t)
lib.ringpop_line_source.argtypes = [c.c_char_p, c.c_size_t, c.POINTER(c.c_uint8), c.POINTER(c.c_uint32), c.POINTER(c.c_uint16)]
lib.ringpop_line_source.restype = c.c_uint32
lib.ringpop_config_standard.argtypes, lib.ringpop_config_standard.restype = [c.POINTER(Config)], None
for name, types in {
    "new": [handle, c.POINTER(Config), c.c_uint32, c.c_uint16, c.c_uint64, c.c_uint64, c.c_uint64],
    "free": [handle],
    "join": [handle, c.c_char_p, c.c_size_t, size],
    "ping": [handle, c.c_uint32, c.c_uint16, c.c_char_p, c.c_size_t, size],
    "receive": [handle, c.c_char_p, c.c_size_t, c.c_uint64, c.c_char_p, c.c_size_t, size],
    "take": [handle, c.c_char_p, c.c_size_t, c.c_uint64],
    "members": [handle, c.c_char_p, c.c_size_t, size],
    "digest": [handle, c.c_char_p, c.c_size_t, size],
    "owner": [handle, c.c_char_p, c.c_size_t, c.POINTER(c.c_uint32), c.POINTER(c.c_uint16)],
    "owners": [handle, c.c_char_p, c.c_size_t, c.c_size_t, c.POINTER(Address), c.c_size_t, size],
}.items():
    function = getattr(lib, f"ringpop_node_{name}")
    function.argtypes, function.restype = types, c.c_uint32

out, count = c.create_string_buffer(MAX_LINE), c.c_size_t()


def check(is_so, what):
    """Ends the program where something is not as it is to be; `assert` would be left out under python3 -O."""
    if not is_so:
        sys.exit(f"three.py: {what}")


def done(code):
    """The code of a call that is to be DONE."""
    check(code == DONE, f"code {code}")


class Node:
    def __init__(self, last, weight=1):
        self.handle, self.ip, config = Handle(), 0x0A000000 + last, Config()
        lib.ringpop_config_standard(config)
        config.weight = weight
        done(lib.ringpop_node_new(self.handle, config, self.ip, PORT, 7, last, 1000))

    def join(self):
        done(lib.ringpop_node_join(self.handle, out, MAX_LINE, count))
        return c.string_at(out, count.value)

    def ping(self, to):
        done(lib.ringpop_node_ping(self.handle, to.ip, PORT, out, MAX_LINE, count))
        return c.string_at(out, count.value)

    def receive(self, line, moment):
        code = lib.ringpop_node_receive(self.handle, line, len(line), moment, out, MAX_LINE, count)
        check(code in (DONE, NOTHING), f"code {code}")
        return c.string_at(out, count.value) if code == DONE else None

    def members(self):
        done(lib.ringpop_node_members(self.handle, out, MAX_LINE, count))
        return c.string_at(out, count.value)

    def digest(self):
        done(lib.ringpop_node_digest(self.handle, out, MAX_LINE, count))
        return c.string_at(out, count.value)

    def owner(self, key, ip=c.c_uint32(), port=c.c_uint16()):
        return ip.value if lib.ringpop_node_owner(self.handle, key, len(key), ip, port) == DONE else None

    def owners(self, key, wanted):
        places = (Address * wanted)()
        done(lib.ringpop_node_owners(self.handle, key, len(key), wanted, places, wanted, count))
        return [place.ip for place in places[: count.value]]

    def free(self):
        done(lib.ringpop_node_free(self.handle))


def source(line, kind=c.c_uint8(), ip=c.c_uint32(), port=c.c_uint16()):
    done(lib.ringpop_line_source(line, len(line), kind, ip, port))
    return kind.value, ip.value, port.value


def talk(one, other, line, kind=ACK):
    answer = other.receive(line, 1001)
    check(source(answer) == (kind, other.ip, PORT), "another answer")
    one.receive(answer, 1002)


nodes = [Node(1), Node(2, 2), Node(3)]
talk(nodes[1], nodes[0], nodes[1].join(), JOINED)
talk(nodes[2], nodes[0], nodes[2].join(), JOINED)
talk(nodes[0], nodes[1], nodes[0].ping(nodes[1]))
talk(nodes[0], nodes[2], nodes[0].ping(nodes[2]))
for node in nodes:
    members = node.members()
    check(members == b"10.0.0.1:7946alive7;10.0.0.2:7946alive7*2;10.0.0.3:7946alive7", f"members {members}")
    check(node.digest() == hashlib.sha256(members).digest(), "another digest")
for i in range(8):
    owners = {node.owner(b"trip-%d" % i) for node in nodes}
    check(len(owners) == 1, f"owners {owners}")
    check(all(node.owners(b"trip-%d" % i, 4) == nodes[0].owners(b"trip-%d" % i, 3) for node in nodes), "other owners")
    check(nodes[0].owners(b"trip-%d" % i, 1) == [*owners], "another owner")
    print(f"trip-{i} is on 10.0.0.{owners.pop() & 255}")


def count_lookups(members):
    keys, begin = [b"trip-%d" % i for i in range(LOOKUPS)], time.process_time()
    for key in keys:
        nodes[0].owner(key)
    print(f"{members} members: {LOOKUPS / (time.process_time() - begin):.0f} look-ups a second of processor time", file=sys.stderr)


if sys.argv[2:] == ["count"]:
    count_lookups(3)
    for i in range(4, 1001):
        change = {"address": f"10.0.{i >> 8}.{i & 255}:{PORT}", "incarnationNumber": 1, "source": f"10.0.0.2:{PORT}",
                  "sourceIncarnationNumber": 7, "status": "alive"}
        line = json.dumps(change).encode()
        done(lib.ringpop_node_take(nodes[0].handle, line, len(line), 1003))
    count_lookups(1000)
for node in nodes:
    node.free()
