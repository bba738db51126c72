"""What a ring names compared with the program's answers, and what is refused. scripts/rings makes the folder of answers."""
import ctypes
import json
import os
import pathlib
import pickle
import threading
import unittest
from unittest import mock

from ringpop import _library, AgentError, BadLine, BadMember, BadReplicas, MAX_MEMBERS, Member, Ring, RingpopError, TooManyMembers, Unreachable


def change(address: str, incarnation: int, status: str, **more: object) -> str:
    return json.dumps(
        {"address": address, "incarnationNumber": incarnation, "source": "10.0.0.1:7946", "sourceIncarnationNumber": 1, "status": status, **more}
    )


def read(name: str) -> str:
    if "RINGPOP_ANSWERS" not in os.environ:
        raise unittest.SkipTest("RINGPOP_ANSWERS names no folder: scripts/rings makes one")
    return (pathlib.Path(os.environ["RINGPOP_ANSWERS"]) / name).read_text()


def ring_of(*lasts: int, **more: int) -> Ring:
    return Ring([Member(f"10.0.0.{last}:7946") for last in lasts], **more)


class Answers(unittest.TestCase):
    def test_the_programs_answers(self) -> None:
        lines, answers = read("members"), read("answers").split("\n")[:-1]
        self.assertEqual(len(answers), 10_000)
        for ring in Ring.from_members(lines), Ring.from_members(lines.encode().splitlines(True)):
            for answer in answers:
                key, owners = answer.split("\t")
                self.assertEqual(ring.owners(key, 3), owners.split())
                self.assertEqual(ring.owner(key), owners.split()[0])
                self.assertEqual(ring.owner(key.encode()), owners.split()[0])
            self.assertEqual(ring.digest, read("digest").strip())

    def test_servers_alone(self) -> None:
        lines = [change(f"10.0.0.{i}:7946", 1, status) for i, status in enumerate(["alive", "suspect", "faulty", "leave"], 1)]
        ring = Ring.from_members([*lines, change("10.0.0.1:7946", 2, "faulty"), lines[0]])
        self.assertEqual(ring.owners("trip-42", 9), ["10.0.0.2:7946"])
        self.assertEqual((len(ring), ring.owners("", 0)), (4, []))
        self.assertEqual(ring.serving, (("10.0.0.2:7946", 1),))
        self.assertEqual([it.status for it in ring.members], ["faulty", "suspect", "faulty", "leave"])
        self.assertIsNone(Ring.from_members("").owner("trip-42"))
        self.assertEqual(Ring.from_members([]).owners("trip-42", 3), [])

    def test_moved(self) -> None:
        before, after, keys = ring_of(1, 2), ring_of(1, 2, 3), [f"trip-{i}" for i in range(300)]
        moves = after.moved(keys, before)
        self.assertEqual([it.key for it in moves], [key for key in keys if before.owner(key) != after.owner(key)])
        self.assertEqual({it.after for it in moves}, {"10.0.0.3:7946"})
        self.assertEqual([it.before for it in moves], [before.owner(it.key) for it in moves])
        self.assertEqual(ring_of().moved(["a"], before), [("a", before.owner("a"), None)])
        with self.assertRaisesRegex(TypeError, "^give a list of keys, and not one key: 'abc'$"):
            after.moved("abc", before)

    def test_equal_and_pickled(self) -> None:
        ring = Ring([Member("10.0.0.2:7946", 3), Member("10.0.0.1:7946", status="suspect"), Member("10.0.0.3:7946", status="leave")])
        same = Ring([Member("10.0.0.1:7946", incarnation=7), Member("10.0.0.2:7946", 3)])
        self.assertEqual((ring, hash(ring), ring.digest), (same, hash(same), same.digest))
        for other in ring_of(1, 2), Ring(same.members, replicas=99), None:
            self.assertNotEqual(ring, other)
        copy = pickle.loads(pickle.dumps(ring))
        self.assertEqual((copy, copy.members), (ring, ring.members))
        self.assertEqual([copy.owner(str(i)) for i in range(99)], [ring.owner(str(i)) for i in range(99)])
        self.assertEqual(repr(ring), f"<Ring of 3 members, 2 serving, 100 replicas, digest {ring.digest[:8]}>")

    def test_threads_share_a_ring(self) -> None:
        ring = ring_of(*range(9))
        wanted = [ring.owner(f"trip-{i}") for i in range(500)]
        other: list[int] = []

        def look() -> None:
            other.extend(i for i in range(500) if ring.owners(f"trip-{i}", 1) != [wanted[i]])

        threads = [threading.Thread(target=look) for _ in range(8)]
        for it in threads:
            it.start()
        for it in threads:
            it.join()
        self.assertEqual(other, [])


class Faults(unittest.TestCase):
    def test_a_line_at_fault(self) -> None:
        own = "10.0.0.1:7946"
        for line, reason in {
            "[]": "not an object",
            '{"address":': "not JSON",
            "{}": "the field address is missing",
            change("10.0.0.01:7946", 1, "alive"): "the field address is bad: '10.0.0.01:7946'",
            change("10.0.0.1:7946\n", 1, "alive"): r"the field address is bad: '10.0.0.1:7946\n'",
            change(own, 1.0, "alive"): "the field incarnationNumber is bad: 1.0",  # type: ignore[arg-type]
            change(own, True, "alive"): "the field incarnationNumber is bad: True",
            change(own, 1, "Alive"): "the field status is bad: 'Alive'",
            change(own, 1, "alive", weight=9): "the field weight is bad: 9",
            change(own, 1, "faulty", tombstone=1): "the field tombstone is bad: 1",
        }.items():
            with self.assertRaises(BadLine) as told:
                Ring.from_members([change(own, 1, "alive"), line])
            self.assertEqual((str(told.exception), told.exception), (f"line 2: {reason}", BadLine(2, reason)))

    def test_replicas(self) -> None:
        for replicas in 0, 1001, -1, True, "100":
            with self.assertRaisesRegex(BadReplicas, "^replicas is .*, and not from 1 to 1000$"):
                Ring.from_members("", replicas=replicas)  # type: ignore[arg-type]

    def test_too_many_members(self) -> None:
        lines = [change(f"10.1.{i >> 8}.{i & 255}:7946", 1, "leave") for i in range(MAX_MEMBERS + 1)]
        self.assertEqual(len(Ring.from_members(lines[:-1], replicas=1)), MAX_MEMBERS)
        with self.assertRaisesRegex(TooManyMembers, "^more than 4096 members$"):
            Ring.from_members(lines, replicas=1)

    def test_members(self) -> None:
        good = Member("10.0.0.1:7946")
        for bad, reason in {
            good._replace(address="10.0.0.1"): "a member is a Member with an address like '10.0.0.1:7946'",
            "10.0.0.1:7946": "a member is a Member with an address like '10.0.0.1:7946'",
            good._replace(weight=9): "a weight is 1 to 8, and a status one of alive, suspect, faulty, leave, tombstone",
            good._replace(status="up"): "a weight is 1 to 8, and a status one of alive, suspect, faulty, leave, tombstone",
            good._replace(incarnation=2): "two members have one address",
        }.items():
            with self.assertRaises(BadMember) as told:
                Ring([good, bad])  # type: ignore[list-item]
            self.assertEqual((str(told.exception), told.exception), (f"{reason}: {bad!r}", BadMember(bad, reason)))

    def test_keys(self) -> None:
        for look in ring_of(1).owner, lambda key: ring_of(1).owners(key, 1):
            with self.assertRaisesRegex(TypeError, "^a key is str or bytes, and not NoneType: None$"):
                look(None)  # type: ignore[arg-type]
        with self.assertRaisesRegex(ValueError, "^n is -1, and not 0 or more$"):
            ring_of(1).owners("trip-42", -1)

    def test_errors_are_values(self) -> None:
        for error in BadLine(2, "not JSON"), BadReplicas(0), TooManyMembers(), AgentError(503, "nobody serves", "nobody", 1.0), Unreachable("http://x", "no"):
            copy = pickle.loads(pickle.dumps(error))
            self.assertEqual((copy, repr(copy), str(copy), hash(copy)), (error, repr(error), str(error), hash(error)))
            self.assertIsInstance(error, RingpopError)
        self.assertNotEqual(BadLine(1, "not JSON"), BadLine(2, "not JSON"))
        self.assertNotEqual(BadReplicas(0), TooManyMembers())


class Stub:
    """A C library whose look-up names 10.0.0.N:7946, N the first byte of the key. Before that of b"a" returns, another thread looks b"b" up."""

    def __getattr__(self, _: str) -> object:
        return lambda *_: _library.DONE

    def __getitem__(self, _: str) -> object:
        return lambda *given: self.look(*given)

    def look(self, _: object, key: bytes, length: int, ip: object, port: object) -> int:
        ctypes.cast(ip, ctypes.POINTER(ctypes.c_uint32))[0] = 10 << 24 | key[0]
        ctypes.cast(port, ctypes.POINTER(ctypes.c_uint16))[0] = 7946
        if key == b"a":
            other = threading.Thread(target=self.ring.owner, args=("b",))
            other.start()
            other.join()
        return _library.DONE


class OverTheLibrary(unittest.TestCase):
    def test_a_thread_gets_its_own_owner(self) -> None:
        stub = Stub()
        with mock.patch.object(_library, "_library", stub):
            stub.ring = ring_of(1, 2)
            self.assertEqual([stub.ring.owner(key) for key in "ab"], ["10.0.0.97:7946", "10.0.0.98:7946"])

    def test_another_library(self) -> None:
        with mock.patch("ctypes.PyDLL", return_value=object()), mock.patch.dict(os.environ):
            os.environ.pop("RINGPOP_LIBRARY", None)
            self.assertIsNone(_library._load())
            os.environ["RINGPOP_LIBRARY"] = "libm.so.6"
            with self.assertRaisesRegex(ImportError, "^RINGPOP_LIBRARY names no library of ringpop: "):
                _library._load()


if __name__ == "__main__":
    unittest.main()
