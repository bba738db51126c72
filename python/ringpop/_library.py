"""Look-ups by the C library, where it is installed: RINGPOP_LIBRARY names its file, or the system finds it."""
from __future__ import annotations

import ctypes as c
import os
import threading

DONE = 0
# (the node of a view holds one member more, itself, at an address where no node can listen)
MOST, OWN_IP, OWN_PORT = 4095, 0xFFFFFFFF, 0xFFFF


class Handle(c.Structure):
    """A node or a view: ringpop_node, ringpop_view."""

    _fields_ = [("at", c.c_void_p), ("full", c.c_bool)]


class Config(c.Structure):
    """What a node is made with: ringpop_config."""

    _fields_ = [
        ("replicas", c.c_uint32),
        ("piggyback", c.c_uint32),
        ("max_members", c.c_size_t),
        ("suspect_ms", c.c_uint64),
        ("faulty_ms", c.c_uint64),
        ("helpers", c.c_size_t),
        ("per_message", c.c_size_t),
        ("weight", c.c_uint8),
    ]


class Address(c.Structure):
    """Where a node is reached: ringpop_address."""

    _fields_ = [("ip", c.c_uint32), ("port", c.c_uint16)]


_HANDLE, _SIZE, _BYTES = c.POINTER(Handle), c.POINTER(c.c_size_t), [c.c_char_p, c.c_size_t]
_CALLS = {
    "node_new": [_HANDLE, c.POINTER(Config), c.c_uint32, c.c_uint16, c.c_uint64, c.c_uint64, c.c_uint64],
    "node_free": [_HANDLE],
    "node_leave": [_HANDLE],
    "node_take": [_HANDLE, *_BYTES, c.c_uint64],
    "view_new": [_HANDLE, _HANDLE],
    "view_free": [_HANDLE],
    "view_owner": [_HANDLE, *_BYTES, c.c_void_p, c.c_void_p],
    "view_owners": [_HANDLE, *_BYTES, c.c_size_t, c.POINTER(Address), c.c_size_t, _SIZE],
}


def _load() -> c.CDLL | None:
    """A call holds the interpreter's lock (PyDLL): a view has one call at a time, and a look-up is shorter than a turn of the lock."""
    named = os.environ.get("RINGPOP_LIBRARY")
    try:
        library = c.PyDLL(named or "libringpop.so.1")
        library.ringpop_config_standard.argtypes = [c.POINTER(Config)]
        library.ringpop_config_standard.restype = None
        for name, types in _CALLS.items():
            call = getattr(library, f"ringpop_{name}")
            call.argtypes, call.restype = types, c.c_uint32
    except (OSError, AttributeError) as error:  # (none that can be loaded, or one that is not ringpop's)
        if named:
            raise ImportError(f"RINGPOP_LIBRARY names no library of ringpop: {error}") from error
        return None
    return library


_library = _load()


def _done(code: int) -> None:
    if code != DONE:
        raise MemoryError


def _name(place: int) -> str:
    """The text of an address, an IPv4 number with a port above its 32 bits."""
    return f"{place >> 24 & 255}.{place >> 16 & 255}.{place >> 8 & 255}.{place & 255}:{place >> 32}"


class _Place(threading.local):
    """Where a look-up writes an address, eight bytes that are read as one number. Each thread has its own: another one may have its turn in between."""

    def __init__(self) -> None:
        number = c.c_uint64()
        self.parts = number, c.byref(number), c.byref(number, 4)


_place = _Place()


class View:
    """A view of a node that has left, so that it owns no key, and holds these members."""

    def __init__(self, serving: tuple[tuple[str, int], ...], replicas: int) -> None:
        node, config, self._view = Handle(), Config(), Handle()
        _library.ringpop_config_standard(config)
        config.replicas = replicas
        _done(_library.ringpop_node_new(node, config, OWN_IP, OWN_PORT, 0, 0, 0))
        try:
            _done(_library.ringpop_node_leave(node))
            for address, weight in serving:
                line = (
                    f'{{"address":"{address}","incarnationNumber":0,"source":"{address}","sourceIncarnationNumber":0,"status":"alive",'
                    f'"weight":{weight}}}'
                ).encode()
                _done(_library.ringpop_node_take(node, line, len(line), 0))
            _done(_library.ringpop_view_new(self._view, node))
        finally:
            _library.ringpop_node_free(node)
        self._given = c.byref(self._view)
        self._names: dict[int, str] = {}
        # The same call without the types of its arguments, which take as long to convert as the look-up. Then a length is a C int.
        self._owner = _library["ringpop_view_owner"]
        self._owner.restype = c.c_uint32

    def owner(self, key: bytes) -> str | None:
        number, ip, port = _place.parts
        length = len(key)
        look = self._owner if length < 1 << 31 else _library.ringpop_view_owner
        if look(self._given, key, length, ip, port):
            return None
        place = number.value
        name = self._names.get(place)
        if name is None:
            name = self._names[place] = _name(place)
        return name

    def owners(self, key: bytes, wanted: int) -> list[str]:
        places, count = (Address * max(wanted, 1))(), c.c_size_t()
        _done(_library.ringpop_view_owners(self._view, key, len(key), wanted, places, len(places), count))
        return [_name(place.ip | place.port << 32) for place in places[: count.value]]

    def __del__(self) -> None:
        if _library is not None and self._view.full:
            _library.ringpop_view_free(self._view)


def view_of(serving: tuple[tuple[str, int], ...], replicas: int) -> View | None:
    """The view of these servers; None where the library is not installed, or holds no more members."""
    return View(serving, replicas) if _library is not None and len(serving) <= MOST else None
