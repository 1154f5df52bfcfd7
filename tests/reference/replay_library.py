#!/usr/bin/env python3
"""Replays the stored answers through `halivomue_shorten` of the C interface.

    tests/reference/replay_library.py LIBRARY [--list FILE] [NAME...]

LIBRARY is a shared object, or the archive, from which gcc makes one. Each answer is asked for with
the stored room and, if the file is accepted, also with just enough, one byte less, one record less
and none. The buffer is between guard bytes and is compared byte for byte. Neither the papers nor Rust
are needed. If neither the header nor the library has the function, this says so and replays nothing.
"""

import ctypes
import os
import sys
import tempfile

HERE = os.path.dirname(os.path.abspath(__file__))
TESTS = os.path.dirname(HERE)
HEADER = os.path.join(os.path.dirname(TESTS), "include", "halivomue.h")
sys.path[:0] = [HERE, os.path.join(TESTS, "vectors")]
import answers  # noqa: E402
from replay import shared_object  # noqa: E402

GUARD = 64
COUNTS = ("moved", "grown", "fresh", "rescued")


class Shortening(ctypes.Structure):
    _fields_ = [
        ("number", ctypes.c_uint32),
        ("record", ctypes.c_uint32),
        ("length", ctypes.c_size_t),
        *((name, ctypes.c_uint32) for name in COUNTS),
    ]


def library(path, folder):
    if path.endswith(".so"):
        return ctypes.CDLL(os.path.abspath(path))
    return shared_object(path, folder)


def filling(n):
    """Bytes that no record repeats."""
    return bytes((7 * k + k // 251 + 0x5A) % 256 for k in range(n))


FILLING = filling(65_536 + 2 * GUARD)


def asked(function, data, room):
    """The answer, and the buffer at exit with its guards."""
    buffer = ctypes.create_string_buffer(FILLING[: room + 2 * GUARD], room + 2 * GUARD)
    out = ctypes.c_void_p(ctypes.addressof(buffer) + GUARD)
    return function(data, len(data), out, room), buffer.raw


def as_due(function, answer, room):
    """Does the library give the answer for this room?"""
    due, output = answer, answer.output
    if answer.number == 0 and room < answer.length:
        due, output = answer._replace(number=9, record=0, moved=0, grown=0, fresh=0, rescued=0, length=0), b""
    got, buffer = asked(function, answer.input, room)
    fields = ("number", "record", "length", *COUNTS)
    untouched = FILLING[GUARD + len(output) : room + 2 * GUARD]
    return (
        all(getattr(got, name) == getattr(due, name) for name in fields)
        and buffer == FILLING[:GUARD] + output + untouched
    )


def rooms(answer):
    yield answer.room
    if answer.number == 0:
        yield from {max(answer.length - less, 0) for less in (0, 1, 32, answer.length)}


def main(words):
    path = answers.list_in(words)
    if not words:
        sys.exit(__doc__)
    archive, *wanted = words
    with tempfile.TemporaryDirectory() as folder:
        shared = library(archive, folder)
        if not hasattr(shared, "halivomue_shorten"):
            with open(HEADER) as header:
                due = "halivomue_shorten" in header.read()
            print("replay: the library has no halivomue_shorten" + ("" if due else " yet: no stored answer was replayed through it"))
            return 1 if due else 0
        function = shared.halivomue_shorten
        function.argtypes = [ctypes.c_char_p, ctypes.c_size_t, ctypes.c_void_p, ctypes.c_size_t]
        function.restype = Shortening
        stored = [a for a in answers.answers(path) if not wanted or a.name in wanted]
        differ, calls = [], 0
        for answer in stored:
            asks = list(rooms(answer))
            calls += len(asks)
            if not all(as_due(function, answer, room) for room in asks):
                differ.append(answer.name)
    for name in differ:
        print("differs:", name)
    print(f"replay: {len(stored)} stored answers through the library, {calls} calls, {len(differ)} differ")
    return 1 if differ or not stored else 0


if __name__ == "__main__":
    sys.exit(main(sys.argv[1:]))
