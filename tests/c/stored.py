#!/usr/bin/env python3
"""Writes the stored answers of the published Rust to standard output, for shorten.c. Each is nine little-endian numbers
of four bytes (the file's length, room, number, record, length, moved, grown, fresh, rescued), then the file and the
output. With a number, no more than so many for each answer. With --rooms, for provision.c: the file's length, a room and
the file, for each room around the edges.
"""

import collections
import pathlib
import struct
import sys

REFERENCE = pathlib.Path(__file__).resolve().parent.parent / "reference"
sys.path.insert(0, str(REFERENCE))
sys.dont_write_bytecode = True
from answers import answers  # noqa: E402

HALIVOMUE_ROOM = 61728


def rooms(a):
    """The rooms to try: as stored, none, enough for every file, and around the result's length."""
    around = (a.length - 32, a.length - 1, a.length, a.length + 1) if a.number == 0 else ()
    return dict.fromkeys((a.room, 0, *around, HALIVOMUE_ROOM))


words = sys.argv[1:]
most = next((int(word) for word in words if word.isdigit()), None)
written = collections.Counter()
for a in answers(REFERENCE / "answers.txt"):
    written[a.number] += 1
    if most is not None and written[a.number] > most:
        continue
    if "--rooms" in words:
        for room in rooms(a):
            sys.stdout.buffer.write(struct.pack("<2I", len(a.input), room) + a.input)
    else:
        numbers = (len(a.input), a.room, a.number, a.record, a.length, a.moved, a.grown, a.fresh, a.rescued)
        sys.stdout.buffer.write(struct.pack("<9I", *numbers) + a.input + a.output)
