#!/usr/bin/env python3
"""Writes the files of the lists in tests/vectors and of the stored answers of the published Rust to standard output,
each with its length in front in four bytes.
"""
import pathlib
import struct
import sys

TESTS = pathlib.Path(__file__).resolve().parent.parent
VECTORS, REFERENCE = TESTS / "vectors", TESTS / "reference"
sys.path[:0] = [str(VECTORS), str(REFERENCE)]
sys.dont_write_bytecode = True
from answers import answers  # noqa: E402
from replay import expand  # noqa: E402


def put(data):
    sys.stdout.buffer.write(struct.pack("<I", len(data)) + data)


for name in ("read.txt", "tidy.txt"):
    for line in (VECTORS / name).read_text().splitlines():
        if not line.startswith("#"):
            put(expand(line.split(" ")[1]))
for answer in answers(REFERENCE / "answers.txt"):
    put(answer.input)
