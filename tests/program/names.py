#!/usr/bin/env python3
"""The program shows names as the Python package does (python/halivomue/names.py).

usage: names.py PROGRAM

Every character is tried, between others, and so are bytes that aren't UTF-8: cut short, too long, out of place, past the
last character. No file has such a name, so each line says that it can't be opened.
"""
import os
import subprocess
import sys
import tempfile

ROOT = os.path.dirname(os.path.dirname(os.path.dirname(os.path.abspath(__file__))))
sys.path.insert(0, os.path.join(ROOT, "python"))
from halivomue import names  # noqa: E402

MOST = 600  # characters of a name: a path has at most 4,095 bytes
FIRST = (0x80, 0xBF, 0xC0, 0xC1, 0xC2, 0xDF, 0xE0, 0xE1, 0xE2, 0xED, 0xEF, 0xF0, 0xF1, 0xF3, 0xF4, 0xF5, 0xF8, 0xFE, 0xFF)
LATER = (0x41, 0x7F, 0x80, 0x8F, 0x90, 0x9F, 0xA0, 0xBF, 0xC2, 0xE2, 0xFF)


def characters():
    return [chr(code).encode() for code in range(1, 0x110000) if not 0xD800 <= code < 0xE000]


def broken():
    """Up to four bytes, most of them no characters."""
    for a in FIRST:
        yield bytes([a])
        for b in LATER:
            yield bytes([a, b])
            for c in LATER:
                yield bytes([a, b, c])
                yield bytes([a, b, c, 0x80])
                yield bytes([a, b, c, 0xBF, 0x80])


def joined(parts, between):
    parts = list(parts)
    return [b"x" + between.join(parts[at : at + MOST]) for at in range(0, len(parts), MOST)]


def differs(program, tried):
    """How many names are shown differently from the package, in runs of as many as fit."""
    wrong = 0
    for at in range(0, len(tried), 300):
        some = tried[at : at + 300]
        with tempfile.TemporaryDirectory() as folder:
            done = subprocess.run([program, "read", *some], cwd=folder, capture_output=True, check=True)
        due = [names.shown(name).encode() + b": cannot be opened" for name in some]
        found = done.stdout.split(b"\n")[:-1]
        wrong += sum(a != b for a, b in zip(due, found)) + abs(len(due) - len(found))
    return wrong


def main(words):
    if len(words) != 1:
        sys.exit(__doc__)
    whole = characters()
    tried = joined(whole, b"") + joined(whole[:0x3000], b"\xe2\x80\xae") + joined(broken(), b"") + joined(broken(), b"y")
    wrong = differs(os.path.abspath(words[0]), tried)
    print(f"program: {len(tried)} names with {len(whole)} characters shown, {wrong} otherwise than by the package")
    return 1 if wrong else 0


if __name__ == "__main__":
    sys.exit(main(sys.argv[1:]))
