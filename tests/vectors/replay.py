#!/usr/bin/env python3
"""Replays a list of vectors through the C interface.

Usage: replay.py read|tidy <list> <archive>

gcc makes a shared object from the archive, which is called through ctypes. The
top of a list describes its form.
"""

import ctypes
import pathlib
import subprocess
import sys
import tempfile


class Reading(ctypes.Structure):
    _fields_ = [("number", ctypes.c_uint32), ("record", ctypes.c_uint32)]


class Tidiness(ctypes.Structure):
    _fields_ = [(name, ctypes.c_uint32) for name in ("number", "record", "tidy", "reg")]


OPERATIONS = {"read": ("halivomue_read", Reading), "tidy": ("halivomue_tidy", Tidiness)}


def shared_object(archive, directory):
    """Makes a shared object from the archive and loads it."""
    path = pathlib.Path(directory) / "libhalivomue.so"
    subprocess.run(
        ["gcc", "-shared", "-o", path, "-Wl,--whole-archive", archive, "-Wl,--no-whole-archive", "-lm"],
        check=True,
    )
    return ctypes.CDLL(str(path))


def operation(library, name):
    """The C function of that name, from bytes to a tuple of numbers."""
    symbol, answer_type = OPERATIONS[name]
    function = getattr(library, symbol)
    function.argtypes = [ctypes.c_char_p, ctypes.c_size_t]
    function.restype = answer_type

    def call(data):
        answer = function(data, len(data))
        return tuple(getattr(answer, field) for field, _ in answer_type._fields_)

    return call


def expand(text):
    """The bytes of a file in the form of the list."""
    if text == "-":
        return b""
    data = bytearray()
    for item in text.split("."):
        digits, _, count = item.partition("*")
        data += bytes.fromhex(digits) * int(count or 1)
    return bytes(data)


def vectors(path):
    """Name, file and answer of each line."""
    for line in pathlib.Path(path).read_text().splitlines():
        if not line.startswith("#"):
            name, file, *answer = line.split(" ")
            yield name, expand(file), tuple(map(int, answer))


def replay(call, path):
    """The counts of vectors passed and failed; differences are printed."""
    passed = failed = 0
    for name, data, due in vectors(path):
        answer = call(data)
        if answer == due:
            passed += 1
        else:
            failed += 1
            print(f"{name}: answer {answer}, due {due}")
    return passed, failed


def main(arguments):
    if len(arguments) != 3 or arguments[0] not in OPERATIONS:
        sys.exit(__doc__)
    name, path, archive = arguments
    with tempfile.TemporaryDirectory() as directory:
        call = operation(shared_object(archive, directory), name)
        passed, failed = replay(call, path)
    print(f"replay.py {name}: {passed} passed, {failed} failed")
    return 1 if failed or not passed else 0


if __name__ == "__main__":
    sys.exit(main(sys.argv[1:]))
