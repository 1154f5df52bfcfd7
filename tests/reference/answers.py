"""The stored answers, for programs in Python. README.md describes the lines."""

import os
from collections import namedtuple

STORED = os.path.join(os.path.dirname(os.path.abspath(__file__)), "answers.txt")
Answer = namedtuple("Answer", "name small room input number record moved grown fresh rescued length output")


def unpacked(text):
    """The bytes of a packed field."""
    out, at = bytearray(), 0
    while text != "-" and at < len(text):
        if text[at] == "z":
            out += bytes(int(text[at + 1:at + 3], 16))
            at += 3
        else:
            out.append(int(text[at:at + 2], 16))
            at += 2
    return bytes(out)


def list_in(words):
    """The path after `--list`, which is taken out of a command's words with it, or that of the stored answers."""
    if "--list" not in words:
        return STORED
    at = words.index("--list")
    path = words[at + 1]
    del words[at:at + 2]
    return path


def answers(path):
    """The answers of a list, in its order."""
    with open(path) as lines:
        for line in lines:
            name, tag, room, sent, *numbers, output = line.rstrip("\n").split(" ")
            data = unpacked(sent)
            result = data if output == "=" else unpacked(output)
            yield Answer(name, tag == "small", int(room), data, *map(int, numbers), result)
