"""The stored runs, and what the Rust reports about them. README.md describes both texts."""

import struct
from collections import namedtuple

Run = namedtuple("Run", "name data words address outside limit")
# After some instructions: how many acts, entries, the end's words, what is left of the block, the registers.
After = namedtuple("After", "acts entries end left words")
Act = namedtuple("Act", "kind op statement numbers values")
Told = namedtuple("Told", "name single after acts")


def numbers(text):
    return [int(n) for n in text.split()]


def record(text):
    """A record's bytes; zeros at the end are left out of the text."""
    kept = numbers(text)
    return struct.pack("<BBBxI6I", *kept, *[0] * (10 - len(kept)))


def runs(path):
    with open(path) as text:
        lines = [line.rstrip("\n") for line in text if line.strip() and not line.startswith("#")]
    for at in range(0, len(lines), 6):
        name, file, words, address, outside, limit = (line.partition(" ")[2] for line in lines[at:at + 6])
        data = b"".join(map(record, file.split("/")))
        yield Run(name, data, numbers(words), numbers(address), outside, int(limit))


def act(words):
    at = words.index("values")
    kind, op, statement = map(int, words[:3])
    return Act(kind, op, statement, [int(n) for n in words[4:at]], [int(n) for n in words[at + 1:]])


def told(text):
    """What is reported about each run, by its name, and how often the runs covered what they have to."""
    found, met = {}, {}
    for line in text.splitlines():
        word, *rest = line.split(" ")
        if word == "run":
            now = found[rest[0]] = Told(rest[0], [], [], [])
        elif word == "single":
            now.single.append(int(rest[1]) if rest[1:] else None)
        elif word == "after":
            assert int(rest[0]) == len(now.after), line
            now.after.append(After(int(rest[2]), int(rest[4]), rest[6:], 0, []))
        elif word == "at":
            now.after[-1] = now.after[-1]._replace(left=int(rest[1]), words=[int(n) for n in rest[3:]])
        elif word == "act":
            now.acts.append(act(rest))
        elif word == "met":
            met[" ".join(rest[1:])] = int(rest[0])
        else:
            raise ValueError(line)
    return found, met
