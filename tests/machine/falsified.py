#!/usr/bin/env python3
"""A test of the comparison: it must notice each single change in what the Rust reports about some runs.

    tests/machine/falsified.py

Writes what is told as it is and falsified into a temporary folder, has compare.py look at it, and
compares what it says: `differs: NAME` is due for each falsified run and for no other.
"""

import os
import subprocess
import sys
import tempfile

from compare import HERE, RUNS, RUST

# Selects; an arm; acts with few, just enough and many values; lists; constants; entries; ends; drawn ones.
KEPT = """select arm-across-4 act-8-3-2 act-11-3-1 act-16-0-3 act-17-1-0 list-1-3 bounds-001-3 constf-first-0
addrof-not-run-1 addrof-twice-0 entry-condbr-t-0 entry-case-arm-3 end-ret-value-0 end-number-4294967295-later
end-ret-0-stopped kinds-6 tidy-acts-3""".split()


def other(word):
    """Another number in a number's place: one less if possible."""
    return str(int(word) - 1 if int(word) else 1)


def put(line, at, word):
    words = line.split(" ")
    return " ".join(words[:at] + [word] + words[at + 1:])


def in_acts(line):
    """An act with one thing changed: kind, op, statement, a number, a value, one value more or less."""
    words = line.split(" ")
    values = words.index("values")
    for name, at in ("kind", 1), ("op", 2), ("statement", 3), ("number", values - 1), ("value", len(words) - 1):
        if words[at].isdigit():
            yield name, put(line, at, other(words[at]))
    yield "more-values", line + " 0"
    if words[-1] != "values":
        yield "fewer-values", " ".join(words[:-1])


def in_end(line):
    """An `after` line with another end."""
    words = line.split(" ")
    at = words.index("end") + 1
    end, head = words[at:], " ".join(words[:at])
    if end[0] == "none":
        return
    if end[0] != "outside":
        yield "end-statement", put(line, at + 1, other(end[1]))
    if end[2:]:
        yield "end-value", put(line, at + 2, other(end[2]))
    if end[0] == "ret":
        yield "end-with-or-without", " ".join(words[:at + 2]) if end[2:] else line + " 0"
        yield "end-unreachable", f"{head} unreachable {end[1]} {end[2] if end[2:] else 0}"
    if end[0] == "unreachable":
        yield "end-ret", f"{head} ret {end[1]} {end[2]}"
    if end[0] != "outside" and int(words[3]):
        yield "end-outside", f"{head} outside"
    yield "end-none", f"{head} none"


def in_after(line):
    """An `after` line with another number of acts or entries, or another end."""
    words = line.split(" ")
    if int(words[3]):
        yield "acts", put(line, 3, other(words[3]))
    yield "entries", put(line, 5, other(words[5]))
    yield from in_end(line)


def in_state(line):
    words = line.split(" ")
    yield "left", put(line, 2, other(words[2]))
    yield "word", put(line, len(words) - 1, other(words[-1]))


def in_single(line):
    words = line.split(" ")
    yield "single", f"{line} 0" if len(words) == 2 else " ".join(words[:2])
    if len(words) == 3:
        yield "single", put(line, 2, other(words[2]))


CHANGES = {"act": in_acts, "after": in_after, "at": in_state, "single": in_single}


def falsified(lines, k):
    """Each way to change one line of each sort: the first, the middle or the last, as k says."""
    for sort, change in CHANGES.items():
        places = [at for at, line in enumerate(lines) if line.startswith(sort + " ")]
        if places:
            at = [places[0], places[len(places) // 2], places[-1]][k % 3]
            for name, line in change(lines[at]):
                yield name, lines[1:at] + [line] + lines[at + 1:]


def told_of(names):
    """What the Rust reports about each run, in lines."""
    text = subprocess.run([RUST, RUNS], check=True, capture_output=True, text=True).stdout
    told = {}
    for line in text.splitlines():
        if line.startswith("run "):
            told[line[4:]] = lines = []
        lines.append(line)
    return {name: [line for line in told[name] if not line.startswith("met ")] for name in names}


def main():
    told = told_of(KEPT)
    wrong = {f"{name}:{what}": lines for k, name in enumerate(KEPT) for what, lines in falsified(told[name], k)}
    with tempfile.TemporaryDirectory() as folder:
        path = os.path.join(folder, "told.txt")
        with open(path, "w") as out:
            out.writelines(line + "\n" for name in KEPT for line in told[name])
            out.writelines(f"run {name}\n" + "".join(line + "\n" for line in lines) for name, lines in wrong.items())
        compare = [os.path.join(HERE, "compare.py"), "--told", path, *KEPT, *wrong]
        said = subprocess.run(compare, capture_output=True, text=True)
    noticed = {line.split(" ")[1] for line in said.stdout.splitlines() if line.startswith("differs: ")}
    if noticed == set(wrong) and said.returncode == 1:
        print(f"falsified: all of {len(wrong)} changes to what is told of {len(KEPT)} runs noticed")
        return 0
    print("not noticed:", *sorted(set(wrong) - noticed))
    print("noticed and right:", *sorted(noticed - set(wrong)))
    print(said.stdout[-2000:] + said.stderr[-2000:])
    return 1


if __name__ == "__main__":
    sys.exit(main())
