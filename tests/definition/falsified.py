#!/usr/bin/env python3
"""A test of the replays: a few stored answers, each with one thing changed, must be noticed.

    tests/definition/falsified.py PROGRAM [WORD...]

Writes a list of answers, as stored and falsified, to a temporary folder, runs the replay
`PROGRAM WORD... --list FILE` on it, and checks what it says: it must print `differs: NAME` for each
falsified answer and for no other. Neither the papers nor Rust are needed.
"""

import os
import subprocess
import sys
import tempfile

ANSWERS = os.path.join(os.path.dirname(os.path.dirname(os.path.abspath(__file__))), "reference", "answers.txt")
FIELDS = "name tag room input number record moved grown fresh rescued length output".split()
# Copies; copies with a rescue; copies with new numbers; arms joined; nothing done; refused with 9 and with 1.
KEPT = "P1 P3 P4 P5 P2 P1:short P8".split()


def falsified(line):
    """The line with one field changed, in every way that keeps the list's form."""
    fields = dict(zip(FIELDS, line.split(" ")))
    counts = ["moved", "grown", "fresh", "rescued"] if fields["number"] == "0" else ["number", "record", "grown"]
    for field in counts:
        other = int(fields[field]) - 1 if int(fields[field]) > 1 else 1 - int(fields[field])
        yield {**fields, "name": f"{fields['name']}/{field}", field: str(other)}
    if fields["output"] not in "=-":
        # An unused place of the last record, which is a Ret.
        yield {**fields, "name": f"{fields['name']}/output", "output": fields["output"][:-3] + "z0b01z0f"}


def main(program):
    with open(ANSWERS) as stored:
        kept = [line.rstrip("\n") for line in stored if line.split(" ")[0] in KEPT]
    wrong = [fields for line in kept for fields in falsified(line)]
    with tempfile.TemporaryDirectory() as folder:
        path = os.path.join(folder, "answers.txt")
        with open(path, "w") as out:
            out.writelines(line + "\n" for line in kept)
            out.writelines(" ".join(fields.values()) + "\n" for fields in wrong)
        names = [line.split(" ")[0] for line in kept] + [fields["name"] for fields in wrong]
        told = subprocess.run([*program, "--list", path, *names], capture_output=True, text=True)
    said = {line.split(" ")[1] for line in told.stdout.splitlines() if line.startswith("differs: ")}
    due = {fields["name"] for fields in wrong}
    if said == due and told.returncode == 1:
        print(f"falsified: all of {len(due)} changes to {len(kept)} answers noticed by {os.path.basename(program[0])}")
        return 0
    print("not noticed:", *sorted(due - said))
    print("noticed and right:", *sorted(said - due))
    print(told.stdout[-2000:] + told.stderr[-2000:])
    return 1


if __name__ == "__main__":
    sys.exit(main(sys.argv[1:]) if sys.argv[1:] else __doc__)
