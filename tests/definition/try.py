#!/usr/bin/env python3
"""Compares the definition of Shorten, computed by antt, with the stored answers of the reference.

    tests/definition/try.py [--all] [--list FILE] [NAME...]

Takes the answers for files of at most 150 records, or those named; with --all every answer. For
each it writes a claim, to be proved by `refl`, into a scratch crate in a temporary folder, has it
checked, and says how many hold. With --all, some of the largest files take more steps than antt
allows for one declaration; without it, that is a failure.
"""

import os
import sys
import tempfile
import time

from scratch import ROOT, bytes_of, crates_under, proved, refused, repository, unfolded

sys.path.insert(0, os.path.join(ROOT, "tests", "reference"))
from answers import answers, list_in  # noqa: E402

# Everything that this script knows about the definition: where it is, and how to state an answer.
CRATE = "steps"
DEFINITION = "Rattle.steps.specs.Shorten.{Outcome, shorten}"


def claim(answer):
    entry, exit = buffers(answer)
    numbers = answer.number, answer.record, answer.length, answer.moved, answer.grown, answer.fresh, answer.rescued
    fields = zip("number place length moved grown fresh rescued".split(), numbers)
    record = "; ".join(f"{field} = {value}" for field, value in fields)
    outcome = f"record {{ answer = record {{ {record} }}; output = {bytes_of(exit)} }}"
    return f"shorten {bytes_of(answer.input)} {bytes_of(entry)} ≡ {outcome}"


def buffers(answer):
    """A buffer at entry for which the answer is expected, and the buffer at exit; no longer than necessary."""
    room = answer.room if answer.number == 9 else min(answer.room, answer.length + 7)
    entry = bytes((7 * k + 0x5A) % 256 for k in range(room))
    return entry, answer.output + entry[len(answer.output):]


A_FILE = 20  # answers in one file of the scratch crate
HEAD = """use Prim.Native.Nat.{ℕ, zero, suc, ◌%◌, ◌/◌}
use mathlib.Core.Path.{◌≡◌, refl}
use mathlib.Core.List.{List, [], ◌∷◌}
USES

abbrev bytes_in : ℕ → ℕ → List ℕ
bytes_in zero v = []
bytes_in (suc n) v = v % 256 ∷ bytes_in n (v / 256)
"""


def write_claims(specs, chosen, crates):
    """The claims, some in each file; the answers' names by the claims' labels."""
    uses, unfolding = unfolded(crates)
    labels, modules = {}, []
    for first in range(0, len(chosen), A_FILE):
        module = f"Part{first // A_FILE}"
        modules.append(module)
        with open(os.path.join(specs, module + ".antt"), "w") as out:
            out.write(HEAD.replace("USES", f"use {DEFINITION}{uses}"))
            for at, answer in enumerate(chosen[first:first + A_FILE], first):
                labels[f"a{at}"] = answer.name
                out.write(f"\na{at} : {claim(answer)}\nunfolding {unfolding}\na{at} = refl\n")
    with open(os.path.join(specs, "Lib.antt"), "w") as out:
        out.write("".join(f"pub mod {m}\n" for m in modules))
    return labels


def tried(chosen, scratch):
    """The names of the answers that differ and of those not computed, or what rt said instead."""
    crates = crates_under(CRATE)
    labels = write_claims(repository(scratch, crates), chosen, crates)
    wrong, late = [], []
    for label, said in refused(scratch, r"a\d+"):
        (late if "step limit" in said else wrong).append(labels[label])
    return wrong, late


def main(words):
    path = list_in(words)
    every = "--all" in words
    wanted = [w for w in words if w != "--all"]
    stored = list(answers(path))
    if wanted:
        chosen = [a for a in stored if a.name in wanted]
    else:
        chosen = [a for a in stored if every or len(a.input) <= 150 * 32]

    start = time.time()
    proved(CRATE)
    with tempfile.TemporaryDirectory() as scratch:
        wrong, late = tried(chosen, scratch)
    for name in wrong:
        print("differs:", name)
    for name in late:
        print("not computed:", name)
    held = len(chosen) - len(wrong) - len(late)
    print(
        f"definition: {held} of {len(chosen)} answers tried hold, {len(wrong)} differ, {len(late)} pass antt's step "
        f"limit; {len(stored)} are stored; {time.time() - start:.0f} s"
    )
    return 1 if wrong or not held or late and not every else 0


if __name__ == "__main__":
    sys.exit(main(sys.argv[1:]))
