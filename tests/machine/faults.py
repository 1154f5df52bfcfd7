#!/usr/bin/env python3
"""Tries single faults of the definitions: the comparison must notice each.

    tests/machine/faults.py [FIRST [LAST]]

For each fault of faults.txt (or those from FIRST to before LAST, counted from 0) the definitions are
copied into the scratch crate with the fault, and what the Rust tells is claimed of these: of some
runs, and where none differs of all. It takes some minutes, so the gate leaves it out.
"""

import os
import re
import sys
import tempfile

from compare import CRATE, HERE, ROOT, chosen_from, claims, crates_under, proved, refused, repository, rules, unfolded
from compare import write

# What is copied; Loaded gives the start, with the single constants loaded.
COPIED = "machine/specs/Act machine/specs/Machine machine/specs/Single machine/specs/Demand".split()
COPIED += "machine/proofs/Loaded word/specs/Word procedure/specs/Procedure roles/specs/Roles".split()
AT_ONCE = 12  # faults in one scratch crate


def faults():
    """File, old text and new text of each fault."""
    with open(os.path.join(HERE, "faults.txt")) as text:
        lines = [line.rstrip("\n") for line in text if line.strip() and not line.startswith("#")]
    words = [line.partition(": ")[2] for line in lines]
    return list(zip(words[::3], words[1::3], words[2::3]))


def to_copies(text, suffix):
    """A module's text, with the copies used in place of what they are copies of."""
    for copied in [*COPIED, "tried/specs/Rules"]:
        crate, kind, module = copied.split("/")
        text = text.replace(f"use Rattle.{crate}.{kind}.{module}.", f"use Rattle.tried.specs.{module}{suffix}.")
    return text


def copies(fault):
    """The modules under a fault, and the rules over them."""
    for copied in COPIED:
        with open(os.path.join(ROOT, "crates", copied + ".antt")) as source:
            text = source.read()
        if fault[0] == copied + ".antt":
            assert text.count(fault[1]) == 1, fault
            text = text.replace(*fault[1:])
        yield os.path.basename(copied), text
    yield "Rules", rules()


def noticing(tried, chosen):
    """For each fault by its number, how many of the runs notice it."""
    crates = crates_under(CRATE)
    modules = {}
    for at, fault in tried:
        part = ("Part", claims(chosen, *unfolded(crates), label=f"f{at}r"))
        modules.update((f"{name}{at}", to_copies(text, at)) for name, text in [*copies(fault), part])
    with tempfile.TemporaryDirectory() as scratch:
        write(repository(scratch, crates), modules)
        found = [re.match(r"f(\d+)r", label)[1] for label, _ in refused(scratch, r"f\d+r\d+")]
    return {at: found.count(str(at)) for at, _ in tried}


def main(words):
    chosen, _ = chosen_from([])
    short = [(run, seen) for run, seen in chosen if len(run.data) <= 18 * 32][::7]
    first, last = [int(w) for w in words] + [0, None][len(words):]
    all_faults = list(enumerate(faults()))[first:last]
    proved(CRATE)
    unnoticed = []
    for k in range(0, len(all_faults), AT_ONCE):
        part = all_faults[k:k + AT_ONCE]
        some = noticing(part, short)
        for at, fault in part:
            runs = some[at] or noticing([(at, fault)], chosen)[at]
            print(f"{at}: {runs or 'NOT'} noticed: {fault[2]}", flush=True)
            unnoticed += [] if runs else [at]
    if any(noticing([(0, ("", "", ""))], short).values()):
        sys.exit("faults: the copies without a fault differ")
    print(f"faults: {len(all_faults)} of the definitions tried, {len(all_faults) - len(unnoticed)} noticed")
    return 1 if unnoticed else 0


if __name__ == "__main__":
    sys.exit(main(sys.argv[1:]))
