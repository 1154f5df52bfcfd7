#!/usr/bin/env python3
"""Lists the must-fail edits with the fact for which each was refused, from what the last `rt ci` said (build/ci.log).

    tests/edits/facts.py [CRATE...]

rt tells the first lines of each. If they name no fact, the edit is tried as tests/edits/try.py does, unless tried.txt has that of
the crate as it is; RT_JOBS edits at a time (default 2). Fails if rt said nothing of an edit, if the edit wasn't refused, or if
nothing but a misfit of a proof file with the code is told.
"""

import glob
import importlib
import os
import re
import sys
import tempfile

from verdict import fact

trial = importlib.import_module("try")  # goes to the top of the repository
LINE = re.compile(r"^rt: must-fail (\w+)/(\S+)\.edit: (.*)", re.M)
REFUSED = "refused, as it must be"


def told():
    """What rt said of each edit, by crate and label."""
    try:
        with open("build/ci.log", errors="replace") as text:
            return {found.group(1, 2): found.group(3) for found in LINE.finditer(text.read())}
    except OSError:
        return {}


def names(edit):
    return edit.split("/")[1], os.path.basename(edit)[: -len(".edit")]


def judged(crate, said):
    """Why the edit was refused, and whether that is a fact; None if it has to be tried."""
    if not said.startswith(REFUSED):
        return said or "rt said nothing of it", False
    found = fact(said[len(REFUSED):].lstrip(": "))
    if found and found[1]:
        return found
    if trial.tried().get(crate) == trial.digest(crate):
        return "at a fact, when tests/edits/try.py tried it", True
    return None


def tried(edits):
    """The same of those that have to be tried."""
    with tempfile.TemporaryDirectory() as scratch:
        for edit, (good, line) in zip(edits, trial.attempts(edits, scratch)):
            yield edit, (line.partition(": ")[2], good)


def main():
    said = told()
    edits = [e for e in sorted(glob.glob("crates/*/must-fail/*.edit")) if names(e)[0] in (sys.argv[1:] or [names(e)[0]])]
    known = {edit: judged(names(edit)[0], said.get(names(edit), "")) for edit in edits}
    known.update(tried([edit for edit, why in known.items() if why is None]))
    for edit, (why, good) in known.items():
        print(f"{'' if good else 'FAULT '}{'/'.join(names(edit))}: {why[:200]}", flush=True)
    faults = sum(not good for _, good in known.values())
    print(f"{len(edits)} edits, {faults} without a fact")
    return 1 if faults else 0


if __name__ == "__main__":
    sys.exit(main())
