#!/usr/bin/env python3
"""Compares whole runs of the machine, computed by antt from the definitions, with the Rust machine's.

    tests/machine/compare.py [NAME...]
    tests/machine/compare.py --told FILE NAME...

Has run-stored (tests/reference) carry out the runs of runs.txt, or those named, writes what it
tells of each as a claim to be proved by `refl` into a scratch crate, has that checked, and says
how many differ. With --told FILE it takes what is told from there. Without names, all that is due
has to be met.
"""

import os
import subprocess
import sys
import tempfile
import time

HERE = os.path.dirname(os.path.abspath(__file__))
sys.path.insert(0, os.path.join(os.path.dirname(HERE), "definition"))
from scratch import ROOT, bytes_of, crates_under, proved, refused, repository, unfolded  # noqa: E402
from stored import runs, told  # noqa: E402

RUNS = os.path.join(HERE, "runs.txt")
RUST = os.path.join(ROOT, "build", "reference", "release", "run-stored")
CRATE = "machine"
A_FILE = 40  # runs in one file of the scratch crate
HEAD = """use mathlib.Core.Path.{◌≡◌, refl}
use mathlib.Core.List.{List, [], ◌∷◌}
use Rattle.std.specs.Prelude.{None, Some}
use Rattle.machine.specs.Act.{Act}
use Rattle.machine.specs.Machine.{returned, unreachable, stopped, ran_out}
use Rattle.tried.specs.Rules.{bytes_in, held, address, listed, drawn, told, act, going, over}"""


def listing(items):
    return "(" + "".join(f"{item} ∷ " for item in items) + "[])"


def optional(item):
    return "None" if item is None else f"(Some {item})"


def outside_of(text):
    sort, _, rest = text.partition(" ")
    if sort == "drawn":
        seed, patience, *words = rest.split()
        return f"(drawn {seed} {patience} {listing(words)})"
    answers = [None if a == "end" else listing(a.replace("-", "").split()) for a in rest.split("/") if rest]
    return f"(listed {listing(map(optional, answers))})"


def act_of(a):
    return f"act {a.kind} {a.op} {a.statement} {listing(a.numbers)} {listing(a.values)}"


def end_of(words, acts):
    """The end, or nothing if the run goes on."""
    how, *numbers = words
    if how == "ret":
        return f"(returned {optional(numbers[1] if numbers[1:] else None)} {numbers[0]})"
    if how == "unreachable":
        return f"(unreachable {numbers[1]} {numbers[0]})"
    if how == "outside":
        return f"(stopped ({act_of(acts[-1])}))"
    assert how == "none", how
    return None


def after_of(a, acts, label):
    end = end_of(a.end, acts[:a.acts])
    if end:
        return f"over {label} {a.acts} {a.entries} {end}"
    return f"going {label} {a.acts} {a.entries} {a.left} {listing(a.words)}"


def claim(run, seen, acts):
    """What the Rust reports about a run, to be computed; `acts` names the list of its acts."""
    rule = " ".join(map(str, run.address))
    budgets = listing("\n    " + after_of(a, seen.acts, acts) for a in seen.after)
    computed = f"told {outside_of(run.outside)} (address {rule}) (held {bytes_of(run.data)}) {listing(run.words)}"
    single = listing(map(optional, seen.single))
    return f"{computed} {len(seen.after)} ≡ record {{ single = {single}; after = {budgets} }}"


def claims(chosen, uses, unfolding, label="r", first=0):
    """A module of claims, one for each run."""
    parts = [HEAD + uses + "\n"]
    for at, (run, seen) in enumerate(chosen, first):
        acts = listing(f"\n    {act_of(a)}" for a in seen.acts)
        parts.append(f"\nabbrev acts{at} : List Act\nacts{at} = {acts}\n")
        name = f"{label}{at}"
        parts.append(f"\n{name} : {claim(run, seen, f'acts{at}')}\nunfolding {unfolding}\n{name} = refl\n")
    return "".join(parts)


def write(specs, modules):
    """The modules of the scratch crate, by name."""
    for name, text in modules.items():
        with open(os.path.join(specs, name + ".antt"), "w") as out:
            out.write(text)
    with open(os.path.join(specs, "Lib.antt"), "w") as out:
        out.writelines(f"pub mod {name}\n" for name in modules)


def rules():
    with open(os.path.join(HERE, "rules.antt.txt")) as text:
        return text.read()


def differing(chosen):
    """The names of the runs that differ, with what antt says."""
    proved(CRATE)
    crates = crates_under(CRATE)
    brought = unfolded(crates)
    modules = {"Rules": rules()}
    for first in range(0, len(chosen), A_FILE):
        modules[f"Part{first}"] = claims(chosen[first:first + A_FILE], *brought, first=first)
    with tempfile.TemporaryDirectory() as scratch:
        write(repository(scratch, crates), modules)
        return [(chosen[int(label[1:])][1].name, said) for label, said in refused(scratch, r"r\d+")]


def to_its_end(run, seen):
    """Whether the report of a run goes to its limit, or to the end and two past it."""
    ended = [a.end != ["none"] for a in seen.after]
    return len(ended) == run.limit + 1 or ended[-3:] == [True] * 3


def chosen_from(words):
    """The runs asked for with what is reported about them, and what they covered."""
    stored = {run.name: run for run in runs(RUNS)}
    if words[:1] == ["--told"]:
        with open(words[1]) as text:
            seen, met = told(text.read())
        # a falsified run is named after the one that it was made of
        return [(stored[name.partition(":")[0]], seen[name]) for name in words[2:]], met
    seen, met = told(subprocess.run([RUST, RUNS], check=True, capture_output=True, text=True).stdout)
    assert all(to_its_end(run, seen[name]) for name, run in stored.items())
    return [(stored[name], seen[name]) for name in words or stored], met


def main(words):
    start = time.time()
    chosen, met = chosen_from(words)
    wrong = differing(chosen)
    for name, said in wrong:
        print(f"differs: {name} {said[:600]}")
    missed = [name for name, count in met.items() if not count]
    if not words:
        print("".join(f"not met: {name}\n" for name in missed), end="")
    kinds = sum(name.startswith("kind ") and ": op " in name for name in met)
    budgets = sum(len(seen.after) for _, seen in chosen)
    print(
        f"machine: {len(chosen)} runs computed from the definitions at {budgets} budgets, {kinds} kinds and ops, "
        f"{len(met) - kinds} edges, {len(missed)} not met, {len(wrong)} differ; {time.time() - start:.0f} s"
    )
    return 1 if wrong or not chosen or not words and (missed or not met) else 0


if __name__ == "__main__":
    sys.exit(main(sys.argv[1:]))
