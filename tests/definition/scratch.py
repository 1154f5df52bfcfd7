"""A scratch repository over crates that are already proved, for claims that antt has to compute."""

import os
import re
import sys

ROOT = os.path.dirname(os.path.dirname(os.path.dirname(os.path.abspath(__file__))))
sys.path.insert(0, os.path.join(ROOT, "tests"))
from checker import below, command, said  # noqa: E402
from checker import proved as unproved  # noqa: E402


def crates_under(crate):
    """The crate and all that it is built on."""
    return below([crate])


def unfoldable(crates):
    """All definitions that computing may have to unfold: module and name."""
    for name in "of_bits of_fields to_bits eq".split():
        yield "lib.Ieee", name
    for crate in crates:
        specs = os.path.join(ROOT, "crates", crate, "specs")
        for folder, _, files in sorted(os.walk(specs)):
            for name in sorted(files):
                path = os.path.join(folder, name)
                module = os.path.relpath(path, specs)[:-len(".antt")].replace(os.sep, ".")
                with open(path) as text:
                    for found in re.findall(r"^ *unfoldable pub (\S+) :", text.read(), re.M):
                        yield f"Rattle.{crate}.specs.{module}", found


def unfolded(crates):
    """The lines that import these definitions, and the words after `unfolding`."""
    names = list(enumerate(unfoldable(crates)))
    uses = "".join(f"\nuse {module}.{{{name} as u{at}}}" for at, (module, name) in names)
    return uses, " ".join(f"u{at}" for at, _ in names)


def repository(scratch, crates):
    """A folder for a crate `tried` over those crates; its specs' folder."""
    folder = os.path.join(scratch, "tried")
    os.makedirs(os.path.join(folder, "src"))
    os.makedirs(os.path.join(folder, "specs"))
    with open(os.path.join(folder, "src", "lib.rt"), "w") as out:
        out.write("// Claims, computed.\n")
    with open(os.path.join(scratch, "on.txt"), "w") as out:
        out.write(" ".join(crates))
    return os.path.join(folder, "specs")


def bytes_of(data):
    """Bytes as a term in which bytes_in takes a number apart."""
    return f"(bytes_in {len(data)} {int.from_bytes(data, 'little'):#x})"


def proved(crate):
    """Has the crate proved, if it isn't yet."""
    why = unproved(crate)
    if why:
        sys.exit(why)


def refused(scratch, label):
    """The claims of `tried` that are refused: each label with the checker's message."""
    with open(os.path.join(scratch, "on.txt")) as text:
        crates = text.read().split()
    status, lines = said(os.path.join(scratch, "tried"), [*command("tried", crates), "--jobs", "2"])
    text = "\n".join(lines)
    found = re.findall(rf"error: `({label})`: (.*)", text)
    if status and not found or not status and not lines[-1].startswith("logic=proved "):
        sys.exit(text[-3000:])
    return found
