#!/usr/bin/env python3
"""Checks crates.txt against the sources: each crate lists the crates that its sources name, in the order of the file, and no others.

    tests/crates.py [--write]    --write corrects the lists

A crate whose code has a value of a type that another crate declares lists that crate too, since the prover needs it.
"""

import glob
import os
import re
import subprocess
import sys

ROOT = os.path.dirname(os.path.dirname(os.path.abspath(__file__)))
os.chdir(ROOT)
# The toolchain's libraries but std, which isn't listed.
DOC = subprocess.run(["rt", "doc"], capture_output=True, text=True, check=True).stdout.strip()
KIT = sorted({name[:-len(".rlib")] for name in os.listdir(os.path.join(os.path.dirname(DOC), "rlibs"))} - {"core", "std"})
# For a crate, the crates whose types its functions take or return, or its types hold; each before the ones it leads to.
HELD = {"shorten": {"steps"}, "shortening": {"pause"}, "run": {"thread"}, "pause": {"inst"}, "ops": {"inst"}, "items": {"inst"}, "inst": {"real"}}
ROW = re.compile(r"^([a-z_0-9]+)(?: [a-z_=0-9 ]+)?:(.*)$", re.M)  # words may follow the name, as for a static library


def named_in(crate):
    """The crates that a crate's code, definitions and proofs name. Comments, the crate's own modules and out/ don't count."""
    cited, called, own = set(), set(), set()
    for path in glob.glob(f"crates/{crate}/**/*.*", recursive=True):
        if path.endswith((".rt", ".antt")) and not path.startswith(f"crates/{crate}/out/"):
            with open(path) as file:
                text = re.sub(r"(//|--).*", "", file.read())
            cited |= set(re.findall(r"\bRattle\.([a-z_0-9]+)\b", text))
            if path.endswith(".rt"):
                called |= set(re.findall(r"(?<![\w:])([a-z_0-9]+)::", text))
                own |= set(re.findall(r"^(?:pub )?mod ([a-z_0-9]+);", text, re.M))
                own |= {name for used in re.findall(r"\buse (?:std|core)::([^;]+);", text) for name in re.findall(r"\b[a-z_0-9]+\b", used)}
    return (cited | (called - own)) - {crate}


def main():
    with open("crates.txt") as file:
        text = file.read()
    order = [name for name, _ in ROW.findall(text)]
    faults = []
    for name, listed in ROW.findall(text):
        named = named_in(name)
        for outer, inner in HELD.items():
            named |= inner if outer in named else set()
        due = [n for n in order if n in named] + [n for n in KIT if n in named]
        if set(due) != set(listed.split()):
            faults.append(f"{name}: {' '.join(due)}")
            text = re.sub(rf"^({name}\b[^:]*):.*$", lambda row: f"{row[1]}: {' '.join(due)}".rstrip(), text, flags=re.M)
    if "--write" in sys.argv:
        with open("crates.txt", "w") as file:
            file.write(text)
        faults = []
    for fault in faults:
        print("crates.txt: not what its sources name;", fault)
    if not faults:
        print(f"crates.txt: {len(order)} crates, {sum(len(r.split()) for _, r in ROW.findall(text))} names, as the sources have them")
    return 1 if faults else 0


if __name__ == "__main__":
    sys.exit(main())
