#!/usr/bin/env python3
"""Respells the repository's own definitions and lemmas as today's Rattle spells names.

    python3 tools/respell.py [--names]     run once, right after port.py; --names prints the old and new names and changes nothing

Definitions, fields and lemmas are in snake case (`recordAt` is `record_at`), functions into Type in upper camel case. A dash stays
only between two names of functions (`drop-take`); where a plain word hangs on, it becomes `_` (`or-first` is `or_first`). Where two
names would fall together, the one with the dash gets `_lem`. Functions of src/, names that Rattle makes, strings and comments'
words stay. Names that a file imports from the toolchain stay too.
"""

import bisect
import collections
import glob
import re
import sys

DECLARED = re.compile(r"^\s*(?:pattern |unfoldable |abbrev |pub |axiom )*([^\s:({.]+)(?:\s*\{[^}]*\})?\s*:\s")
HEADED = re.compile(r"^\s*(?:abbrev |pub |unfoldable )*(?:record|data|ruleset)\s+([^\s:({.]+)")
# What may stand in an antt name.
LETTER = r"[^\s(){}\[\],;.⌜⌝«»λ`\"'│|:]"
TOKEN = re.compile(rf"(?<!{LETTER})({LETTER}+)")
# Functions of the toolchain's library that lemmas here are named after.
FUNCTIONS = set("length take drop set replicate map append cons nil get_or paste sets min max".split())
PROOF = re.compile(r"/proofs/(.+/)?(Proof|Answers|Invariants)\.antt$")


def files(pattern):
    return sorted(glob.glob(pattern, recursive=True))


def declared():
    """Each name that specs/ and the lemma files declare, with where and with its signature's end."""
    found = collections.defaultdict(list)
    for path in files("crates/*/specs/**/*.antt") + [p for p in files("crates/*/proofs/**/*.antt") if not PROOF.search(p)]:
        for line in open(path, encoding="utf-8"):
            if line.startswith(("--", "use ")):
                continue
            m = HEADED.match(line) or DECLARED.match(line)
            if m:
                found[m.group(1)].append((path, line.rstrip()))
    return found


def snake(name):
    s = re.sub(r"(?<=[a-z0-9])(?=[A-Z])", "_", name)
    return "_".join(w if "-" in w else w[0].lower() + w[1:] for w in s.split("_") if w)


def into_type(lines):
    return all(re.search(r"(→|:)\s*Type 0\s*$", line) for _, line in lines)


def respelled(name, lines, names):
    """The new spelling of a name."""
    if name[0].isupper() or not re.search(r"[A-Z-]", name) or not re.match(r"[a-z]", name):
        return name
    if into_type(lines) and not name.startswith("the-"):
        return "".join(w[0].upper() + w[1:] for w in re.split(r"[-_]", name))
    parts = [snake(p) if re.search(r"[a-z][A-Z]", p) else p for p in name.split("-")]
    if any(p == "" for p in parts):
        return name
    joint = "-" if all(p in names for p in parts) else "_"
    return joint.join(parts)


def renames():
    found = declared()
    functions = FUNCTIONS | {snake(n) for n, at in found.items() if "/specs/" in at[0][0] and "-" not in n}
    new = {n: respelled(n, at, functions) for n, at in found.items()}
    taken = collections.defaultdict(set)
    for n, m in new.items():
        taken[m].add(n)
    for m, old in sorted(taken.items()):
        for n in sorted(old):
            # a lemma is the one with a dash, or, after port.py, the one that isn't in camel case
            if len(old) > 1 and ("-" in n if any("-" in o for o in old) else not re.search(r"[a-z][A-Z]", n)):
                new[n] = m + "_lem"
    clash = collections.defaultdict(set)
    for n, m in new.items():
        clash[m].add(n)
    return {n: m for n, m in new.items() if n != m}, {m: o for m, o in clash.items() if len(o) > 1}


def foreign(text):
    """The names that a file imports from the toolchain."""
    own = {p.split("/")[1] for p in glob.glob("crates/*/src")}
    names = set()
    for m in re.finditer(r"^(?:ghost |pub )*use ([^;\n{]+?)\.\{([^}]*)\}", text, re.M):
        path = m.group(1).strip()
        if path.startswith("Rattle.") and path.split(".")[1] in own:
            continue
        names |= {w.split(" as ")[-1].strip() for w in m.group(2).split(",")} | {w.split(" as ")[0].strip() for w in m.group(2).split(",")}
    return names


def turned(text, new, is_proof, fields):
    keep = foreign(text)

    def one(m):
        name = m.group(1)
        if name not in new or name in keep:
            return name
        before = text[m.start() - 1] if m.start() else ""
        if is_proof and before == "." and "-" in name and name not in fields:
            return name
        return new[name]

    # comments and strings stay
    skips = [(k.start(), k.end()) for k in re.finditer(r"(?m)(?:^|(?<=\s))--.*$|//.*$|b?\"(?:[^\"\\\n]|\\.)*\"", text)]
    starts = [k for k, _ in skips]

    def skipped(i):
        k = bisect.bisect_right(starts, i) - 1
        return k >= 0 and i < skips[k][1]

    return TOKEN.sub(lambda m: m.group(1) if skipped(m.start()) else one(m), text)


def main(words):
    new, clashes = renames()
    if "--names" in words:
        for n, m in sorted(new.items()):
            print(n, m)
        for m, old in sorted(clashes.items()):
            print("CLASH", m, sorted(old))
        return
    fields = {n for n, at in declared().items() if any(line.startswith("  ") for _, line in at)}
    # in code a name in snake case is a function's
    in_code = {n: m for n, m in new.items() if re.search(r"[A-Z-]", n)}
    for path in files("crates/*/specs/**/*.antt") + files("crates/*/proofs/**/*.antt") + files("crates/*/src/**/*.rt"):
        text = open(path, encoding="utf-8").read()
        after = turned(text, in_code if path.endswith(".rt") else new, bool(PROOF.search(path)), fields)
        if after != text:
            open(path, "w", encoding="utf-8").write(after)


main(sys.argv[1:])
