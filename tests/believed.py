#!/usr/bin/env python3
"""Computes what a reader has to believe, and compares docs/MAP.md with it.

    tests/believed.py [--write]    --write corrects the counts and the table of types in docs/MAP.md

It starts from the contracts of each exported function (`pub extern "C" fn` of the crate halivomue_c)
and of each public operation, and from the statements of the theorems. It follows everything that these cite,
from definition to definition, down to the toolchain's library; types that the code declares count too.
Then the checker itself is given what was reached, and nothing else, as one crate (sliced.py): it must
find every name. So nothing is missing. Too much may be reached; antt.py and tree.py say where.

It fails if
- something is reached in a file that docs/MAP.md doesn't list as believed;
- a definition of a believed file is reached from nothing public, and no row says why it is there;
- such a row names a definition that is reached, or that doesn't exist;
- nothing in a believed file is reached, a file of crates/*/specs is in neither list, or a count or the
  table of types is wrong;
- an import leads nowhere, or a `use` line or an item has an unknown shape, in any crate's definitions
  and contracts, reached or not.
"""

import glob
import os
import re
import sys
import tempfile
from collections import defaultdict

from antt import Declaration, Fault
from rattle import Declared
from sliced import Slice, check
from tree import Made, Tree

ROOT = os.path.dirname(os.path.dirname(os.path.abspath(__file__)))
MAP = os.path.join(ROOT, "docs", "MAP.md")
EXPORTING = "halivomue_c"
OPERATIONS = [
    ("read", "read"), ("tidy", "tidy"), ("shorten", "shorten"), ("shorten", "shorten_within"), ("shorten", "tidy_and_shorten"),
    ("billing", "shorten_for"), ("billing", "provision_for"), ("accounts", "make"), ("accounts", "tally"), ("accounts", "shorten_for"),
    ("accounts", "provision_for"), ("accounts", "save"), ("accounts", "load"), ("accounts", "join"),
]
THEOREM = ("Rattle", "promise", "proofs", "Promised", "promise")
TALLIED = ("Rattle", "histories", "proofs", "Tallied", "tallied")

BELIEVED, TYPES = "## What a reader has to believe", "### The types that they use"
BESIDE, STORAGE = "### In the same files, but needed by nothing public", "## Storage and statements"
ROW = re.compile(r"^\| `([a-z_]+/specs/[A-Za-z/]+\.antt)` \| (\d+) \|(?: (\d+(?: of \d+)?) \|)?", re.M)


def roots(tree):
    """The functions whose contracts are public: crate, code, function."""
    found = [(EXPORTING, code, f) for code in tree.sources(EXPORTING) for f in code.functions.values() if f.exported]
    if not found:
        raise Fault(f"crates/{EXPORTING} exports no function")
    for crate, name in OPERATIONS:
        code = tree.code(crate, ())
        if not code or name not in code.functions:
            raise Fault(f"the crate {crate} has no function `{name}`")
        found.append((crate, code, code.functions[name]))
    return found


def contracts(tree, functions):
    """What the contracts of some functions cite."""
    for crate, code, function in functions:
        name = f"{crate}::{function.name}"
        if not any(clause.kind == "ensures" for clause in function.clauses):
            raise Fault(f"{code.path}:{function.line}: `{name}` is public and ensures nothing")
        for target in tree.contract(code, function):
            yield target, f"the contract of {name}", name


def theorems(tree):
    return [tree.item(path, "the theorems") for path in (THEOREM, TALLIED)]


def start(tree, functions, stated):
    """What the contracts and the theorems' statements cite."""
    yield from contracts(tree, functions)
    for theorem in stated:
        for target in tree.cited(theorem, statement=True):
            yield target, f"the statement of {theorem.name}", theorem.name


def read_all(tree):
    """Reads each crate's definitions and contracts; returns what is unknown or leads nowhere."""
    faults = []
    for crate in tree.crates:
        for path in sorted(glob.glob(os.path.join(ROOT, "crates", crate, "specs", "**", "*.antt"), recursive=True)):
            try:
                file = os.path.relpath(path, ROOT)
                tree.scope(file)
                for declaration in tree.antt(file).declarations:
                    tree.cited(declaration)
            except Fault as fault:
                faults.append(str(fault))
        faults += tree.code_faults(crate)
    return faults


def part(text, heading):
    """A section of the page, up to the next heading: where it starts and ends."""
    at = text.find("\n" + heading)
    if at < 0:
        raise Fault(f"docs/MAP.md has no section '{heading}'")
    end = text.find("\n#", at + 2)
    return at, len(text) if end < 0 else end


class Page:
    """docs/MAP.md: the lists that are compared with what was computed."""

    def __init__(self, text):
        self.text, self.faults = text, []
        self.believed = self.files(BELIEVED)
        self.storage = self.files(STORAGE)
        self.beside = []
        at, end = part(text, BESIDE)
        for row in re.finditer(r"^\| `([^`|]+)` \| ([^|]*) \| *([^|]*?) *\|$", text[at:end], re.M):
            if not row.group(3):
                self.faults.append(f"no reason why {row.group(2)} stand in {row.group(1)}")
            self.beside += [(row.group(1), name) for name in re.findall(r"`([^`]+)`", row.group(2))]

    def files(self, heading):
        at, end = part(self.text, heading)
        return {m.group(1): (int(m.group(2)), m.group(3)) for m in ROW.finditer(self.text[at:end])}

    def mend(self, heading, pattern, value):
        """Puts a value in place of what a pattern's second group has, in one section."""
        at, end = part(self.text, heading)
        section = re.sub(pattern, lambda m: m.group(1) + value + m.group(3), self.text[at:end], count=1, flags=re.M)
        self.text = self.text[:at] + section + self.text[end:]


def lines_of(file):
    with open(os.path.join(ROOT, "crates", file)) as text:
        return len(text.readlines())


class Computed:
    """What was reached, by files."""

    def __init__(self, tree, found):
        self.tree, self.tools, self.made = tree, set(), []
        self.definitions, self.types = defaultdict(list), defaultdict(list)
        for target, by, root in found:
            if isinstance(target, Declaration):
                self.definitions[target.file[len("crates/"):]].append((target, by, root))
            elif isinstance(target, Declared):
                self.types[target.file[len("crates/"):]].append(target.name)
            elif isinstance(target, Made):
                self.made.append((target.name, root))
            else:
                self.tools.add(target.name)

    def declared(self, file):
        return self.tree.antt("crates/" + file).declarations

    def count(self, file):
        reached, every = len(self.definitions[file]), len(self.declared(file))
        return str(every) if reached == every else f"{reached} of {every}"

    def lines(self):
        rows = [span for row in self.definitions.values() for d, _, _ in row for span in d.spans]
        return sum(last - first + 1 for first, last in rows)

    def table(self):
        """The rows of types: a file of code, and those that it declares."""
        rows = [(file, ", ".join(f"`{name}`" for name in sorted(names))) for file, names in self.types.items()]
        return [f"| `{file}` | {names} |" for file, names in sorted(rows)]


def not_believed(page, computed):
    """What is reached in files that aren't listed as believed."""
    for name, root in computed.made:
        yield f"{name}, which is made of a function's code, is reached from {root}"
    for file in sorted(set(computed.definitions) - set(page.believed)):
        for d, by, root in computed.definitions[file]:
            if by.startswith("the "):
                yield f"{file} isn't listed as believed, and {by} names its `{d.name}`"
            else:
                yield f"{file} isn't listed as believed, and `{d.name}` in it is reached from {root}, by `{by}`"


def not_reached(page, computed):
    """Compares the definitions of believed files that nothing public reaches with the page's rows."""
    beside = set(page.beside)
    for entry in sorted({e for e in beside if page.beside.count(e) > 1}):
        yield f"`{entry[1]}` of {entry[0]} has two rows of reasons"
    for file in page.believed:
        reached = {d.name for d, _, _ in computed.definitions.get(file, [])}
        every = {d.name for d in computed.declared(file)}
        if not reached:
            yield f"{file} is listed as believed, and nothing in it is reached"
        for name in sorted(every - reached - {n for f, n in beside if f == file}):
            yield f"`{name}` of {file} is reached from nothing public, and no row says why it stands there"
        for name in sorted(n for f, n in beside if f == file):
            if name in reached:
                yield f"`{name}` of {file} has a row as reached from nothing public, and is reached"
            elif name not in every:
                yield f"`{name}` of {file} has a row as reached from nothing public, and isn't there"
    for file, name in sorted(beside):
        if file not in page.believed:
            yield f"`{name}` has a row as reached from nothing public, and {file} isn't listed as believed"


def listed(page):
    """Compares both lists with the tree."""
    every = {os.path.relpath(p, os.path.join(ROOT, "crates")) for p in
             glob.glob(os.path.join(ROOT, "crates", "*", "specs", "**", "*.antt"), recursive=True)}
    every = {p for p in every if not p.endswith("/specs/Lib.antt")}
    both = set(page.believed) | set(page.storage)
    yield from (f"{n} is listed twice" for n in sorted(set(page.believed) & set(page.storage)))
    yield from (f"{n} isn't listed" for n in sorted(every - both))
    yield from (f"{n} is listed and isn't there" for n in sorted(both - every))


def counts(page, computed, write):
    """The numbers of the lists and the table of types; with `write` they are corrected."""
    faults = []
    there = [f for f in (*page.believed, *page.storage) if os.path.isfile(os.path.join(ROOT, "crates", f))]
    for file in there:
        heading = BELIEVED if file in page.believed else STORAGE
        told, of = (page.believed | page.storage)[file]
        row, now = rf"^(\| `{re.escape(file)}` \| )", lines_of(file)
        if told != now:
            faults.append((f"{file} has {now} lines, not {told}", heading, row + r"(\d+)( \|)", str(now)))
        if file in page.believed and of != computed.count(file):
            fault = f"of {file} {computed.count(file)} definitions are reached, not {of}"
            faults.append((fault, heading, row[:-1] + r"\d+ \| )([^|]*)( \|)", computed.count(file)))
    total = f"{sum(lines_of(f) for f in there if f in page.believed)} | {total_of(page, computed)}"
    if f"\n| all | {total} |" not in page.text:
        faults.append((f"the row of all is not {total}", BELIEVED, r"^(\| all \| )([^|]*\|[^|]*)( \|)", total))
    at, end = part(page.text, TYPES)
    if re.findall(r"^\| `.*", page.text[at:end], re.M) != computed.table():
        rows = "\n".join(computed.table()) + "\n"
        faults.append(("the table of types isn't\n" + rows, TYPES, r"(\| --- \| --- \|\n)((?:\|.*\n?)*)(.*)", rows))
    if not write:
        return [fault[0] for fault in faults]
    for _, heading, pattern, value in faults:
        page.mend(heading, pattern, value)
    return []


def total_of(page, computed):
    there = [f for f in page.believed if os.path.isfile(os.path.join(ROOT, "crates", f))]
    reached, every = (sum(map(len, part)) for part in (
        [computed.definitions.get(f, []) for f in there], [computed.declared(f) for f in there]))
    return str(every) if reached == every else f"{reached} of {every}"


def told(page, computed):
    """How much is reached, and what is in believed files though nothing reaches it."""
    types = sum(map(len, computed.types.values()))
    print(f"reached: {sum(map(len, computed.definitions.values()))} definitions of {computed.lines()} lines in "
          f"{len(computed.definitions)} files, {types} types of the code in {len(computed.types)} files, "
          f"{len(computed.tools)} names of the toolchain")
    rows = defaultdict(list)
    for file in page.believed:
        reached = {d.name for d, _, _ in computed.definitions.get(file, [])}
        rows[file] = [d.name for d in computed.declared(file) if d.name not in reached]
    print(f"in believed files, reached from nothing public: {sum(map(len, rows.values()))} definitions")
    for file, names in rows.items():
        if names:
            print(f"  {file}: {' '.join(names)}")


def judged(tree, page, faults, write):
    """Adds the faults of the page to those found before; if there are none, the checker's."""
    stated, functions = theorems(tree), roots(tree)
    found = tree.reached(start(tree, functions, stated))
    computed = Computed(tree, found)
    faults += page.faults + [*not_believed(page, computed), *not_reached(page, computed), *listed(page)]
    faults += counts(page, computed, write)
    told(page, computed)
    if not faults:
        with tempfile.TemporaryDirectory() as folder:
            said = check(Slice(tree, found, functions, stated).written(folder))
        faults += [f"the checker, over what was reached and nothing else: {line}" for line in said]


def main(words):
    tree = Tree(ROOT)
    faults = read_all(tree)
    try:
        with open(MAP) as text:
            page = Page(text.read())
        judged(tree, page, faults, "--write" in words)
        if "--write" in words:
            with open(MAP, "w") as out:
                out.write(page.text)
    except Fault as fault:
        faults.append(str(fault))
    for fault in dict.fromkeys(faults):
        print("fault:", fault)
    if not faults:
        print("the checker finds every name in what was reached, with nothing else there")
    return 1 if faults else 0


if __name__ == "__main__":
    sys.exit(main(sys.argv[1:]))
