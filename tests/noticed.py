#!/usr/bin/env python3
"""Tries tests/believed.py and tests/theorem.py: each trick is played in a scratch copy, and they must report it. Also tries whether
tests/checker.py notices that a library isn't the one that `rt ci` left.

    tests/noticed.py
"""

import os
import shutil
import subprocess
import sys
import tempfile
import time

import believed
from antt import Citing, Declaration, read_file
from checker import LEFT, crates, is_left, note_left
from sliced import Slice, check
from theorem import proved
from tree import Tree

ROOT = os.path.dirname(os.path.dirname(os.path.abspath(__file__)))

OTHER = """\
use Rattle.std.specs.Prelude.{ℕ, List}
use Rattle.read.specs.Reading.{Reading, reading}

abbrev pub other : List ℕ → Reading
other b = reading b
"""
READING = "ghost use Rattle.records.specs.Record.{records_of};"
CONTRACT = "{ reading_of result ≡ reading b.now }"
ADDED = {"crates/read/specs/Other.antt": OTHER}
TOLD = "read/specs/Other.antt isn't listed as believed, and the contract of read::read names its `other`"

# A contract stated through a definition of an unlisted file, brought in by each shape of `use` line:
# the line, how the definition is then written, and files that pass it on.
SHAPES = [
    ("ghost use Rattle.read.specs.Other.{other};", "other", {}),
    ("ghost use Rattle.read.specs.Other.{other as hidden};", "hidden", {}),
    ("ghost use Rattle.read.specs.Other as o;", "o.other", {}),
    ("ghost use Rattle.read.specs.Other;", "Other.other", {}),
    ("ghost use Rattle.read.specs as s;", "s.Other.other", {}),
    ("ghost use Rattle.read.specs.{Reading.{answer as told}, Other.{other}};", "other", {}),
    ("ghost use Rattle.read.specs.{\n    Reading.beyond_limit,\n    Other.other as hidden,\n};", "hidden", {}),
    ("ghost use Rattle.read.specs.Reading.{Reading};\n"
     "ghost use Rattle.read.specs.Other as Reading;", "Reading.other", {}),
    ("", "Rattle.read.specs.Other.other", {}),
    ("", "package.Rattle.read.specs.Other.other", {}),
    ("ghost use Rattle.read.specs.Passed.{other};", "other",
     {"crates/read/specs/Passed.antt": "pub use Rattle.read.specs.Other.{other}\n"}),
    ("ghost use Rattle.read.specs.{other};", "other",
     {"crates/read/specs/Lib.antt": "pub mod Structure\npub mod Reading\npub mod Refusal\npub mod Other\npub use Other.*\n"}),
]

# The same through a believed definition, and what else is checked about the page.
EXIST, PATHS = (believed.lines_of(file) for file in ("record_rules/specs/Exist.antt", "paths/specs/Paths.antt"))
PAGE = [
    ("crates/tidy/specs/Tidy.antt", "= lowest (min r s) rs", "= lowest (lesser r s) rs", None),
    ("crates/tidy/specs/Tidy.antt", "use Rattle.paths.",
     "use Rattle.tidy.specs.Least.{lesser}\nuse Rattle.paths.", None),
    ("crates/tidy/specs/Least.antt", None,
     "use Rattle.std.specs.Prelude.{ℕ}\n\nabbrev pub lesser : ℕ → ℕ → ℕ\nlesser r s = r\n",
     "tidy/specs/Least.antt isn't listed as believed, and `lesser` in it is reached from"),
    ("crates/records/specs/Record.antt", "first_records zero b = []", "first_records zero b = drop 1 (blank ∷ [])",
     "`blank` of records/specs/Record.antt has a row as reached from nothing public, and is reached"),
    ("crates/records/specs/Kinds.antt", "abbrev pub zeros ", "abbrev pub spare : ℕ\nspare = 0\n\nabbrev pub zeros ",
     "`spare` of records/specs/Kinds.antt is reached from nothing public, and no row says why it stands there"),
    ("crates/read/src/lib.rt", READING,
     f"{READING}\nghost use Rattle.layout.proofs.layout_of.Statement.{{statement}};", None),
    ("crates/read/src/lib.rt", CONTRACT, "{ (reading_of result ≡ reading b.now) × statement }",
     "Rattle.layout.proofs.layout_of.Statement.statement, which is made of a function's code, is reached from"),
    ("docs/MAP.md", "| `terminator_of` |", "| `terminates` |",
     "`terminates` of ends/specs/Ends.antt has a row as reached from nothing public, and isn't there"),
    ("docs/MAP.md", f"| `record_rules/specs/Exist.antt` | {EXIST} |", f"| `record_rules/specs/Exist.antt` | {EXIST + 1} |",
     f"record_rules/specs/Exist.antt has {EXIST} lines, not {EXIST + 1}"),
    ("docs/MAP.md", f"| `paths/specs/Paths.antt` | {PATHS} | 4 of 7 |", f"| `paths/specs/Paths.antt` | {PATHS} | 7 |",
     "of paths/specs/Paths.antt 4 of 7 definitions are reached, not 7"),
    ("crates/steps/src/lib.rt", "pub struct Shortening {", "pub struct Shortening {\n    pub more: layout::Layout,",
     "| `layout/src/lib.rt` | `Layout` |"),
]

IMPORTS = [
    ("crates/machine/specs/Act.antt", "use Rattle.inst.specs.Inst.{kind_of}", "use Rattle.inst.specs.Nowhere.{kind_of}",
     "crates/machine/specs/Act.antt:3: `Rattle.inst.specs.Nowhere.kind_of` leads nowhere"),
    ("crates/blocks/specs/Blocks.antt", "use Rattle.records.specs.Record.{", "use Rattle.records.specs.Record.{absent, ",
     "`Rattle.records.specs.Record.absent` leads nowhere"),
    ("crates/word/specs/Word.antt", "use Rattle.std.specs.Prelude.{",
     "use Rattle.std.specs.Prelude hiding (true)\nuse Rattle.std.specs.Prelude.{", "a `use` line of a shape that isn't known"),
    ("crates/small/src/lib.rt", "ghost use Rattle.std.specs.Prelude.{", "ghost use mathlib.Core.Nowhere.{◌∙◌};\nghost use Rattle.std.specs.Prelude.{",
     "`mathlib.Core.Nowhere.◌∙◌` leads nowhere"),
    ("crates/gate/src/lib.rt", "ghost use Rattle.std.specs.Prelude.{", "ghost use Rattle.std.specs.Prelude.{absent, ",
     "`Rattle.std.specs.Prelude.absent` leads nowhere"),
    ("crates/record_rules/specs/Work.antt", "fit.TheConstants.{FIRST, ", "fit.TheConstants.{ABSENT, ",
     "`Rattle.record_rules.specs.declared.fit.TheConstants.ABSENT` leads nowhere"),
    ("crates/real/specs/Real.antt", "(Nan b) (Number", "(Unknown b) (Number",
     "the name `Unknown` leads nowhere"),
]

# Things taken without proof, in files that the theorem doesn't import.
SHORTEN = "pub fn shorten(bytes: &[u8], out: &mut [u8]) -> Result<Shortening, Refusal>\n"
SHORTEN_FOR = "pub fn shorten_for(tally: &mut u32, bytes: &[u8], out: &mut [u8]) -> Result<Priced, Refusal>\n"
PROVISION = "pub extern \"C\" fn halivomue_provision(bytes: &[u8], out: &mut [u8]) -> HalivomueProvisioning\n"
SCANNED = [
    ("crates/note/proofs/Lib.antt", "pub mod ", "pub mod Axioms\npub mod ", None),
    ("crates/note/proofs/Axioms.antt", None, "axiom pub never : ⊥\n",
     "crates/note/proofs/Axioms.antt:1: an axiom is declared"),
    ("crates/count_facts/proofs/Laws.antt", "use mathlib.Core.List.{", "use Prim.{\n  Axiom.{lem}\n}\nuse mathlib.Core.List.{",
     "an axiom is named: Axiom"),
    ("crates/gate/proofs/Lib.antt", "pub mod ", "pub mod Open\npub mod ", None),
    ("crates/gate/proofs/Open.antt", None, "use Prim.Native.Nat.{ℕ}\n\nopen-number : ℕ\nopen-number = ?here\n",
     "crates/gate/proofs/Open.antt:4: a hole: ?here"),
    ("crates/facts/src/lib.rt", "ghost use Rattle.std.specs.Prelude.{",
     'extern "C" {\n    fn assumed();\n}\n\nghost use Rattle.std.specs.Prelude.{',
     "C functions are declared, and nothing proves"),
    ("crates/emit_records/proofs/Lib.antt", "pub mod ", "pub mod Lost\npub mod ", None),
    ("crates/emit_records/proofs/Lost.antt", None, "use Rattle.emit_records.proofs.Nowhere.{law}\n",
     "crates/emit_records/proofs/Lost.antt:1: `Rattle.emit_records.proofs.Nowhere.law` leads nowhere"),
    ("crates/shorten/src/lib.rt", SHORTEN, SHORTEN + "    requires { ⊥ }\n", "the clause `requires` isn't stated here"),
    ("crates/shorten/src/lib.rt", SHORTEN, SHORTEN + "    ensures more { result ≡ result }\n", "the clause `ensures more` isn't stated here"),
    ("crates/billing/src/lib.rt", SHORTEN_FOR, SHORTEN_FOR + "    ensures cheaper { result ≡ result }\n", "the clause `ensures cheaper` isn't stated here"),
    ("crates/halivomue_c/src/lib.rt", "    ensures place { result.place ≡ (reading",
     "    ensures other { result.place ≡ result.place }\n    ensures place { result.place ≡ (reading",
     "the clause `ensures other` isn't stated here"),
    ("crates/halivomue_c/src/lib.rt", PROVISION, PROVISION + "    ensures tidier { result.tidy ≡ 1 }\n",
     "the clause `ensures tidier` isn't stated here"),
    ("crates/halivomue_c/src/lib.rt", "const MAJOR: u32 = 0;\n",
     "const MAJOR: u32 = 0;\n\n#[unsafe(no_mangle)]\npub extern \"C\" fn halivomue_more() -> u32\n    ensures { result ≡ 0 }\n{\n    0\n}\n",
     "the contract of `halivomue_more` isn't stated here"),
]

# One more hypothesis.
NEVER = [
    ("crates/promise/proofs/Promised.antt", "(h : Bytes b) where", "(h : Bytes b) (never : ⊥) where",
     "the checker doesn't find promise to be of the type stated here"),
]


# What each definition of a text cites; mk is a constructor.
TEXT = """\
-- a b c d in a comment, and {- a block -} of one
module _ (x : T) (a : T) where
  parameter : T → T
  parameter y = a ⊕ y

  infixl 60 ◌⊗◌
  ◌⊗◌ : T → T → T
  unfolding b
  ◌⊗◌ y z = (◌⊕ c) y

bound : (a : T) → T
bound b = λ c (d : T). let e = b in c ⊕ d ⊕ e

free : T
free = let b = a in λ d. c

matched : T → T
matched (mk a) = elim a [ mk (b → c) ↦ b ⊕ c ]

helped : T
helped = a ⊕ helper b
  where
    helper : T → T
    helper a = d

pub record Pair (a : T) : Type 0 where
  pub b : T
  pub c : Equal b a

labels : Pair c
labels = record {
  b = b;
  c = d.c;
}

pub data Kind : Type 0 where
  a-kind another : T → Kind
  deriving Discrete as kinds

kind : Kind → Kind
kind (a-kind a) = another a
kind (another b) = a-kind {n = b} c

mutual
  even : T → T
  even (mk n) = odd n ⊕ a

  odd : T → T
  odd (mk n) = even n ⊕ b
"""
CITED = {
    "parameter": "T ⊕", "◌⊗◌": "T b ◌⊕ c", "bound": "T ⊕", "free": "T a c", "matched": "T mk ⊕", "helped": "T a ⊕ b d",
    "Pair": "T Equal", "labels": "Pair c b d.c", "Kind": "T Kind Discrete", "kind": "Kind a-kind another c",
    "even": "T mk ⊕ odd a even b",
}


def misread():
    """The definitions of the text whose citations are read wrongly."""
    for d in read_file(TEXT, "the text").declarations:
        citing = Citing("the text", {"mk", "a-kind", "another"}.__contains__)
        citing.declaration(d)
        found = {".".join(parts) for parts in citing.found}
        if found != set(CITED.get(d.name, "").split()):
            yield f"read wrongly: {d.name} cites {' '.join(sorted(found))}"


def linked(one, other):
    """Another name for a file that the toolchain only replaces, or a copy of it."""
    try:
        os.link(one, other)
    except OSError:
        shutil.copy2(one, other)


def sources(crate, folder):
    """A copy of a crate's sources, without what is proved of it and without its edits."""
    shutil.copytree(os.path.join(ROOT, "crates", crate), os.path.join(folder, "crates", crate),
                    ignore=shutil.ignore_patterns("must-fail", "edits", "out"))


def scratch_copy(folder, proofs=False):
    """The repository, and with proofs also what is proved of its libraries."""
    os.makedirs(os.path.join(folder, "docs"))
    shutil.copy(os.path.join(ROOT, "crates.txt"), folder)
    shutil.copy(os.path.join(ROOT, "docs", "MAP.md"), os.path.join(folder, "docs"))
    shutil.copytree(os.path.join(ROOT, "tests"), os.path.join(folder, "tests"), ignore=lambda at, names: [
        name for name in names if at != os.path.join(ROOT, "tests") or not name.endswith(".py")])
    if proofs and os.path.exists(os.path.join(ROOT, LEFT)):
        os.makedirs(os.path.dirname(os.path.join(folder, LEFT)))
        shutil.copy(os.path.join(ROOT, LEFT), os.path.join(folder, LEFT))
    for crate in crates():
        sources(crate, folder)
        built = os.path.join("crates", crate, "out", "rlib")
        if proofs and os.path.isdir(os.path.join(ROOT, built)):
            shutil.copytree(os.path.join(ROOT, built), os.path.join(folder, built), copy_function=linked)


def edit(folder, path, old, new):
    """Makes one change, whose place must be there and be the first of its kind."""
    path, text = os.path.join(folder, path), new
    if old is not None:
        with open(path) as there:
            text = there.read()
        if old not in text:
            sys.exit(f"tests/noticed.py: the trick no longer fits: {old!r} isn't in {path}")
        text = text.replace(old, new, 1)
    with open(path, "w") as out:
        out.write(text)


def tricked(script, tricks):
    """Makes all those changes, runs the script, and returns which of them it didn't report."""
    with tempfile.TemporaryDirectory() as folder:
        scratch_copy(folder, script == "theorem.py")
        for path, old, new, _ in tricks:
            edit(folder, path, old, new)
        told = subprocess.run([sys.executable, os.path.join(folder, "tests", script)], capture_output=True, text=True)
    said, due = told.stdout + told.stderr, [told_of for _, _, _, told_of in tricks if told_of]
    missed = [what for what in due if what not in said]
    if told.returncode != 1:
        missed.append(f"{script} ended with {told.returncode}")
    return len(due), missed + ([said[-3000:]] if missed else [])


def through(folder, shape, name, more):
    """Whether the script reports that a contract goes through a definition of an unlisted file."""
    shutil.rmtree(os.path.join(folder, "crates", "read"))
    sources("read", folder)
    for path, text in {**ADDED, **more}.items():
        edit(folder, path, None, text)
    edit(folder, "crates/read/src/lib.rt", READING, f"{READING}\n{shape}")
    edit(folder, "crates/read/src/lib.rt", CONTRACT, CONTRACT.replace("reading b", f"{name} b"))
    tree = Tree(folder)
    functions = [row for row in believed.roots(tree) if row[0] == "read"]
    computed = believed.Computed(tree, tree.reached(believed.contracts(tree, functions)))
    with open(os.path.join(folder, "docs", "MAP.md")) as page:
        return TOLD in set(believed.not_believed(believed.Page(page.read()), computed))


def shapes():
    """The shapes of `use` lines by which such a definition isn't noticed."""
    with tempfile.TemporaryDirectory() as folder:
        scratch_copy(folder)
        return [shape or name for shape, name, more in SHAPES if not through(folder, shape, name, more)]


def dropped(name):
    """Whether the checker notices that a definition is missing from what was reached."""
    tree = Tree(ROOT)
    functions, stated = believed.roots(tree), believed.theorems(tree)
    found = tree.reached(believed.start(tree, functions, stated))
    less = [row for row in found if not (isinstance(row[0], Declaration) and row[0].name == name)]
    with tempfile.TemporaryDirectory() as folder:
        said = check(Slice(tree, less, functions, stated).written(folder))
    return len(less) < len(found) and any(f"`{name}`" in line for line in said)


def put(path, text):
    """Writes a file anew. It may have been another name of one of the repository's."""
    os.makedirs(os.path.dirname(path), exist_ok=True)
    if os.path.exists(path):
        os.remove(path)
    with open(path, "w") as out:
        out.write(text)


LIBRARY = "crates/paths/out/rlib"
# What makes a library another one than that which `rt ci` left: a file and its new text, and whether it was there when that was noted.
OTHER = [
    ("crates/paths/specs/Paths.antt", "-- other sources\n", False),
    ("crates/paths/proofs/More.antt", "-- more sources\n", False),
    ("crates.txt", "general:\npaths: general records\n", False),
    (f"{LIBRARY}/paths.rlib/format", "another library\n", False),
    (f"{LIBRARY}/stamp", "a library of rt's own\n", False),
    (f"{LIBRARY}/stamp", "a library of rt's own\n", True),
]


def is_taken(path, text, before):
    """Whether a crate's library is taken as that which `rt ci` left, with one change made before or after it was noted."""
    with tempfile.TemporaryDirectory() as folder:
        put(os.path.join(folder, "crates.txt"), "paths: general\n")
        sources("paths", folder)
        put(os.path.join(folder, LIBRARY, "paths.rlib/format"), "a library\n")
        os.makedirs(os.path.dirname(os.path.join(folder, LEFT)))
        if before:
            put(os.path.join(folder, path), text)
        note_left(folder)
        if not before and path:
            put(os.path.join(folder, path), text)
        return is_left("paths", folder)


def taken():
    """The libraries that are wrongly taken, or not taken."""
    if not is_taken(None, None, False):
        yield "a library that `rt ci` left isn't taken"
    for path, text, before in OTHER:
        if is_taken(path, text, before):
            yield f"a library is taken in spite of {path}{' before' if before else ''}"


def main():
    began, tried = time.time(), len(SHAPES) + len(CITED) + 1 + len(OTHER)
    proved("promise")
    missed = list(misread()) + list(taken())
    missed += [f"not told: a contract through an unlisted definition, by {shape}" for shape in shapes()]
    if not dropped("terminator_kind"):
        missed.append("the checker didn't notice that a definition is missing")
    for script, tricks in (("believed.py", PAGE), ("believed.py", IMPORTS), ("theorem.py", SCANNED + NEVER)):
        due, lost = tricked(script, tricks)
        tried, missed = tried + due, missed + lost
    for line in missed:
        print(line)
    wrong = f"{len(missed)} faults" if missed else "all told"
    print(f"tests/noticed.py: {tried} tricks and readings tried, {wrong}; {time.time() - began:.0f} s")
    return 1 if missed else 0


if __name__ == "__main__":
    sys.exit(main())
