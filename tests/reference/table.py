#!/usr/bin/env python3
"""Makes a table of the definition from the stored answers whose names begin with `length-`: crates/steps/proofs/Lengths.antt.

table.py           says whether the file is the one that the answers give
table.py --write   writes it
"""

import os
import sys

from answers import STORED, answers

HERE = os.path.dirname(os.path.abspath(__file__))
FILE = os.path.join(HERE, "..", "..", "crates", "steps", "proofs", "Lengths.antt")
HEAD = """\
-- Document 02, 2.1, by computation: what `run` makes of small files with lengths and their tests. `tests/reference/table.py` writes this
-- file from the stored answers of the Rust.
use Prim.Native.Nat.{ℕ}
use mathlib.Core.Path.{◌≡◌, refl}
use mathlib.Core.Bool.{Bool, true, false}
use mathlib.Core.List.{List, [], ◌∷◌, map}
use Rattle.records.specs.declared.Record.{Record}
use Rattle.layout.specs.Classes.{of_class, before}
use Rattle.codec.specs.Codec.{inst_of, inst_record}
use Rattle.items.specs.Items.{row_of}
use Rattle.procedure.specs.Procedure.{tables_from, procedure_of}
use Rattle.procedure.specs.Lists.{any_of, times, found}
use Rattle.procedure.specs.Counts.{writes_in, use_count}
use Rattle.ends.specs.Forms.{form_of, fixed_of}
use Rattle.ends.specs.Ends.{view_of, end_of, front, with_end}
use Rattle.roles.specs.Exchange.{exchanged}
use Rattle.paths.specs.Paths.{total, walk, reached_from}
use Rattle.steps.specs.Small.{copyable, small, step_by, step_block, latch, reads_konst}
use Rattle.steps.specs.Facts.{const_in, const_of, konst_of, facts_of}
use Rattle.steps.specs.Note.{values_without, copies_without, forget_all, learn, notes}
use Rattle.steps.specs.EqualArms.{follow, join_arms, join_from}
use Rattle.steps.specs.Gate.{back_edge_from, copied, may_thread_from}
use Rattle.steps.specs.Copy.{how_of, own_uses, copy_from, kinds_given}
use Rattle.steps.specs.Thread.{arm_of, hop_cond_br, stops, hop_br, hop, hops, thread_from}
use Rattle.steps.specs.Emit.{reached, stays, empty_from, rescued_of, rescues}
use Rattle.steps.specs.Slice.{measure_of, entry, tests_from, sliced_from, some_test, has_lengths}
use Rattle.steps.specs.Run.{Shortened, emit, threaded_form, sliced_form, run}
use Rattle.steps.specs.Write.{block_records, table_records, records_for}

abbrev reg : ℕ → Record
reg type = row_of 1 type 0 0 0 0 0 0

abbrev block : ℕ → ℕ → Record
block start end = row_of 2 0 start end 0 0 0 0

-- kind, op, statement, p1 to p4
abbrev code : ℕ → ℕ → ℕ → ℕ → ℕ → ℕ → ℕ → Record
code kind op stmt p1 p2 p3 p4 =
    record { class = 4; kind = kind; op = op; zero = 0; stmt = stmt; p1 = p1; p2 = p2; p3 = p3; p4 = p4; p5 = 0; p6 = 0 }

abbrev operand : ℕ → Record
operand r = row_of 5 0 r 0 0 0 0 0

-- the records sent, and what is left of them, with the counts
pub record Row : Type 0 where
  pub sent : List Record
  pub moved : Bool
  pub grown : ℕ
  pub fresh : ℕ
  pub rescued : ℕ
  pub left : List Record

abbrev row : List Record → Bool → ℕ → ℕ → ℕ → List Record → Row
row sent moved grown fresh rescued left =
    record { sent = sent; moved = moved; grown = grown; fresh = fresh; rescued = rescued; left = left }

abbrev given : List Record → Shortened → Row
given sent s = row sent s.moved s.grown s.fresh s.rescued (records_for s.procedure)
"""
FOOT = """
pub proved : map (λ r. given r.sent (run (procedure_of r.sent))) table ≡ table
unfolding of_class before inst_of inst_record tables_from procedure_of any_of times found form_of view_of end_of front with_end copyable small step_by
    step_block latch reads_konst writes_in use_count fixed_of const_in const_of konst_of facts_of values_without copies_without forget_all learn notes
    follow join_arms join_from back_edge_from copied may_thread_from exchanged how_of own_uses copy_from kinds_given arm_of hop_cond_br stops hop_br hop hops
    thread_from total walk reached_from reached stays empty_from rescued_of rescues emit threaded_form measure_of entry tests_from sliced_from some_test
    has_lengths sliced_form block_records table_records records_for
proved = refl
"""


def words(data):
    """The records, each as its class, kind, op, byte 3, statement and p1 to p6."""
    for at in range(0, len(data), 32):
        record = data[at:at + 32]
        yield [*record[:4], *(int.from_bytes(record[k:k + 4], "little") for k in range(4, 32, 4))]


def row(numbers):
    cls, kind, op, zero, stmt, *p = numbers
    assert zero == 0 and p[4] == p[5] == 0
    if cls == 1:
        return f"reg {kind}"
    if cls == 2:
        return f"block {p[0]} {p[1]}"
    if cls == 5:
        return f"operand {p[0]}"
    assert cls == 4
    return f"code {kind} {op} {stmt} {p[0]} {p[1]} {p[2]} {p[3]}"


def lines(elements):
    """A list, on as many lines as it needs."""
    text, line = "", "    "
    for e in [*elements, "[]"]:
        e = f"∷ {e}" if text or line.strip() else e
        if len(line) + len(e) > 140:
            text, line = f"{text}{line.rstrip()}\n", "    "
        line += f"{e} "
    return text + line.rstrip()


def listed(data):
    return lines(map(row, words(data)))


def made():
    """The text of the file."""
    text, names = [HEAD], []
    for a in answers(STORED):
        if not a.name.startswith("length-") or ":" in a.name:
            continue
        name = a.name.replace("-", "_")
        sent, left = listed(a.input), listed(a.output)
        moved = "true" if a.moved else "false"
        counts = f"{moved} {a.grown} {a.fresh} {a.rescued}"
        text.append(f"\nabbrev sent_{name} : List Record\nsent_{name} =\n{sent}\n")
        left = f" sent_{name}" if a.output == a.input else f" (\n{left})"
        text.append(f"\nabbrev {name} : Row\n{name} = row sent_{name} {counts}{left}\n")
        names.append(name)
    text.append(f"\nabbrev pub table : List Row\ntable =\n{lines(names)}\n{FOOT}")
    return "".join(text)


def main():
    text = made()
    if sys.argv[1:] == ["--write"]:
        with open(FILE, "w") as to:
            to.write(text)
    elif open(FILE).read() != text:
        sys.exit("table: crates/steps/proofs/Lengths.antt isn't what the stored answers give: table.py --write")


main()
