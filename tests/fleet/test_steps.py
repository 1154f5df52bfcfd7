"""What diff says about a file: the steps give the library's form, and each thing that it says is true where it was done."""

import contextlib
import functools
import random
from collections import Counter

from common import ROOT, halivomue, unittest

import fleet
from answers import answers
from halivomue import Arm, Procedure, Table, diff, flow, instruction, roles, steps
from halivomue.procedure import Instruction
from test_answers import generated

WORD = 1 << 64


@functools.lru_cache(None)
def files():
    """Accepted files with the library's answers."""
    made = [due.input for due in answers(ROOT / "tests/reference/answers.txt")][::2]
    made += [bytes(fleet.procedure(seed, 15 + seed * 3, untidy=seed % 5 == 0)) for seed in range(60)]
    made += list(generated())[::25]
    found = []
    for data in made:
        with contextlib.suppress(halivomue.Refused):
            found.append((Procedure.parse(data), halivomue.shorten(data)))
    return found


class Machine:
    """Runs straight code as the page docs/FORMAT.md has it, on words drawn at random; an act gives any words."""

    def __init__(self, constants, rng):
        self.rng, self.words = rng, dict(constants)

    def word(self, reg):
        return self.words.setdefault(reg, self.rng.choice((0, 1, self.rng.randrange(WORD))))

    def run(self, code):
        for i in code:
            read = [self.word(reg) for reg in roles.read(i)]
            if i.kind == "Const":
                self.words[i.dst] = i.v % WORD
            elif i.kind == "Move":
                self.words[i.dst] = read[0]
            elif i.kind == "Select":
                self.words[i.dst] = read[1] if read[0] else read[2]
            elif i.kind == "Bool":
                a, b = read[0] != 0, read[-1] != 0
                self.words[i.dst] = int({"And": a and b, "Or": a or b, "Xor": a != b, "Not": not a}[i.op])
            else:
                for reg in roles.written(i):
                    self.words[reg] = self.rng.choice((0, 1, self.rng.randrange(WORD)))
        return self


class Replayed:
    """Does what the events say, one after the other, and checks each against the form that it finds."""

    def __init__(self, test, p, rng):
        self.test, self.p, self.rng = test, p, rng
        self.blocks = [list(block) for block in p.blocks]
        self.constants = self.single = None
        self.front = []

    def count(self):
        """What is counted before threading."""
        if self.single is None:
            code = [i for block in self.blocks for i in block]
            self.single = {reg for reg, times in Counter(reg for i in code for reg in roles.written(i)).items() if times == 1}
            self.constants = {i.dst: i.v % WORD for i in code if i.kind == "Const" and i.dst in self.single}

    def joined(self, e):
        end = self.blocks[e.block][-1]
        for start, passed in zip(end.targets, e.passed):
            for block in passed:
                self.test.assertEqual((block, len(self.blocks[block]), self.blocks[block][0].kind), (start, 1, "Br"))
                start = self.blocks[block][0].targets[0]
            self.test.assertEqual(start, e.to)
        self.end(e.block, Instruction("Br", "", end.statement, (e.to,)))

    def end(self, block, *code):
        self.blocks[block][-1:] = code

    def runs(self, e):
        self.count()
        return [Machine(self.constants, self.rng).run(self.blocks[e.block][:-1]) for _ in range(6)]

    def decided(self, e):
        end = self.blocks[e.block][-1]
        for machine in self.runs(e):
            self.test.assertEqual(machine.word(e.source), e.known.value % WORD)
            self.test.assertEqual(machine.word(end.c), machine.word(e.source))
        self.test.assertEqual(e.to, end.targets[0] if e.known.value else end.targets[1])
        self.end(e.block, Instruction("Br", "", end.statement, (e.to,)))

    def turned(self, e):
        end = self.blocks[e.block][-1]
        for machine in self.runs(e):
            self.test.assertEqual(machine.word(end.c), machine.word(e.source))
        arms = {"t": end.t, "f": end.f}
        for arm, over, to in e.arms:
            (lone,) = self.blocks[over]
            self.test.assertEqual((arms[arm], lone.kind, lone.c, getattr(lone, arm)), (over, "CondBr", e.source, to))
            arms[arm] = to
        self.end(e.block, Instruction("CondBr", "", end.statement, (e.source, arms["t"], arms["f"])))

    def copied(self, e):
        self.count()
        end = self.blocks[e.block][-1]
        self.test.assertEqual((end.kind, end.targets), ("Br", (e.of,)))
        left_out = [line.i for line in e.left_out]
        for i in left_out:
            self.test.assertTrue(i.kind in ("Const", "ConstF") and i.dst in self.single)
        target = [i for i in self.blocks[e.of] if i not in left_out]
        self.test.assertEqual(len(target) + len(left_out), len(self.blocks[e.of]))
        back = {new: old for old, new in e.fresh}
        self.test.assertEqual([roles.exchanged(line.i, back, back.get((roles.written(line.i) or [None])[0])) for line in e.copy], target)
        self.end(e.block, *(line.i for line in e.copy))

    def emptied(self, e):
        self.count()
        block = self.blocks[e.block]
        rescued = [i for i in block if i.kind in ("Const", "ConstF", "AddrOf") and i.dst in self.single]
        self.test.assertEqual([line.i for line in e.rescued], rescued)
        self.front += rescued
        self.blocks[e.block] = [Instruction("Br", "", block[0].statement, (e.block + 1,))]

    def put_front(self):
        self.blocks[0][:0] = self.front
        self.front = []

    def sliced(self, e):
        self.put_front()
        block, cmp = self.blocks[e.block], e.line.i
        x, y = (e.bounds.left, e.bounds.right) if e.bounds.down else (e.bounds.right, e.bounds.left)
        op = {"Eq": "Lt", "Le": "Lt", "Ne": "Ge", "Gt": "Ge"}[cmp.op]
        self.test.assertEqual(e.to.i, Instruction("Cmp", op, cmp.statement, (cmp.dst, x, y)))
        at = [k for k, i in enumerate(block) if i == cmp and self.tests_length(block[:k], e)]
        self.test.assertTrue(at)
        block[at[0]] = e.to.i

    def tests_length(self, before, e):
        """Does the Cmp test what the code before it says is the length of the bounds, by the instructions that are told?"""
        code = [i for block in self.blocks for i in block]
        times = Counter(reg for i in code for reg in roles.written(i))
        constants = {i.dst: i.v for i in code if i.kind == "Const" and times[i.dst] == 1}
        first, last = e.bounds.by[0].i, e.bounds.by[-1].i
        bounds = (e.bounds.left, e.bounds.right)
        if first.kind == "BoundsLen":
            parts, since = roles.read(first), {first: (first.dst, *bounds)}
        else:
            parts, since = roles.listed(self.p, first), {first: (first.at, *bounds), last: (last.dst, last.dope)}
            if (last.kind, last.dope, last.dim) != ("DopeLen", first.at, 0):
                return False
        for i, regs in since.items():
            if i not in before:
                return False
            after = before[len(before) - before[::-1].index(i) :]
            if any(reg in regs for j in after for reg in roles.written(j)):
                return False
        said = (tuple(parts[:2]), constants.get(parts[2]), last.dst, constants.get(e.line.i.b))
        return said == (bounds, int(e.bounds.down), e.line.i.a, 0)

    def all(self, events):
        for event in events:
            getattr(self, type(event).__name__.lower())(event)
        self.put_front()
        return self.blocks


class Steps(unittest.TestCase):
    def test_what_is_told_is_what_was_done(self):
        """The form and the counts are the library's; what the events say, done again to the file as sent, gives that form."""
        tally, rng = Counter(), random.Random(20)
        for p, short in files():
            trace = steps.trace(p)
            self.assertEqual(bytes(trace.procedure), short.data)
            self.assertEqual(trace.counts, (short.moved, short.grown, short.fresh, short.rescued))
            blocks = Replayed(self, p, rng).all(trace.events)
            self.assertEqual([tuple(block) for block in blocks], list(Procedure.parse(short.data).blocks))
            there = roles.reached(p, [block[-1] for block in blocks])
            for event in trace.events:
                tally[type(event).__name__] += 1
                if isinstance(event, steps.Emptied):
                    self.assertNotIn(event.block, there)
            self.assertEqual(bool(trace.events), bool(short.moved))
            tally[trace.stopped] += 1
        self.assertTrue(all(tally[name] > 20 for name in ("Joined", "Decided", "Turned", "Copied", "Emptied", "Sliced")), tally)
        self.assertTrue(all(tally[why] > 3 for why in ("it has fewer than 6 instructions", "")), tally)

    def test_origins(self):
        """Each line's statement, and its kind if it isn't changed, are those of the line that it is said to come from."""
        for p, _ in files()[::3]:
            for at, block in enumerate(steps.trace(p).blocks):
                for line in block:
                    home = p.blocks[line.block][line.place]
                    if line.how != "emptied":
                        self.assertEqual(line.i.statement, home.statement)
                    if line.how in ("", "rescued"):
                        self.assertEqual(line.i, home)
                    elif line.how == "copied" and line.i.kind != home.kind:
                        self.assertEqual((home.kind, line.i.kind), ("CondBr", "Br"))
                    if line.how in ("", "changed"):
                        self.assertEqual(line.block, at)


class Compared(unittest.TestCase):
    def compared(self, p, short):
        return diff.compare(p, Procedure.parse(short.data), (short.moved, short.grown, short.fresh, short.rescued))

    def test_rows_are_the_two_forms(self):
        """Both columns are the two forms, line for line; marks count what the library counts."""
        told = 0
        for p, short in files():
            c = self.compared(p, short)
            self.assertTrue(c.traced)
            for block, sent, after in zip(c.blocks, p.blocks, c.short.blocks):
                self.assertEqual(tuple(row.sent for row in block.rows if row.sent), sent)
                self.assertEqual(tuple(row.short for row in block.rows if row.short), after)
                for row in block.rows:
                    if row.mark == "":
                        self.assertIsNotNone(row.sent)
                        self.assertEqual(row.sent, row.short)
                if sent != after:
                    self.assertTrue(block.changed)
            rows = [row for block in c.blocks for row in block.rows]
            self.assertEqual(sum(row.mark == "rescued" and row.short is not None for row in rows), short.rescued)
            self.assertEqual(sum(row.mark == "rescued" and row.sent is not None for row in rows), short.rescued)
            self.assertLessEqual(sum(row.mark == "copied" for row in rows), short.grown)
            told += short.moved
        self.assertGreater(told, 300)

    def test_another_form_is_not_explained(self):
        """If the form or a count isn't what the steps give, only what differs is marked, and a line says so."""
        p = fleet.procedure(3, 60)
        short = halivomue.shorten(bytes(p))
        form = Procedure.parse(short.data)
        first = instruction("Stmt", statement=999)
        other = Procedure(form.registers, [[first, *form.blocks[0]], *form.blocks[1:]], form.body, form.operands, form.tables)
        counts = (short.moved, short.grown, short.fresh, short.rescued)
        for c in (diff.compare(p, other, counts), diff.compare(p, form, (1, 0, 0, 0)), diff.compare(p, Procedure((), form.blocks[:3]))):
            self.assertFalse(c.traced)
            text = "".join(piece for line in diff.lines(c, "x") for _, piece in line)
            self.assertIn("can't be told", text)
            self.assertNotIn("  * ", text)
            self.assertNotIn("from block", text)
            self.assertEqual({row.mark for block in c.blocks for row in block.rows} - {"", "gone", "changed"}, set())
            for block, sent, after in zip(c.blocks, p.blocks, c.short.blocks):
                self.assertEqual(tuple(row.sent for row in block.rows if row.sent), sent)
                self.assertEqual(tuple(row.short for row in block.rows if row.short), after)

    def test_beyond_the_limits(self):
        """Files that aren't shortened are compared by their lines."""
        p = Procedure(["I64"] * 481, [[instruction("Ret")]])
        self.assertFalse(diff.compare(p, p).traced)


class Flow(unittest.TestCase):
    def test_marks(self):
        """The marks of the drawings are those of the rows, one for each line."""
        for p, short in files()[::5]:
            c = diff.compare(p, Procedure.parse(short.data))
            of_sent, of_short = flow.marks(c)
            self.assertEqual([len(marks.lines) for marks in of_sent], [len(block) for block in p.blocks])
            self.assertEqual([len(marks.lines) for marks in of_short], [len(block) for block in c.short.blocks])
            self.assertEqual(sum(marks.lines.count("rescued") for marks in of_short), short.rescued)
            for text, form in zip(flow.graphs(c), (c.sent, c.short)):
                self.assertEqual(text.count(" -> b"), flow.count_arrows(form))

    def test_arms_to_one_block_are_one_arrow(self):
        table = Table((Arm(0, 3, 1), Arm(5, 5, 1), Arm(8, 9, 2)), 1)
        p = Procedure(["I64"], [[instruction("Case", v=0, table=0)], [instruction("Ret")], [instruction("Ret")]], None, [], [table])
        self.assertEqual([(arrow.to, arrow.label) for arrow in flow.arrows(p, p.blocks[0])], [(1, "0..3, 5, else"), (2, "8..9")])


if __name__ == "__main__":
    unittest.main()
