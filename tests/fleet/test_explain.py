"""What is said of a refused or untidy file holds of its bytes, and mending just that leads on."""

import random
import re
import struct
import sys
from collections import Counter

from common import ROOT, SAMPLES, halivomue, unittest

import fleet
import replay
from halivomue import Procedure, causes, explain, instruction, roles, styled
from halivomue.answers import reason

sys.path.append(str(ROOT / "tests" / "format"))
import page as written  # noqa: E402  (docs/FORMAT.md carried out, with the page's own tables)

RECORD = struct.Struct("<4B7I")
CLASSES = {name: of for of, name in causes.CLASSES.items()}
FIELDS = {"class": 0, "kind": 1, "op": 2, "byte 3": 3, "statement": 4, **{f"p{n}": 4 + n for n in range(1, 7)}}
PAGE_KINDS = {1: 5, 2: 1, 3: 1, 4: len(written.KINDS), 5: 1, 6: 2}


def damaged(rng, data):
    """The bytes with one to three things changed, as a tired hand or a bad line would."""
    data = bytearray(data)
    for _ in range(rng.randint(1, 3)):
        records = len(data) // 32
        at = 32 * rng.randrange(records)
        what = rng.randrange(9)
        if what == 0:
            data[at + rng.randrange(32)] ^= 1 << rng.randrange(8)
        elif what <= 4:
            field = rng.choice((0, 1, 2, 3, 4, *range(8, 32, 4)))
            data[at + field] = rng.choice((0, 1, 2, 3, 4, 5, 6, 18, 21, 23, 24, 255, rng.randrange(256)))
        elif what == 5:
            del data[at : at + 32]
        elif what == 6:
            data[at:at] = data[at : at + 32]
        elif what == 7:
            other = 32 * rng.randrange(records)
            data[at : at + 32], data[other : other + 32] = data[other : other + 32], data[at : at + 32]
        elif rng.random() < 0.2:
            data += b"\n"
        if not data:
            return bytes(data)
    return bytes(data)


def refused():
    """Refused files: the vectors, and drawn files and samples that were damaged."""
    for _, data, due in replay.vectors(ROOT / "tests/vectors/read.txt"):
        yield data
    rng = random.Random("explain")
    sources = [path.read_bytes() for path in sorted(SAMPLES.glob("*.call"))]
    sources += [bytes(fleet.procedure(seed, 8 + seed)) for seed in range(40)]
    for number in range(4000):
        yield damaged(rng, sources[number % len(sources)])
    yield bytes(Procedure(["I64"] * 481, [[instruction("Ret")]]))
    yield bytes(Procedure(["I64"], [[*[instruction("Stmt")] * 480, instruction("Ret")]]))


def answer(data):
    """The library's refusal of a file, 8 among them."""
    found = halivomue.read(data)
    if found.number:
        return found.number, found.record
    try:
        halivomue.shorten(data)
        return 0, 0
    except halivomue.Refused as error:
        return error.number, error.record


def holds(cause, number, record, data, file):
    """Does the condition hold, by the tables and sentences of docs/FORMAT.md?"""
    if number == 1:
        return {"long": len(data) > 65536, "odd": len(data) % 32 > 0}[cause.name]
    if number in (3, 8):
        count = {name: len(file.of[of]) for name, of in CLASSES.items()}
        (name,) = cause.fields
        if cause.name == "no block":
            return count["block"] == 0
        return count[name] > (480 if number == 8 else written.LIMITS[CLASSES[name]])
    r = file.records[record]
    return {2: holds_2, 4: holds_4, 5: holds_5, 6: holds_6, 7: holds_7}[number](cause, r, record, file)


def place_of(cause):
    return int(cause.fields[0][1:]) - 1


def holds_2(cause, r, record, file):
    if cause.name == "class":
        return r.cls not in PAGE_KINDS
    if cause.name == "kind":
        return r.kind >= PAGE_KINDS[r.cls]
    if cause.name == "op":
        return r.op >= (written.KINDS[r.kind].count if r.cls == 4 else 1)
    if cause.name == "byte 3":
        return r.zero != 0
    if cause.name == "statement":
        return r.statement != 0 and r.cls != 4
    if cause.name == "order":
        return r.cls < file.records[record - 1].cls
    sort = (r.sorts() + ["unused"] * 6)[place_of(cause)]
    found = r.p[place_of(cause)]
    return sort == cause.name and (found > 255 if sort == "small" else found != 0)


def holds_4(cause, r, record, file):
    blocks, code = file.of[2], len(file.of[4])
    number = record - file.first(2)
    due = blocks[number - 1].p[1] if number else 0
    start, end = r.p[:2]
    last = number + 1 == len(blocks)
    return {"start": start != due, "empty": end <= start, "past": end > code, "over": last and end < code}[cause.name]


def holds_5(cause, r, record, file):
    ends = [other.kind in written.TERMINATORS for other in file.code_of(r)]
    return {"missing": not any(ends), "early": any(ends[:-1])}[cause.name]


def holds_6(cause, r, record, file):
    arms = file.of[6]
    due = sum(arm.kind for arm in arms[: record - file.first(6)])
    return {"number": r.p[0] != due, "default": record + 1 == len(file.records) and r.kind != 1}[cause.name]


def holds_7(cause, r, record, file):
    sort = r.sorts()[place_of(cause)]
    there = {"register": len(file.of[1]), "block": len(file.of[2]), "table": sum(arm.kind for arm in file.of[6])}
    if cause.name == "list":
        return sort == "list" and sum(r.operands()) > len(file.of[5])
    return r.p[place_of(cause)] >= there[sort]


def put(data, record, field, value):
    """The bytes with another number in a record's field."""
    numbers = list(RECORD.unpack_from(data, 32 * record))
    numbers[FIELDS[field]] = value
    return data[: 32 * record] + RECORD.pack(*numbers) + data[32 * record + 32 :]


def mended(data, number, record, cause):
    """The bytes with what the rule wants in the field that is named, and nothing else changed."""
    if number == 1:
        return data[: min(len(data), 65536) // 32 * 32]
    if number == 6:
        for field in ("p2", "p3", "p4", "p5") if cause.name == "default" else ():
            data = put(data, record, field, 0)
        return put(data, record, cause.fields[0], int(cause.wanted))
    if number == 4 and cause.name in ("start", "over"):
        return put(data, record, cause.fields[0], int(cause.wanted))
    if number == 2 and cause.name == "order":
        at = 32 * record
        return data[:at] + data[at + 32 :]
    if number in (2, 7) and "none" not in cause.wanted:
        for field in cause.fields:
            data = put(data, record, field, 1 if cause.name == "class" else 0)
        return data
    return None


class Refused(unittest.TestCase):
    def test_every_cause_holds(self):
        """Number and record are docs/FORMAT.md's too; what is said holds by it; and the mended file is refused by something else."""
        tally, mends = Counter(), 0
        for data in refused():
            number, record = answer(data)
            if number == 0:
                continue
            if number != 8:
                self.assertEqual(written.read(data), (number, record))
            found = causes.causes(data, number, record)
            self.assertTrue(found, (number, record))
            file = written.File(data)
            for cause in found:
                self.assertTrue(holds(cause, number, record, data, file), (number, record, cause))
                tally[number, cause.name] += 1
            self.words(data, number, record, found)
            self.fields(found, number, record, file)
            mends += self.mended(data, number, record, found)
        self.assertEqual(set(tally), {(number, name) for number, words in causes._WORDS.items() for name in words})
        self.assertGreater(min(tally.values()), 1)
        self.assertGreater(mends, 1500)

    def words(self, data, number, record, found):
        """The words are those of the first cause, and name its record and the number there."""
        self.assertEqual(causes.reason(data, number, record), found[0].words)
        self.assertTrue(causes.fits(number, record, found[0].words))
        self.assertFalse(any(causes.fits(other, record, found[0].words) for other in range(1, 10) if other != number))
        for cause in found:
            if number in (2, 4, 5, 6, 7):
                self.assertTrue(cause.words.startswith(f"record {record}: "), cause)
                self.assertFalse(causes.fits(number, record + 1, cause.words))
            for field in cause.fields[:1]:
                if field in FIELDS and cause.name not in ("order", "default"):
                    there = RECORD.unpack_from(data, 32 * record)[FIELDS[field]]
                    self.assertRegex(cause.words, rf"\b{there}\b")

    def fields(self, found, number, record, file):
        """Every field that is wrong is named, if class, kind and op say what the fields are."""
        named = {field for cause in found for field in cause.fields}
        r = file.records[record] if number in (2, 7) else None
        if number == 2 and not named & {"class", "kind", "op"}:
            sorts = r.sorts() + ["unused"] * 6
            due = {f"p{n + 1}" for n in range(6) if sorts[n] == "unused" and r.p[n] or sorts[n] == "small" and r.p[n] > 255}
            self.assertEqual({field for field in named if field[0] == "p"}, due)
            self.assertEqual(("byte 3" in named, "statement" in named), (r.zero > 0, r.statement > 0 and r.cls != 4))
        if number == 7:
            single = [causes.Cause("name", "", (f"p{n + 1}",)) for n, sort in enumerate(r.sorts()) if sort in ("register", "block", "table")]
            due = {cause.fields[0] for cause in single if holds_7(cause, r, record, file)}
            self.assertEqual({field for cause in found if cause.name == "name" for field in cause.fields}, due)

    def mended(self, data, number, record, found):
        """With every cause mended the library goes on: it accepts, or finds something else, and never something before."""
        for cause in found:
            data = mended(data, number, record, cause) if data else None
        if data is None:
            return 0
        now = answer(data)
        if "order" in [cause.name for cause in found]:
            # The record was taken out, so another is there.
            return 1
        if now == (number, record):
            # A right class shows a wrong kind, another start an empty block.
            self.assertFalse({cause.name for cause in found} & {cause.name for cause in causes.causes(data, *now)}, found)
        else:
            self.assertTrue(now[0] in (0, 8) or now > (number, record) or number == 1, (found, now))
        return 1

    def test_texts(self):
        """Each refusal's text marks the fields that are named, and gives every number that the record has."""
        seen = set()
        for data in refused():
            number, record = answer(data)
            if not number:
                continue
            lines, told = explain.lines(data, "x", 100)
            text = styled.plain(lines)
            self.assertEqual(told, number)
            self.assertLessEqual(max(map(len, text.splitlines())), 130)
            found = causes.causes(data, number, record)
            for cause in found:
                self.assertIn(" ".join(cause.words.split()), " ".join(text.split()))
            wanted = {cause.wanted for cause in found if cause.wanted}
            for want in wanted:
                self.assertRegex(text, f"<- wanted: .*{re.escape(want)}")
            if number in (2, 4, 5, 6, 7):
                numbers = RECORD.unpack_from(data, 32 * record)
                shown = [line.split()[2 if line.split()[0] == "byte" else 1] for line in text.splitlines() if line[:2] == "  " and line.split()[0] in (
                    "class", "kind", "op", "byte", "statement", "p1", "p2", "p3", "p4", "p5", "p6")]
                self.assertEqual([int(one) for one in shown], list(numbers[: len(shown)]))
                self.assertFalse(any(numbers[len(shown) :]))
            seen.add(number)
        self.assertEqual(seen, {1, 2, 3, 4, 5, 6, 7, 8})

    def test_words_of_the_refusal_where_no_condition_is_found(self):
        """Bytes that the refusal isn't about: nothing is invented."""
        good = (SAMPLES / "printed.call").read_bytes()
        for number in range(1, 9):
            self.assertEqual(causes.causes(good, number, 1) if number != 2 else [], [])
            self.assertEqual(causes.reason(good, number, 1), reason(number, 1))
        self.assertEqual(causes.causes(good, 7, 999), [])


class Untidy(unittest.TestCase):
    def untidy(self):
        for _, data, due in replay.vectors(ROOT / "tests/vectors/tidy.txt"):
            if due[0] == 0 and due[2] == 0:
                yield data, due[3]
        for seed in range(60):
            data = bytes(fleet.procedure(seed, 20 + seed, untidy=True))
            found = halivomue.tidy(data)
            if not found.tidy:
                yield data, found.reg

    def without(self, p, reg, reads):
        """The procedure in which these instructions read another register, which nothing writes."""
        new, operands, blocks = len(p.registers), list(p.operands), [list(block) for block in p.blocks]
        for read in reads:
            i = roles.exchanged(read.i, {reg: new})
            listed = roles.listed(p, read.i)
            if reg in listed:
                fields = {name: value for name, _, value in i.fields}
                fields["operands"] = (len(operands), len(listed))
                operands += [new if one == reg else one for one in listed]
                i = instruction(i.kind, i.op, i.statement, **fields)
            blocks[read.block][read.place] = i
        return bytes(Procedure([*p.registers, "I64"], blocks, p.body, operands, p.tables))

    def offends(self, data, reg):
        found = halivomue.tidy(data)
        self.assertEqual(found.number, 0)
        return not found.tidy and found.reg == reg

    def test_the_reads_told_are_those_that_offend(self):
        """Without them the library goes on to another register or says yes; with any one of them left it says the same again."""
        tally = Counter()
        for data, reg in self.untidy():
            p = Procedure.parse(data)
            write, reads = explain.offence(p, reg)
            self.assertTrue(write is not None and reads)
            if sum(len(roles.listed(p, read.i)) for read in reads) + len(p.operands) > 128 or len(p.registers) == 756:
                continue
            self.assertEqual([i for i in p.code if reg in roles.written(i)], [write[2]])
            self.assertFalse(self.offends(self.without(p, reg, reads), reg))
            for left in reads:
                self.assertTrue(self.offends(self.without(p, reg, [read for read in reads if read is not left]), reg), left)
                tally[left.why.partition(":")[0]] += 1
                self.way(p, left, write)
            self.text(data, p, reg, write, reads)
        self.assertEqual(set(tally), {"in another block", "before it is written", "in the instruction that writes it",
                                      "in a block that leads back to the write"})

    def way(self, p, read, write):
        """The path that is given leads from the read to the write by Br and CondBr."""
        if "leads back" not in read.why:
            return
        blocks = [int(part.split()[-1]) for part in read.why.partition(": ")[2].split(" -> ")]
        self.assertEqual((blocks[0], blocks[-1]), (read.block, write[0]))
        for here, there in zip(blocks, blocks[1:]):
            self.assertIn(there, p.blocks[here][-1].targets)

    def text(self, data, p, reg, write, reads):
        """The records that are named are those instructions."""
        text = styled.plain(explain.lines(data, "x", 100)[0])
        self.assertIn(f"accepted, not tidy: register {reg} ({p.registers[reg]})", text)
        records = [int(line.split("record ")[1].split(",")[0]) for line in text.splitlines() if ", statement " in line]
        told = [write[2], *(read.i for read in reads[:10])]
        self.assertEqual([data[32 * n : 32 * n + 32] for n in records], [i.record() for i in told])
        self.assertIn(f"register {reg} is written once, by {write[2].kind} in block {write[0]}", explain.untidy_words(p, reg))


if __name__ == "__main__":
    unittest.main()
