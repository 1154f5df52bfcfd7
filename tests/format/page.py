#!/usr/bin/env python3
"""Read and Tidy as docs/FORMAT.md describes them, compared with the lists in tests/vectors.

The limits and the table of instructions are taken from the page as it stands; the rest carries out its sentences.
"""
import pathlib
import re
import struct
import sys

ROOT = pathlib.Path(__file__).resolve().parent.parent.parent
sys.path.insert(0, str(ROOT / "tests" / "vectors"))
sys.dont_write_bytecode = True
from replay import expand  # noqa: E402  (tests/vectors)

PAGE = (ROOT / "docs" / "FORMAT.md").read_text()
REGISTER, BLOCK, BODY, INSTRUCTION, OPERAND, ARM = range(1, 7)


def rows(head):
    """The cells of the page's table under a head, row by row."""
    lines = PAGE[PAGE.index(head):].split("\n")[2:]
    for line in lines[:next(n for n, line in enumerate(lines) if not line.startswith("|"))]:
        yield [cell.strip() for cell in line.strip("|").split("|")]


LIMITS = {int(name[0]): int(most.split(",")[0]) for name, most, _, _ in rows("| class | at most") if name}


def place(text):
    """A place's sort, and whether a register in it is written."""
    if "*" in text:
        return "register", text.startswith("+")
    if text.startswith(("list", "block", "table")):
        return text.split(" ")[0], False
    return ("small" if "small" in text else "number"), False


class Kind:
    def __init__(self, cells, known):
        self.name, self.ops = cells[1], cells[3]
        cut = re.sub(r", small\)", " small)", cells[2])
        self.places = [place(text) for text in cut.split(", ")] if cut else []
        if self.ops.startswith("as "):
            self.count = next(kind.count for kind in known if kind.name == self.ops[3:])
        else:
            self.count = max(1, len(re.findall(r"\b\d ", self.ops)))


KINDS = []
for row in rows("| kind | | p1, p2"):
    KINDS.append(Kind(row, KINDS))
TERMINATORS = range(18, 23)


class Record:
    def __init__(self, data):
        self.cls, self.kind, self.op, self.zero, self.statement, *self.p = struct.unpack("<4B7I", data)

    def data(self):
        return struct.pack("<4B7I", self.cls, self.kind, self.op, self.zero, self.statement, *self.p)

    def sorts(self):
        """The sorts of its places."""
        other = {BLOCK: ["number"] * 2, BODY: ["block"], OPERAND: ["register"]}
        if self.cls == ARM:
            return ["number"] * 5 + ["block"] if self.kind == 0 else ["number"] + ["unused"] * 4 + ["block"]
        if self.cls != INSTRUCTION:
            return other.get(self.cls, [])
        kind = KINDS[self.kind]
        sorts = [sort for sort, _ in kind.places]
        if self.name == "AddrOf":
            sorts[1] = {1: "small", 3: "number", 4: "number"}.get(self.op, "unused")
        without = re.search(r"0 without, p(\d) unused", kind.ops)
        if without and self.op == 0:
            sorts[int(without[1]) - 1] = "unused"
        return sorts

    def right(self):
        kinds = {REGISTER: 5, BLOCK: 1, BODY: 1, INSTRUCTION: len(KINDS), OPERAND: 1, ARM: 2}
        if self.kind >= kinds.get(self.cls, 0):
            return False
        if self.op >= (KINDS[self.kind].count if self.cls == INSTRUCTION else 1) or self.zero:
            return False
        if self.statement and self.cls != INSTRUCTION:
            return False
        sorts = self.sorts() + ["unused"] * 6
        return all(p == 0 if sort == "unused" else p <= 255 or sort != "small" for sort, p in zip(sorts, self.p))

    @property
    def name(self):
        return KINDS[self.kind].name

    def spots(self, written):
        """The places of the register fields that it writes, or reads."""
        skip = {("Bool", 3): 1, ("Check", 3): 1, ("Check", 4): 2}.get((self.name, self.op), 0)
        sorts = zip(KINDS[self.kind].places, self.sorts())
        found = [n for n, ((_, w), sort) in enumerate(sorts) if sort == "register" and w == written]
        return found if written or not skip else found[:-skip]

    def fields(self, written):
        return [self.p[n] for n in self.spots(written)]

    def targets(self):
        """The blocks of a Br or CondBr."""
        return {"Br": self.p[:1], "CondBr": self.p[1:3]}.get(self.name, [])

    def operands(self):
        """Start and length of its list."""
        return next(((p, after) for sort, p, after in zip(self.sorts(), self.p, self.p[1:]) if sort == "list"), (0, 0))


class File:
    def __init__(self, data):
        self.records = [Record(data[at:at + 32]) for at in range(0, len(data) - 31, 32)]
        self.of = {cls: [r for r in self.records if r.cls == cls] for cls in LIMITS}

    def first(self, cls):
        return next(n for n, r in enumerate(self.records) if r.cls == cls)

    def code_of(self, block):
        return self.of[INSTRUCTION][block.p[0]:block.p[1]]

    def bad_block(self, ok):
        bad = [n for n, block in enumerate(self.of[BLOCK]) if not ok(n, block)]
        return self.first(BLOCK) + bad[0] if bad else None

    def tiles(self, n, block):
        blocks, code = self.of[BLOCK], len(self.of[INSTRUCTION])
        due = blocks[n - 1].p[1] if n else 0
        return block.p[0] == due < block.p[1] <= code and (n + 1 < len(blocks) or block.p[1] == code)

    def ends_well(self, _, block):
        *before, last = [r.kind in TERMINATORS for r in self.code_of(block)]
        return last and not any(before)

    def bad_arm(self):
        due, arms = 0, self.of[ARM]
        for n, arm in enumerate(arms):
            if arm.p[0] != due or n + 1 == len(arms) and arm.kind != 1:
                return self.first(ARM) + n
            due += arm.kind
        return None

    def names_exist(self, record):
        there = {"register": len(self.of[REGISTER]), "block": len(self.of[BLOCK]), "table": sum(a.kind for a in self.of[ARM])}
        start, length = record.operands()
        return start + length <= len(self.of[OPERAND]) and all(
            p < there[sort] for sort, p in zip(record.sorts(), record.p) if sort in there)


def read(data):
    if len(data) % 32 or len(data) > 65536:
        return 1, 0
    file = File(data)
    classes = [0] + [r.cls for r in file.records]
    for n, record in enumerate(file.records):
        if not record.right() or record.cls < classes[n]:
            return 2, n
    if any(len(file.of[cls]) > most for cls, most in LIMITS.items()) or not file.of[BLOCK]:
        return 3, 0
    for number, bad in ((4, lambda: file.bad_block(file.tiles)), (5, lambda: file.bad_block(file.ends_well)), (6, file.bad_arm),
                        (7, lambda: next((n for n, r in enumerate(file.records) if not file.names_exist(r)), None))):
        found = bad()
        if found is not None:
            return number, found
    return 0, 0


def leads(targets, start):
    """The blocks that can be reached from a block by Br and CondBr, at least one of them."""
    reached, todo = set(), list(targets[start])
    while todo:
        block = todo.pop()
        if block not in reached:
            reached.add(block)
            todo += targets[block]
    return reached


def tidy(data):
    number, record = read(data)
    if number:
        return number, record, 0, 0
    file = File(data)
    placed = [(b, k, r) for b, block in enumerate(file.of[BLOCK]) for k, r in enumerate(file.code_of(block))]
    ends = [file.code_of(block)[-1] for block in file.of[BLOCK]]
    targets = [end.targets() for end in ends]
    reached = [leads(targets, block) for block in range(len(targets))]
    writers = {}
    for b, k, r in placed:
        for reg in r.fields(True):
            writers.setdefault(reg, []).append((b, k, r.name))
    offending = []
    for b, k, r in placed:
        start, length = r.operands()
        for reg in r.fields(False) + [o.p[0] for o in file.of[OPERAND][start:start + length]]:
            if len(writers.get(reg, [])) == 1:
                x, y, name = writers[reg][0]
                later = b == x and k > y
                if name == "AddrOf" and (k < y if b == x else x in reached[b]):
                    offending.append(reg)
                if name not in ("Const", "ConstF", "AddrOf") and not later:
                    offending.append(reg)
    return (0, 0, 0, min(offending)) if offending else (0, 0, 1, 0)


def main():
    passed = failed = 0
    for name, answer in (("read", read), ("tidy", tidy)):
        for line in (ROOT / "tests" / "vectors" / (name + ".txt")).read_text().splitlines():
            if line.startswith("#"):
                continue
            vector, text, *due = line.split(" ")
            found = answer(expand(text))
            if found == tuple(map(int, due)):
                passed += 1
            else:
                failed += 1
                print("%s %s: by docs/FORMAT.md %s, due %s" % (name, vector, found, due))
    print("docs/FORMAT.md: answers %d vectors of Read and Tidy as they are due, %d otherwise" % (passed, failed))
    sys.exit(failed > 0 or passed == 0)


if __name__ == "__main__":
    main()
