#!/usr/bin/env python3
"""Shorten as docs/FORMAT.md describes it, on top of page.py, compared with the stored answers of the published Rust."""
import copy
import pathlib
import sys
from collections import Counter

from page import ARM, BLOCK, BODY, INSTRUCTION, KINDS, OPERAND, REGISTER, ROOT, File, Record, read

sys.path.insert(0, str(pathlib.Path(ROOT) / "tests" / "reference"))
from answers import answers  # noqa: E402  (tests/reference)

KIND = {kind.name: number for number, kind in enumerate(KINDS)}
COPIED = ("Const", "ConstF", "Move", "Select", "Cmp", "Bool")
I64, PTR, UP, NOT = 0, 2, 1, 3
# Cmp's ops: Eq and Le become Lt, Ne and Gt become Ge.
TURNED = {0: 2, 3: 2, 1: 5, 4: 5}


def record(cls, kind, statement, *places):
    made = Record(bytes(32))
    made.cls, made.kind, made.statement = cls, kind, statement
    made.p = [*places, *[0] * (6 - len(places))]
    return made


def br(statement, to):
    return record(INSTRUCTION, KIND["Br"], statement, to)


def word(const):
    return const.p[1] + (const.p[2] << 32)


def lone(block, name):
    return len(block) == 1 and block[0].name == name


def follow(blocks, at):
    for _ in range(4):
        if lone(blocks[at], "Br") and blocks[at][0].p[0] != at:
            at = blocks[at][0].p[0]
    return at


def equal_arms(blocks):
    edited = False
    for block in blocks:
        end = block[-1]
        if end.name == "CondBr" and follow(blocks, end.p[1]) == follow(blocks, end.p[2]):
            block[-1] = br(end.statement, follow(blocks, end.p[1]))
            edited = True
    return edited


def small(block):
    return len(block) <= 4 and block[-1].name in ("Br", "CondBr", "Ret") and all(r.name in COPIED for r in block[:-1])


def latch(blocks, at, body):
    end = blocks[at][-1]
    if end.name != "CondBr" or at + 1 not in end.targets() or at + 1 == len(blocks):
        return False
    step = blocks[at + 1]
    adding = ("Bin", "BinRange") if body else ("Bin",)
    back = len(step) == 2 or body and len(step) <= 4 and step[-1].p[0] <= at
    return step[-1].name == "Br" and back and any(r.name in adding and r.op < 2 for r in step)


def loops(blocks):
    return any(to <= at for at, block in enumerate(blocks) for to in block[-1].targets())


def leads_on(blocks, body):
    for at, block in enumerate(blocks):
        to = block[-1].targets()
        if block[-1].name == "Br" and to[0] != at and small(blocks[to[0]]) and not latch(blocks, to[0], body):
            return True
        if block[-1].name == "CondBr" and any(lone(blocks[t], "CondBr") for t in to):
            return True
    return False


class Thread:
    def __init__(self, file, blocks):
        code = [r for block in blocks for r in block]
        operands = [r.p[0] for r in file.of[OPERAND]]
        self.blocks = blocks
        self.types = [r.kind for r in file.of[REGISTER]]
        self.own = len(self.types)
        self.body = file.of[BODY][0].p[0] if file.of[BODY] else None
        self.defs = Counter(d for r in code for d in r.fields(True))
        self.uses = Counter(u for r in code for u in r.fields(False))
        for start, length in (r.operands() for r in code):
            self.uses.update(operands[start:start + length])
        single = [r for r in code if r.name in ("Const", "ConstF", "AddrOf") and self.defs[r.p[0]] == 1]
        self.const = {r.p[0]: word(r) for r in single if r.name == "Const"}
        self.fixed = {r.p[0] for r in single if r.name != "AddrOf" or r.op != UP}
        self.most = len(code) // 2 + 32
        self.grown = 0
        self.edited = False
        for at in range(len(blocks)):
            hops = 6
            while hops and self.hop(at):
                hops -= 1

    def put(self, at, end):
        """Gives a block another end: some instructions."""
        self.blocks[at][-1:] = end
        self.edited = True

    def hop(self, at):
        """Whether the next hop follows."""
        end = self.blocks[at][-1]
        if end.name == "CondBr":
            return self.hop_cond(at, end)
        return end.name == "Br" and self.hop_br(at, end.p[0])

    def known(self, code):
        values, copies = dict(self.const), {}
        for r in code:
            written = r.fields(True)
            for d in written:
                values.pop(d, None)
                if d in self.const:
                    values[d] = self.const[d]
                copies = {x: y for x, y in copies.items() if d not in (x, y)}
            if len(written) > 2:
                values, copies = dict(self.const), {}
            self.learn(r, values, copies)
        return values, copies

    def learn(self, r, values, copies):
        d, a, b = r.p[:3]
        if r.name == "Const":
            values[d] = word(r)
        if r.name == "Move" and d != a:
            a = copies.get(a, a)
            if a in values:
                values[d] = values[a]
            if d < self.own and a < self.own and self.types[d] == self.types[a] and self.types[d] in (I64, PTR):
                copies[d] = a
        if r.name == "Bool" and a in values and (r.op == NOT or b in values):
            x, y = values[a] != 0, values.get(b, 0) != 0
            values[d] = int((x and y, x or y, x != y, not x)[r.op])

    def hop_cond(self, at, end):
        values, copies = self.known(self.blocks[at][:-1])
        c = copies.get(end.p[0], end.p[0])
        if c in values:
            self.put(at, [br(end.statement, end.p[1] if values[c] else end.p[2])])
            return True
        arms = [self.led_on(at, c, n, end.p[n]) for n in (1, 2)]
        if [c, *arms] != end.p[:3]:
            self.put(at, [record(INSTRUCTION, KIND["CondBr"], end.statement, c, *arms)])
        return False

    def led_on(self, at, c, n, to):
        block = self.blocks[to]
        if to in (at, self.body) or not lone(block, "CondBr") or block[0].p[0] != c:
            return to
        return block[0].p[n]

    def hop_br(self, at, to):
        block = self.blocks[to]
        body = self.body is not None
        named = {f for r in block for f in r.fields(True) + r.fields(False)}
        if to in (at, self.body) or body and named & self.fixed or self.grown > self.most:
            return False
        if not small(block) or latch(self.blocks, to, body):
            return False
        copied = self.copy(block)
        self.grown += len(copied)
        self.put(at, copied)
        return True

    def copy(self, block):
        reads = Counter(u for r in block for u in r.fields(False))
        local, out = {}, []
        for r in block:
            single = [d for d in r.fields(True) if d < self.own and self.defs[d] == 1]
            if single and r.name in ("Const", "ConstF"):
                continue
            r = copy.deepcopy(r)
            for n in r.spots(False):
                r.p[n] = local.get(r.p[n], r.p[n])
            if single and self.uses[single[0]] == reads[single[0]]:
                r.p[r.spots(True)[0]] = len(self.types)
                local.setdefault(single[0], len(self.types))
                self.types.append(self.types[single[0]])
            out.append(r)
        return out


def reached(file, blocks):
    tables = [[]]
    for arm in file.of[ARM]:
        tables[-1].append(arm.p[5])
        if arm.kind:
            tables.append([])
    marks, todo = set(), [0]
    while todo:
        at = todo.pop()
        if at not in marks:
            marks.add(at)
            end = blocks[at][-1]
            todo += tables[end.p[1]] if end.name == "Case" else end.targets()
    return marks


def emit(file, thread):
    blocks, rescued = thread.blocks, []
    marks = reached(file, blocks)
    for at, block in enumerate(blocks[:-1]):
        if at not in marks and (len(block) > 1 or block[0].targets()):
            rescued += [r for r in block if r.name in ("Const", "ConstF", "AddrOf") and thread.defs[r.p[0]] == 1]
            blocks[at] = [br(block[0].statement, at + 1)]
    blocks[0] = rescued + blocks[0]
    return len(rescued)


class Slices:
    """The Cmps of a length with 0, rewritten to compare the bounds. A direction is True if it is downward."""

    def __init__(self, file, blocks):
        code = [r for block in blocks for r in block]
        defs = Counter(d for r in code for d in r.fields(True))
        self.const = {r.p[0]: word(r) for r in code if r.name == "Const" and defs[r.p[0]] == 1}
        self.operands = [r.p[0] for r in file.of[OPERAND]]
        self.edited = False
        for block in blocks:
            self.bounds, self.dopes, self.spans = {}, {}, {}
            for at, r in enumerate(block):
                block[at] = self.looked_at(r)
                for d in r.fields(True):
                    self.forget(d)
                self.note(r)

    def looked_at(self, r):
        """The instruction, or what takes its place."""
        found = self.spans.get(r.p[1]) or self.bounds.get(self.dopes.get(r.p[1]))
        if r.name != "Cmp" or r.op not in TURNED or not found or self.const.get(r.p[2]) != 0:
            return r
        left, right, down = found
        r = copy.deepcopy(r)
        r.op = TURNED[r.op]
        r.p[1:3] = (left, right) if down else (right, left)
        self.edited = True
        return r

    def forget(self, d):
        self.bounds = {at: by for at, by in self.bounds.items() if d not in (at, *by[:2])}
        self.dopes = {n: at for n, at in self.dopes.items() if d not in (n, at)}
        self.spans = {n: by for n, by in self.spans.items() if d not in (n, *by[:2])}

    def range(self, to, left, right, direction):
        """Left, right and direction, if the direction is a constant that says one and `to` is no bound."""
        down = {0: False, 1: True}.get(self.const.get(direction))
        return None if to in (left, right) or down is None else (left, right, down)

    def note(self, r):
        if r.name == "BoundsLen":
            by = self.range(*r.p[:4])
            if by:
                self.spans[r.p[0]] = by
        if r.name == "MakeDope" and r.p[2] == 3:
            by = self.range(r.p[0], *self.operands[r.p[1]:r.p[1] + 3])
            if by:
                self.bounds[r.p[0]] = by
        if r.name == "DopeLen" and r.p[2] == 0 and r.p[1] in self.bounds and r.p[0] != r.p[1]:
            self.dopes[r.p[0]] = r.p[1]


def has_lengths(blocks):
    names = {r.name for block in blocks for r in block}
    return bool(names & {"MakeDope", "BoundsLen"} and names & {"DopeLen", "BoundsLen"})


def written(file, types, blocks):
    ends = [0]
    for block in blocks:
        ends.append(ends[-1] + len(block))
    made = [record(REGISTER, kind, 0) for kind in types]
    made += [record(BLOCK, 0, 0, start, end) for start, end in zip(ends, ends[1:])]
    made += file.of[BODY] + [r for block in blocks for r in block] + file.of[OPERAND] + file.of[ARM]
    return b"".join(r.data() for r in made)


def shorten(data, room):
    """Number, record, moved, grown, fresh, rescued, length and bytes."""
    number, place = read(data)
    file = File(data)
    if not number and (len(file.of[REGISTER]) > 480 or len(file.of[INSTRUCTION]) > 480):
        number = 8
    if number:
        return number, place, 0, 0, 0, 0, 0, b""
    blocks = [file.code_of(block) for block in file.of[BLOCK]]
    types = [r.kind for r in file.of[REGISTER]]
    moved = grown = fresh = rescued = 0
    if len(file.of[INSTRUCTION]) >= 6:
        moved = int(equal_arms(blocks))
        looped = loops(blocks)
        if looped and leads_on(blocks, bool(file.of[BODY])):
            thread = Thread(file, [list(block) for block in blocks])
            if thread.edited:
                moved, grown, fresh = 1, thread.grown, len(thread.types) - len(types)
                rescued = emit(file, thread)
                types, blocks = thread.types, thread.blocks
        if looped and has_lengths(blocks):
            moved |= Slices(file, blocks).edited
    out = written(file, types, blocks)
    if len(out) > room:
        return 9, 0, 0, 0, 0, 0, 0, b""
    return 0, 0, moved, grown, fresh, rescued, len(out), out


def main():
    passed = failed = 0
    for due in answers(pathlib.Path(ROOT) / "tests" / "reference" / "answers.txt"):
        found = shorten(due.input, due.room)
        if found == tuple(due[4:]):
            passed += 1
        else:
            failed += 1
            print("%s: by docs/FORMAT.md %s, due %s" % (due.name, found[:7], tuple(due[4:11])))
    print("docs/FORMAT.md: answers %d stored answers of Shorten as they are due, %d otherwise" % (passed, failed))
    sys.exit(failed > 0 or passed == 0)


main()
