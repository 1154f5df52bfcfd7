"""The steps of shortening carried out again, to find out what was done where.

docs/FORMAT.md has them in words. The resulting form isn't used: what is found out is believed only if
that form is the library's, byte for byte, and so are the counts (`diff` checks that).
"""

from __future__ import annotations

from collections import Counter
from typing import Dict, List, NamedTuple, Optional, Sequence, Set, Tuple, Union

from . import lengths, roles
from .lengths import Sliced
from .traced import Block, Line, changed
from .procedure import Instruction, Procedure
from .roles import number

_COPIED = ("Const", "ConstF", "Move", "Select", "Cmp", "Bool")
_HOPS, _LONE_BRS, _LARGEST = 6, 4, 4


class Known(NamedTuple):
    """A register's word, and the instructions by which it is known."""

    value: int
    by: Block


class Joined(NamedTuple):
    """Both arms of a CondBr lead to one block; the blocks of lone Brs that each passes."""

    block: int
    line: Line
    passed: Tuple[Tuple[int, ...], Tuple[int, ...]]
    to: int


class Decided(NamedTuple):
    """A CondBr became a Br, since the word of c, or of its copy's source, is known."""

    block: int
    line: Line
    copy: Block
    source: int
    known: Known
    to: int


class Turned(NamedTuple):
    """A CondBr got its copy's source for c, or arms that lead on: arm, the block passed, the new target."""

    block: int
    line: Line
    copy: Block
    source: int
    arms: Tuple[Tuple[str, int, int], ...]


class Copied(NamedTuple):
    """A Br was replaced by a copy of its target: what was left out of the copy, and old and new registers."""

    block: int
    line: Line
    of: int
    copy: Block
    left_out: Block
    fresh: Tuple[Tuple[int, int], ...]


class Emptied(NamedTuple):
    """An unreached block became a Br: what was rescued from it, and whether it was reached in the file as sent."""

    block: int
    rescued: Block
    reached_before: bool


Event = Union[Joined, Decided, Turned, Copied, Emptied, Sliced]


class Trace(NamedTuple):
    """The shortened form with the origin of its lines, the counts, and what was done in order; `stopped`
    says why the steps ended early, if they did."""

    procedure: Procedure
    blocks: Tuple[Block, ...]
    events: Tuple[Event, ...]
    counts: Tuple[int, int, int, int]
    stopped: str


def lone(block: Block, kind: str) -> bool:
    return len(block) == 1 and block[0].i.kind == kind


def _follow(blocks: Sequence[Block], at: int) -> Tuple[int, Tuple[int, ...]]:
    """The block that a path over lone Brs leads to, and the blocks passed."""
    passed: Tuple[int, ...] = ()
    while len(passed) < _LONE_BRS and lone(blocks[at], "Br") and blocks[at][0].i.targets[0] != at:
        passed += (at,)
        at = blocks[at][0].i.targets[0]
    return at, passed


def equal_arms(blocks: List[Block]) -> List[Event]:
    events: List[Event] = []
    for at, block in enumerate(blocks):
        end = block[-1]
        if end.i.kind != "CondBr":
            continue
        (t, over_t), (f, over_f) = (_follow(blocks, to) for to in end.i.targets)
        if t == f:
            blocks[at] = (*block[:-1], changed(end, "Br", "", t))
            events.append(Joined(at, end, (over_t, over_f), t))
    return events


def small(block: Block) -> bool:
    return (
        len(block) <= _LARGEST
        and block[-1].i.kind in ("Br", "CondBr", "Ret")
        and all(line.i.kind in _COPIED for line in block[:-1])
    )


def latch(blocks: Sequence[Block], at: int, body: bool) -> bool:
    end = blocks[at][-1].i
    if end.kind != "CondBr" or at + 1 not in end.targets:
        return False
    step = blocks[at + 1]
    last = step[-1].i
    kinds = ("Bin", "BinRange") if body else ("Bin",)
    if last.kind != "Br" or not any(line.i.kind in kinds and line.i.op in ("Add", "Sub") for line in step):
        return False
    return len(step) == 2 or body and len(step) <= _LARGEST and last.targets[0] <= at


def _back_edge(blocks: Sequence[Block]) -> bool:
    return any(to <= at for at, block in enumerate(blocks) for to in block[-1].i.targets)


def _may_thread(blocks: Sequence[Block], body: bool) -> bool:
    for at, block in enumerate(blocks):
        end = block[-1].i
        if end.kind == "Br":
            to = end.targets[0]
            if to != at and small(blocks[to]) and not latch(blocks, to, body):
                return True
        elif end.kind == "CondBr" and any(lone(blocks[to], "CondBr") for to in end.targets):
            return True
    return False


class Facts:
    """What is counted once, before threading."""

    def __init__(self, p: Procedure, blocks: Sequence[Block]) -> None:
        code = [line for block in blocks for line in block]
        self.types, self.body = p.registers, p.body
        self.most = len(code) // 2 + 32
        self.defs = Counter(reg for line in code for reg in roles.written(line.i))
        self.uses = Counter(reg for line in code for reg in (*roles.read(line.i), *roles.listed(p, line.i)))
        fixed = {number(line.i, "dst"): line for line in code if line.i.kind in ("Const", "ConstF", "AddrOf")}
        fixed = {reg: line for reg, line in fixed.items() if self.defs[reg] == 1}
        self.constants = {reg: Known(number(line.i, "v"), (line,)) for reg, line in fixed.items() if line.i.kind == "Const"}
        self.fixed = {reg for reg, line in fixed.items() if line.i.op != "Up"}

    def single(self, reg: int) -> bool:
        """Is this a register of the file that one field writes?"""
        return reg < len(self.types) and self.defs[reg] == 1

    def alike(self, a: int, b: int) -> bool:
        own = max(a, b) < len(self.types)
        return own and self.types[a] == self.types[b] and self.types[a] in ("I64", "Ptr")


class Notes:
    """What is known after some instructions: words, and which register is a copy of which."""

    def __init__(self, facts: Facts, code: Sequence[Line]) -> None:
        self.facts = facts
        self.words: Dict[int, Known] = {}
        self.copies: Dict[int, Tuple[int, Block]] = {}
        for line in code:
            self.forget(roles.written(line.i))
            self.learn(line)

    def word(self, reg: int) -> Optional[Known]:
        return self.words.get(reg) or self.facts.constants.get(reg)

    def source(self, reg: int) -> Tuple[int, Block]:
        """What a register is a copy of, and by which Moves; itself if it isn't a copy."""
        return self.copies.get(reg, (reg, ()))

    def forget(self, written: Sequence[int]) -> None:
        if len(written) > 2:
            self.words, self.copies = {}, {}
        for reg in written:
            self.words.pop(reg, None)
            self.copies = {to: way for to, way in self.copies.items() if reg not in (to, way[0])}

    def learn(self, line: Line) -> None:
        i = line.i
        if i.kind == "Const":
            self.words[number(i, "dst")] = Known(number(i, "v"), (line,))
        elif i.kind == "Move":
            self.learn_move(line, number(i, "dst"), number(i, "src"))
        elif i.kind == "Bool":
            given = [known for known in map(self.word, roles.read(i)) if known is not None]
            if len(given) == len(roles.read(i)):
                value = _bool(i.op, [known.value != 0 for known in given])
                self.words[number(i, "dst")] = Known(int(value), _joined(*(known.by for known in given), (line,)))

    def learn_move(self, line: Line, to: int, src: int) -> None:
        if to == src:
            return
        source, moves = self.source(src)
        known = self.word(source)
        if known is not None:
            self.words[to] = Known(known.value, _joined(known.by, (line,)))
        if self.facts.alike(to, source):
            self.copies[to] = source, (*moves, line)


def _joined(*lines: Block) -> Block:
    return tuple(dict.fromkeys(line for some in lines for line in some))


def _bool(op: str, given: Sequence[bool]) -> bool:
    if op == "And":
        return all(given)
    if op == "Or":
        return any(given)
    return given[0] != given[1] if op == "Xor" else not given[0]


class Threading:
    """Threading over the blocks, which it edits."""

    def __init__(self, facts: Facts, blocks: List[Block]) -> None:
        self.facts, self.blocks = facts, blocks
        self.types = list(facts.types)
        self.grown = 0
        self.events: List[Event] = []
        for at in range(len(blocks)):
            for _ in range(_HOPS):
                if not self.hop(at):
                    break

    def hop(self, at: int) -> bool:
        """Does the next hop follow?"""
        end = self.blocks[at][-1]
        if end.i.kind == "CondBr":
            return self.hop_cond(at, end)
        return end.i.kind == "Br" and self.hop_br(at, end)

    def put(self, at: int, end: Block, event: Event) -> None:
        """Gives a block another end."""
        self.blocks[at] = (*self.blocks[at][:-1], *end)
        self.events.append(event)

    def hop_cond(self, at: int, end: Line) -> bool:
        notes = Notes(self.facts, self.blocks[at][:-1])
        source, copy = notes.source(number(end.i, "c"))
        known = notes.word(source)
        t, f = end.i.targets
        if known is not None:
            to = t if known.value else f
            self.put(at, (changed(end, "Br", "", to),), Decided(at, end, copy, source, known, to))
            return True
        new_t, new_f = self.led_on(at, source, "t", t), self.led_on(at, source, "f", f)
        if (source, new_t, new_f) != (end.i.c, t, f):
            arms = tuple((arm, old, new) for arm, old, new in (("t", t, new_t), ("f", f, new_f)) if old != new)
            self.put(at, (changed(end, "CondBr", "", source, new_t, new_f),), Turned(at, end, copy, source, arms))
        return False

    def led_on(self, at: int, c: int, arm: str, to: int) -> int:
        """An arm's target, or the matching arm of a lone CondBr on the same c there."""
        block = self.blocks[to]
        if to in (at, self.facts.body) or not lone(block, "CondBr") or block[0].i.c != c:
            return to
        return number(block[0].i, arm)

    def hop_br(self, at: int, end: Line) -> bool:
        to = end.i.targets[0]
        if self.stops(at, to):
            return False
        copy, left_out, fresh = self.copy(self.blocks[to])
        self.grown += len(copy)
        self.put(at, copy, Copied(at, end, to, copy, left_out, fresh))
        return True

    def stops(self, at: int, to: int) -> bool:
        body = self.facts.body is not None
        block = self.blocks[to]
        named = {reg for line in block for reg in (*roles.written(line.i), *roles.read(line.i))}
        return (
            to in (at, self.facts.body)
            or body and bool(named & self.facts.fixed)
            or self.grown > self.facts.most
            or not small(block)
            or latch(self.blocks, to, body)
        )  # fmt: skip

    def copy(self, block: Block) -> Tuple[Block, Block, Tuple[Tuple[int, int], ...]]:
        """A block's copy, what is left out of it, and the registers that got a new number."""
        reads = Counter(reg for line in block for reg in roles.read(line.i))
        instead: Dict[int, int] = {}
        copy: List[Line] = []
        left_out: List[Line] = []
        fresh: List[Tuple[int, int]] = []
        for line in block:
            single = [reg for reg in roles.written(line.i) if self.facts.single(reg)]
            if single and line.i.kind in ("Const", "ConstF"):
                left_out.append(line)
                continue
            new = None
            if single and self.facts.uses[single[0]] == reads[single[0]]:
                new = len(self.types)
                self.types.append(self.types[single[0]])
                fresh.append((single[0], new))
            copy.append(line._replace(i=roles.exchanged(line.i, instead, new), how="copied"))
            if new is not None:
                instead.setdefault(single[0], new)
        return tuple(copy), tuple(left_out), tuple(fresh)


def emit(p: Procedure, facts: Facts, blocks: List[Block]) -> List[Event]:
    """Empties the blocks that aren't reached, and moves what is rescued to the front of block 0."""
    there = roles.reached(p, [block[-1].i for block in blocks])
    before = roles.reached(p, [block[-1] for block in p.blocks])
    events: List[Event] = []
    front: List[Line] = []
    for at, block in enumerate(blocks[:-1]):
        if at in there or len(block) == 1 and block[0].i.kind not in ("Br", "CondBr"):
            continue
        kept = tuple(
            line._replace(how="rescued")
            for line in block
            if line.i.kind in ("Const", "ConstF", "AddrOf") and facts.single(number(line.i, "dst"))
        )
        front += kept
        blocks[at] = (block[0]._replace(i=Instruction("Br", "", block[0].i.statement, (at + 1,)), how="emptied"),)
        events.append(Emptied(at, kept, at in before))
    blocks[0] = (*front, *blocks[0])
    return events


def _shut(blocks: Sequence[Block], body: bool) -> str:
    """Why threading doesn't start; None if it does."""
    if not _back_edge(blocks):
        return "no Br or CondBr leads to its own block or an earlier one"
    if not _may_thread(blocks, body):
        return "no Br leads to a small block and no CondBr to a lone CondBr"
    return ""


def trace(p: Procedure) -> Trace:
    """Shortens an accepted file's procedure of at most 480 registers and instructions."""
    blocks: List[Block] = [
        tuple(Line(i, at, place) for place, i in enumerate(block)) for at, block in enumerate(p.blocks)
    ]
    events: List[Event] = []
    types, grown, rescued, looped = list(p.registers), 0, 0, False
    stopped = "it has fewer than 6 instructions" if len(p.code) < 6 else ""
    if not stopped:
        events = equal_arms(blocks)
        looped = _back_edge(blocks)
        stopped = _shut(blocks, p.body is not None)
    if not stopped:
        facts = Facts(p, blocks)
        threading = Threading(facts, blocks)
        types, grown = threading.types, threading.grown
        emitted = emit(p, facts, blocks) if threading.events else []
        rescued = sum(len(event.rescued) for event in emitted if isinstance(event, Emptied))
        events += threading.events + emitted
        stopped = "" if threading.events else "no Br or CondBr could be followed"
    if looped and lengths.has_lengths(blocks):
        constants = {reg: known.value for reg, known in Facts(p, blocks).constants.items()}
        events += lengths.slice_tests(p, constants, blocks)
    made = Procedure(types, [[line.i for line in block] for block in blocks], p.body, p.operands, p.tables)
    counts = int(bool(events)), grown, len(types) - len(p.registers), rescued
    return Trace(made, tuple(blocks), tuple(events), counts, stopped)
