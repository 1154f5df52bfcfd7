"""Tests of a length against 0, which become comparisons of its bounds: the last of the steps, in docs/FORMAT.md's words."""

from __future__ import annotations

from typing import Dict, List, Mapping, NamedTuple, Optional, Sequence, Tuple

from . import roles
from .traced import Block, Line, changed
from .procedure import Procedure
from .roles import number

_TURNED = {"Eq": "Lt", "Le": "Lt", "Ne": "Ge", "Gt": "Ge"}


class Bounds(NamedTuple):
    """The registers of a range's bounds, whether it goes down, and the instructions that say so."""

    left: int
    right: int
    down: bool
    by: Block


class Sliced(NamedTuple):
    """A Cmp of a length with 0 became a comparison of the length's bounds."""

    block: int
    line: Line
    bounds: Bounds
    to: Line


class _Lengths:
    """What a block says of lengths so far: `constants` are the words of registers that only one Const writes."""

    def __init__(self, p: Procedure, constants: Mapping[int, int]) -> None:
        self.p, self.constants = p, constants
        self.made: Dict[int, Bounds] = {}
        self.measured: Dict[int, Tuple[int, Line]] = {}
        self.known: Dict[int, Bounds] = {}

    def bounds_of(self, reg: int) -> Optional[Bounds]:
        if reg in self.known:
            return self.known[reg]
        dope, line = self.measured.get(reg, (None, None))
        made = self.made.get(dope) if dope is not None else None
        return made._replace(by=(*made.by, line)) if made and line else None

    def forget(self, reg: int) -> None:
        self.made = {at: b for at, b in self.made.items() if reg not in (at, b.left, b.right)}
        self.known = {dst: b for dst, b in self.known.items() if reg not in (dst, b.left, b.right)}
        self.measured = {dst: of for dst, of in self.measured.items() if reg not in (dst, of[0])}

    def note(self, line: Line) -> None:
        i = line.i
        if i.kind == "BoundsLen":
            self.add(self.known, number(i, "dst"), roles.read(i), line)
        elif i.kind == "MakeDope":
            self.add(self.made, number(i, "at"), roles.listed(self.p, i), line)
        elif i.kind == "DopeLen" and number(i, "dim") == 0 and number(i, "dope") in self.made:
            self.measured[number(i, "dst")] = number(i, "dope"), line

    def add(self, to: Dict[int, Bounds], key: int, parts: Sequence[int], line: Line) -> None:
        if len(parts) == 3 and key not in parts[:2]:
            left, right, direction = parts
            down = self.constants.get(direction)
            if down in (0, 1):
                to[key] = Bounds(left, right, down == 1, (line,))

    def sliced(self, line: Line) -> Optional[Tuple[Bounds, Line]]:
        """The bounds and the comparison that a Cmp becomes, if it becomes one."""
        i = line.i
        if i.kind != "Cmp" or i.op not in _TURNED or self.constants.get(number(i, "b")) != 0:
            return None
        b = self.bounds_of(number(i, "a"))
        if b is None:
            return None
        x, y = (b.left, b.right) if b.down else (b.right, b.left)
        return b, changed(line, "Cmp", _TURNED[i.op], number(i, "dst"), x, y)


def has_lengths(blocks: Sequence[Block]) -> bool:
    kinds = {line.i.kind for block in blocks for line in block}
    return "BoundsLen" in kinds or {"MakeDope", "DopeLen"} <= kinds


def slice_tests(p: Procedure, constants: Mapping[int, int], blocks: List[Block]) -> List[Sliced]:
    """Changes the blocks, and says what was changed."""
    events: List[Sliced] = []
    for at, block in enumerate(blocks):
        lengths, after = _Lengths(p, constants), []
        for line in block:
            found = lengths.sliced(line)
            if found is not None:
                events.append(Sliced(at, line, *found))
            after.append(found[1] if found is not None else line)
            for reg in roles.written(line.i):
                lengths.forget(reg)
            lengths.note(line)
        blocks[at] = tuple(after)
    return events
