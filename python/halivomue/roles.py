"""Which registers an instruction reads and writes, and which blocks it can go to."""

from __future__ import annotations

from typing import Dict, List, Optional, Sequence, Set, Tuple

from .procedure import Instruction, Procedure, Value

# Register fields that aren't read, by kind and op.
_UNREAD = {("Bool", "Not"): ("b",), ("Check", "Length"): ("hi",), ("Check", "Null"): ("lo", "hi")}


def number(i: Instruction, name: str) -> int:
    """A field that is a whole number: a register, a block, a table, a Const's word."""
    return getattr(i, name)  # type: ignore[no-any-return]


def is_read(i: Instruction, name: str, sort: str) -> bool:
    """Is this field a register that is read?"""
    return sort == "-" and name not in _UNREAD.get((i.kind, i.op), ())


def written(i: Instruction) -> List[int]:
    """The registers of the fields that are written, in order."""
    return [value for _, sort, value in i.fields if sort == "+"]  # type: ignore[misc]


def read(i: Instruction) -> List[int]:
    """The registers of the fields that are read, in order, without those of its list."""
    return [value for name, sort, value in i.fields if is_read(i, name, sort)]  # type: ignore[misc]


def listed(p: Procedure, i: Instruction) -> Tuple[int, ...]:
    """The registers of its list of operands."""
    for _, sort, value in i.fields:
        if sort == "list":
            start, length = value  # type: ignore[misc]
            return tuple(p.operands[start : start + length])
    return ()


def exchanged(i: Instruction, reads: Dict[int, int], new: Optional[int] = None) -> Instruction:
    """The instruction with the registers that it reads replaced, and `new` in the field that it writes."""
    values: List[Value] = []
    for name, sort, value in i.fields:
        if is_read(i, name, sort):
            value = reads.get(value, value)  # type: ignore[arg-type]
        elif sort == "+" and new is not None:
            value = new
        values.append(value)
    return Instruction(i.kind, i.op, i.statement, tuple(values))


def goes_to(p: Procedure, i: Instruction) -> Tuple[int, ...]:
    """The blocks that it can go to, including those of a Case's table."""
    if i.kind != "Case":
        return i.targets
    table = p.tables[number(i, "table")]
    return (*(arm.block for arm in table.arms), table.default)


def reached(p: Procedure, ends: Sequence[Instruction]) -> Set[int]:
    """The blocks that can be reached from block 0, if the blocks have these last instructions."""
    found, todo = {0}, [0]
    while todo:
        more = set(goes_to(p, ends[todo.pop()])) - found
        found |= more
        todo += more
    return found
