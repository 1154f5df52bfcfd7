"""An instruction on its way through the steps of shortening."""

from __future__ import annotations

from typing import NamedTuple, Tuple

from .procedure import Instruction


class Line(NamedTuple):
    """An instruction, where it was in the file as sent, and how it got where it is now."""

    i: Instruction
    block: int
    place: int
    how: str = ""  # changed, copied, rescued, emptied; empty if it is as sent


Block = Tuple[Line, ...]


def changed(line: Line, kind: str, op: str, *values: int) -> Line:
    """The line with another instruction and the same statement."""
    how = line.how if line.how == "copied" else "changed"
    return line._replace(i=Instruction(kind, op, line.i.statement, values), how=how)
