"""Names of types, kinds, ops and fields, as docs/FORMAT.md has them."""

from __future__ import annotations

from dataclasses import dataclass
from typing import Dict, Tuple

REGISTER, BLOCK, BODY, INSTRUCTION, OPERAND, ARM = range(1, 7)

#: Types of registers, in the order of their numbers.
TYPES = ("I64", "F64", "Ptr", "Sig", "Handle")

_BIN = ("Add", "Sub", "Mul", "Div", "Rem", "Mod", "Pow")
_WIDTHS = ("B1", "B4", "B8", "Sig")


@dataclass(frozen=True)
class Kind:
    """A kind of instruction: its number, its ops, and its fields with what each holds.

    A field is a register written (`+`) or read (`-`), a `block`, a `table`, a `list` of operands
    (two places), a `word` or a `real` (two places), or a plain `number`.
    """

    number: int
    name: str
    ops: Tuple[str, ...]
    fields: Tuple[Tuple[str, str], ...]

    def fields_of(self, op: str) -> Tuple[Tuple[str, str], ...]:
        """The fields that an instruction of this kind and op has."""
        if op == "" and self.name in ("Ret", "CallNative"):
            return self.fields[:-1]
        if self.name == "AddrOf" and op not in ("Up", "Pkg", "Const"):
            return self.fields[:1] + self.fields[2:]
        return self.fields

    @property
    def ends(self) -> bool:
        """Is it a terminator?"""
        return 18 <= self.number <= 22


def _kind(number: int, name: str, fields: str, ops: Tuple[str, ...] = ("",)) -> Kind:
    pairs = []
    for word in fields.split():
        if word[0] in "+-":
            pairs.append((word[1:], word[0]))
        else:
            field, _, sort = word.partition(":")
            pairs.append((field, sort or "number"))
    return Kind(number, name, ops, tuple(pairs))


#: The kinds, by number.
KINDS: Tuple[Kind, ...] = (
    _kind(0, "Const", "+dst v:word"),
    _kind(1, "ConstF", "+dst v:real"),
    _kind(2, "Move", "+dst -src"),
    _kind(3, "AddrOf", "+dst space off", ("Frame", "Up", "Inst", "Pkg", "Const", "Shared")),
    _kind(4, "Select", "+dst -c -a -b"),
    _kind(5, "Cmp", "+dst -a -b", ("Eq", "Ne", "Lt", "Le", "Gt", "Ge")),
    _kind(6, "Bool", "+dst -a -b", ("And", "Or", "Xor", "Not")),
    _kind(7, "Bin", "+dst -a -b", _BIN),
    _kind(8, "BinRange", "+dst -a -b -lo -hi what", _BIN),
    _kind(9, "Load", "+dst -addr", _WIDTHS),
    _kind(10, "Store", "-addr -src", _WIDTHS),
    _kind(11, "Check", "-v -lo -hi what", ("Range", "Index", "IndexDown", "Length", "Null")),
    _kind(12, "MakeDope", "-at operands:list"),
    _kind(13, "DopeLen", "+dst -dope dim"),
    _kind(14, "BoundsLen", "+dst -left -right -dir"),
    _kind(15, "Alloc", "+dst -size"),
    _kind(16, "TakeBounds", "+left +right +dir"),
    _kind(17, "CallNative", "native operands:list +dst", ("", "dst")),
    _kind(18, "Br", "to:block"),
    _kind(19, "CondBr", "-c t:block f:block"),
    _kind(20, "Case", "-v table:table"),
    _kind(21, "Ret", "-v", ("", "v")),
    _kind(22, "Unreachable", "what"),
    _kind(23, "Stmt", ""),
)

BY_NAME: Dict[str, Kind] = {kind.name: kind for kind in KINDS}
