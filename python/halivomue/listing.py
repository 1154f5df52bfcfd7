"""A procedure as a technician reads it."""

from __future__ import annotations

from itertools import groupby
from typing import TYPE_CHECKING, Any, List

if TYPE_CHECKING:
    from .procedure import Instruction, Procedure, Table

_SIGNS = {
    "Eq": "==", "Ne": "!=", "Lt": "<", "Le": "<=", "Gt": ">", "Ge": ">=", "And": "and", "Or": "or", "Xor": "xor",
    "Add": "+", "Sub": "-", "Mul": "*", "Div": "/", "Rem": "rem", "Mod": "mod", "Pow": "**",
}  # fmt: skip

# How an instruction of a kind, or of a kind and an op, is shown.
_FORMS = {
    "Const": "{dst} = Const {v}",
    "ConstF": "{dst} = ConstF {v}",
    "Move": "{dst} = Move {src}",
    "AddrOf": "{dst} = AddrOf {op} + {off}",
    "AddrOf Up": "{dst} = AddrOf Up {space} + {off}",
    "AddrOf Pkg": "{dst} = AddrOf Pkg {space} + {off}",
    "AddrOf Const": "{dst} = AddrOf Const {space} + {off}",
    "Select": "{dst} = Select {c} ? {a} : {b}",
    "Cmp": "{dst} = Cmp {a} {sign} {b}",
    "Bool": "{dst} = Bool {a} {sign} {b}",
    "Bool Not": "{dst} = Bool not {a}",
    "Bin": "{dst} = Bin {a} {sign} {b}",
    "BinRange": "{dst} = BinRange {a} {sign} {b} within {lo}..{hi}, what {what}",
    "Load": "{dst} = Load {op} [{addr}]",
    "Store": "Store {op} [{addr}] = {src}",
    "Check": "Check {op} {v}, {lo}, {hi}, what {what}",
    "Check Length": "Check Length {v}, {lo}, what {what}",
    "Check Null": "Check Null {v}, what {what}",
    "MakeDope": "MakeDope at {at} {operands}",
    "DopeLen": "{dst} = DopeLen {dope} dim {dim}",
    "BoundsLen": "{dst} = BoundsLen {left} {right} {dir}",
    "Alloc": "{dst} = Alloc {size}",
    "TakeBounds": "{left}, {right}, {dir} = TakeBounds",
    "CallNative": "CallNative {native} {operands}",
    "CallNative dst": "{dst} = CallNative {native} {operands}",
    "Br": "Br {to}",
    "CondBr": "CondBr {c} ? {t} : {f}",
    "Case": "Case {v} by {table}",
    "Ret": "Ret",
    "Ret v": "Ret {v}",
    "Unreachable": "Unreachable {what}",
    "Stmt": "Stmt",
}


def table_text(table: "Table") -> str:
    """A table in one line: each arm with its block, then the default."""
    arms = [
        (f"{arm.low}" if arm.low == arm.high else f"{arm.low}..{arm.high}") + f" -> block {arm.block}"
        for arm in table.arms
    ]
    return "; ".join([*arms, f"else -> block {table.default}"])


def _shown(p: "Procedure", sort: str, value: Any) -> str:
    """A field's value."""
    if sort in "+-":
        return f"r{value}"
    if sort == "block":
        return f"block {value}"
    if sort == "table":
        return f"table {value}: " + (table_text(p.tables[value]) if value < len(p.tables) else "no such table")
    if sort == "list":
        start, length = value
        return "(" + ", ".join(f"r{register}" for register in p.operands[start : start + length]) + ")"
    if sort == "real":
        return f"NaN {value:016x}" if isinstance(value, int) else repr(value)
    return str(value)


def text(p: "Procedure", i: "Instruction") -> str:
    """An instruction in one line, with names of kind and op, registers, targets and constants."""
    form = _FORMS.get(f"{i.kind} {i.op}") or _FORMS[i.kind]
    fields = {name: _shown(p, sort, value) for name, sort, value in i.fields}
    return form.format(op=i.op, sign=_SIGNS.get(i.op, ""), **fields)


def brief(p: "Procedure", i: "Instruction") -> str:
    """An instruction as `text` shows it, but a Case without the arms of its table."""
    return text(p, i).partition(":")[0] if i.kind == "Case" else text(p, i)


def registers_text(p: "Procedure", start: int = 0) -> str:
    """Types of registers from a number on, with runs of one type put together."""
    rows = []
    for name, numbers in groupby(range(start, len(p.registers)), key=p.registers.__getitem__):
        row = list(numbers)
        rows.append(f"r{row[0]}" + (f" to r{row[-1]}" if row[1:] else "") + f" {name}")
    return ", ".join(rows) or "none"


def block_title(p: "Procedure", number: int) -> str:
    return f"block {number}" + (" (body)" if number == p.body else "")


def listing(p: "Procedure") -> str:
    """The whole procedure: registers, then block by block statement and instruction."""
    lines: List[str] = ["registers: " + registers_text(p)]
    wide = max((len(str(i.statement)) for i in p.code), default=1)
    for number, block in enumerate(p.blocks):
        lines.append(block_title(p, number) + ":")
        lines += [f"  {i.statement:>{wide}}  {text(p, i)}" for i in block]
    return "\n".join(lines)
