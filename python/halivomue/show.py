"""A procedure by names, as sent or as shortened."""

from __future__ import annotations

from typing import Dict, Iterator, List

from . import _library, listing, roles
from .causes import plural
from .procedure import Instruction, Procedure
from .styled import Line, wrapped


def constants(p: Procedure) -> Dict[int, str]:
    """The registers of a file as sent that hold one constant throughout, and what they hold: only one
    Const, ConstF or AddrOf writes them."""
    writers: Dict[int, List[Instruction]] = {}
    for i in p.code:
        for reg in roles.written(i):
            writers.setdefault(reg, []).append(i)
    return {
        reg: listing.text(p, i[0]).partition(" = ")[2].partition(" ")[2]
        for reg, i in writers.items()
        if len(i) == 1 and i[0].kind in ("Const", "ConstF", "AddrOf")
    }


def _counted(count: int, name: str) -> str:
    return f"{count} {plural(count, name)}"


def _head(p: Procedure) -> str:
    counts = [(len(p.registers), "register"), (len(p.blocks), "block"), (len(p.code), "instruction"), (len(p.tables), "table")]
    return ", ".join(_counted(*pair) for pair in counts if pair[0])


def numbers(found: List[int]) -> str:
    """Some blocks: 'block 2', 'blocks 2 and 5'."""
    *first, last = [str(one) for one in found]
    return f"blocks {', '.join(first)} and {last}" if first else f"block {last}"


def _title(p: Procedure, at: int, before: Dict[int, List[int]], there: "set[int]") -> Line:
    title = listing.block_title(p, at)
    if at not in there:
        return [("title", title), ("faint", ", not reached from block 0")]
    return [("title", title), ("faint", f", from {numbers(before[at])}" if at in before else "")]


def _arms(p: Procedure, i: Instruction, indent: str) -> Iterator[Line]:
    """The arms of a Case, a line each."""
    if i.kind == "Case":
        for arm in listing.table_text(p.tables[roles.number(i, "table")]).split("; "):
            yield [("", f"{indent}  {arm}")]


def _held(p: Procedure, i: Instruction, known: Dict[int, str]) -> str:
    """The values of the constants that an instruction reads."""
    read = dict.fromkeys((*roles.read(i), *roles.listed(p, i)))
    return ", ".join(f"r{reg} is {known[reg]}" for reg in read if reg in known)


def _code(p: Procedure, at: int, known: Dict[int, str], column: int, width: int) -> Iterator[Line]:
    """A block's lines, with the values of constants from that column on."""
    wide = max(len(str(i.statement)) for i in p.code)
    indent = " " * (wide + 4)
    for i in p.blocks[at]:
        text, held = listing.brief(p, i), _held(p, i, known)
        first, *rest = wrapped(text, width - len(indent))
        number = f"  {i.statement:>{wide}}  "
        if held and len(indent) + max(len(text), column) + 4 + len(held) <= width:
            yield [("faint", number), ("", f"{text:<{column}}"), ("faint", "    " + held)]
        else:
            yield [("faint", number), ("", first)]
            yield from ([("", indent + "  " + more)] for more in rest)
            yield from ([("faint", indent + "  " + more)] for more in (wrapped(held, width - len(indent)) if held else ()))
        yield from _arms(p, i, indent)


def lines(data: bytes, name: str, short: bool, width: int = 100) -> List[Line]:
    """The file's procedure, or its shortened form's; raises `Refused`."""
    sent = Procedure.parse(data)
    p = Procedure.parse(_library.shorten(data).data) if short else sent
    known, own = constants(sent), len(sent.registers)
    before: Dict[int, List[int]] = {}
    for at, block in enumerate(p.blocks):
        for to in dict.fromkeys(roles.goes_to(p, block[-1])):
            before.setdefault(to, []).append(at)
    there = roles.reached(p, [block[-1] for block in p.blocks])
    tidiness = _library.tidy(data)
    tidy = "tidy" if tidiness.tidy else f"not tidy: r{tidiness.reg}"
    head = f"{name}, {'shortened' if short else 'as sent'}: {_head(p)}"
    out: List[Line] = [[("title", head), ("" if tidiness.tidy else "bad", "" if short else f"; {tidy}")]]
    registers = listing.registers_text(Procedure(p.registers[:own]))
    out += [[("", text)] for text in wrapped("registers: " + registers, width, "  ")]
    if p.registers[own:]:
        out += [[("copied", text)] for text in wrapped("new registers: " + listing.registers_text(p, own), width, "  ")]
    column = min(max(len(listing.brief(p, i)) for i in p.code), 40)
    for at in range(len(p.blocks)):
        out.append(_title(p, at, before, there))
        out += _code(p, at, known, column, width)
    return out
