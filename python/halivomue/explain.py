"""Why a file is refused or untidy: the record field by field, or the register with its write and reads."""

from __future__ import annotations

from itertools import zip_longest
from typing import Dict, Iterator, List, NamedTuple, Optional, Tuple

from . import _library, causes, listing, roles
from .causes import CLASSES, Cause, Record, Records
from .kinds import INSTRUCTION
from .procedure import Instruction, Procedure
from .styled import Line, wrapped

_MOST_READS = 10


# Refused


def _meanings(record: Record) -> Iterator[Tuple[str, int, str]]:
    """Field, number and meaning of each field; no meaning if it depends on a wrong class, kind or op."""
    op = record.ops[record.op] if record.op < len(record.ops) else ""
    yield "class", record.of, CLASSES.get(record.of, "")
    yield "kind", record.kind, record.kinds[record.kind] if record.kind < len(record.kinds) else ""
    yield "op", record.op, f"with {op}" if op in ("dst", "v") else op
    yield "byte 3", record.zero, ""
    yield "statement", record.statement, ""
    for number, (found, place) in enumerate(zip_longest(record.p, record.places()), 1):
        yield f"p{number}", found, _place(place) if place else ""


def _place(place: causes.Place) -> str:
    sorts = {"unused": "not used", "list": "the first operand of a list", "small": "at most 255", "number": ""}
    sort = sorts.get(place.sort, "a " + place.sort)
    name = "" if place.name == place.sort or place.sort == "unused" else place.name
    return ": ".join(filter(None, (name, sort)))


def _wanted(found: List[Cause]) -> Dict[str, str]:
    """What the rule wants in each field that is wrong."""
    wanted: Dict[str, List[str]] = {}
    for cause in found:
        for field in cause.fields:
            wanted.setdefault(field, []).append(cause.wanted)
    return {field: ", ".join(texts) for field, texts in wanted.items()}


def _decoded(record: Record, found: List[Cause]) -> Iterator[Line]:
    """A record field by field, with what is wanted in the wrong ones."""
    wanted = _wanted(found)
    rows = list(_meanings(record))
    while rows[-1][1] == 0 and rows[-1][2] in ("", "not used") and rows[-1][0] not in wanted:
        rows.pop()
    wide = max(len(str(number)) for _, number, _ in rows)
    for field, number, meaning in rows:
        style = "bad" if field in wanted else ""
        mark = f"  <- wanted: {wanted[field]}" if field in wanted else ""
        yield [(style, f"  {field:<9}  {number:>{wide}}"), ("", f"  {meaning}" if meaning else ""), (style, mark)]


def _counts(records: Records, found: List[Cause]) -> Iterator[Line]:
    """How many records there are of each class."""
    wanted = _wanted(found)
    for of, name in CLASSES.items():
        style = "bad" if name in wanted else ""
        mark = f"  <- wanted: {wanted[name]}" if name in wanted else ""
        yield [(style, f"  {name:<11} {records.count[of]:>4}{mark}")]


def _ends(records: Records, block: Record, found: List[Cause]) -> Iterator[Line]:
    """The instruction of a block that is wrong, and the last one."""
    code = records.of(INSTRUCTION)[block.p[0] : block.p[1]]
    wanted = _wanted(found)
    for record in code:
        field = f"record {record.at}"
        if field in wanted:
            yield [("bad", f"  {field}, statement {record.statement}: {record.name}  <- wanted: {wanted[field]}")]
        elif record == code[-1]:
            yield [("", f"  {field}, statement {record.statement}: {record.name}")]


def _refused(data: bytes, number: int, record: int, width: int) -> Iterator[Line]:
    """The conditions that apply, and the record if there is one."""
    found = causes.causes(data, number, record)
    for words in [cause.words for cause in found] or [causes.reason(data, number, record)]:
        yield from ([("", text)] for text in wrapped("  " + words, width, "  "))
    if number == 1:
        if data.endswith(b"\n") and len(data) % 32 == 1:
            yield [("", "  the last byte is a line end")]
        return
    records = Records(data)
    if number in (3, 8):
        yield from _counts(records, found)
        return
    told = records.at(record)
    index = f", {CLASSES[told.of]} {records.index(told)} of the file" if told.of in CLASSES else ""
    yield [("title", f"record {record}, bytes {32 * record} to {32 * record + 31}{index}")]
    yield from _decoded(told, found)
    if number == 5:
        yield from _ends(records, told, found)


# Untidy


class Read(NamedTuple):
    """A read that offends: block, place and instruction, and what is wrong with it."""

    block: int
    place: int
    i: Instruction
    why: str


def _way(p: Procedure, start: int, to: int) -> Optional[List[int]]:
    """The blocks over which Br and CondBr lead from one block to another, by the shortest way."""
    ways: Dict[int, List[int]] = {}
    todo = [[start]]
    while todo and to not in ways:
        way = todo.pop(0)
        for block in p.blocks[way[-1]][-1].targets:
            if block not in ways:
                ways[block] = [*way, block]
                todo.append(ways[block])
    return ways.get(to)


def _wrong(p: Procedure, kind: str, written: Tuple[int, int], read: Tuple[int, int]) -> str:
    """Why a read at one place of a register that is written at another offends; nothing if it doesn't."""
    if kind in ("Const", "ConstF"):
        return ""
    if written[0] == read[0]:
        if kind == "AddrOf":
            return "before it is written" if read[1] < written[1] else ""
        return "in the instruction that writes it" if read[1] == written[1] else "before it is written" if read < written else ""
    if kind != "AddrOf":
        return "in another block"
    way = _way(p, read[0], written[0])
    return f"in a block that leads back to the write: {' -> '.join(f'block {block}' for block in way)}" if way else ""


def offence(p: Procedure, reg: int) -> Tuple[Optional[Tuple[int, int, Instruction]], List[Read]]:
    """The one write of a register, with its block and place, and the reads that offend; None if it hasn't exactly one write."""
    placed = [(at, place, i) for at, block in enumerate(p.blocks) for place, i in enumerate(block)]
    writes = [found for found in placed for written in roles.written(found[2]) if written == reg]
    if len(writes) != 1:
        return None, []
    at, place, i = writes[0]
    reads = [
        Read(b, k, x, _wrong(p, i.kind, (at, place), (b, k)))
        for b, k, x in placed
        if reg in (*roles.read(x), *roles.listed(p, x))
    ]
    return writes[0], [read for read in reads if read.why]


def untidy_words(p: Procedure, reg: int) -> str:
    """What is wrong with a register, in one line."""
    write, reads = offence(p, reg)
    if write is None or not reads:
        return f"register {reg} offends"
    more = f" and {len(reads) - 1} more" if reads[1:] else ""
    return f"register {reg} is written once, by {write[2].kind} in block {write[0]}, and read {reads[0].why} (block {reads[0].block}{more})"


def _untidy(p: Procedure, reg: int, width: int) -> Iterator[Line]:
    """The register's write, and the reads that offend."""
    code = len(p.registers) + len(p.blocks) + (p.body is not None)
    start = [start for start, _ in p.spans()]

    def line(what: str, at: int, place: int, i: Instruction, why: str) -> Iterator[Line]:
        head = f"  {what:<8} record {code + start[at] + place}, block {at}, statement {i.statement}: "
        yield [("", head), ("title" if what == "written" else "bad", listing.brief(p, i))]
        yield from ([("", text)] for text in wrapped(f"           {why}", width, "           ") if why)

    write, reads = offence(p, reg)
    if write is None:
        return
    yield from line("written", *write, "by this instruction alone")
    for read in reads[:_MOST_READS]:
        yield from line("read", *read)
    if reads[_MOST_READS:]:
        yield [("", f"  and {len(reads) - _MOST_READS} more reads that offend")]


def lines(data: bytes, name: str, width: int = 100) -> Tuple[List[Line], int]:
    """What is wrong with a file, and the number of its refusal, 0 if it isn't refused."""
    tidiness = _library.tidy(data)
    out: List[Line] = [[("title", f"{name}: ")]]
    if tidiness.number:
        out[0].append(("bad", f"refused {tidiness.number} {tidiness.record}"))
        return out + list(_refused(data, tidiness.number, tidiness.record, width)), tidiness.number
    p = Procedure.parse(data)
    if tidiness.tidy:
        out[0].append(("", "accepted, tidy"))
    else:
        out[0].append(("bad", f"accepted, not tidy: register {tidiness.reg} ({p.registers[tidiness.reg]})"))
        out += _untidy(p, tidiness.reg, width)
    answer, _ = _library.provisioned(data)
    if answer.number:
        out.append([("title", f"{name}: "), ("bad", f"shortening is refused {answer.number} {answer.record}")])
        out += _refused(data, answer.number, answer.record, width)
    return out, answer.number
