"""Why a file is refused: which of a refusal's conditions applies, and to which field.

Number and record are the library's. Here only the conditions of that number are checked, for that record
(docs/FORMAT.md, 'Read: the seven refusals'), so that nothing is said about a file that the library doesn't say.
"""

from __future__ import annotations

import re
import struct
from typing import Dict, Iterator, List, NamedTuple, Sequence, Tuple

from . import answers
from .answers import LONGEST, RECORD
from .kinds import ARM, BLOCK, BODY, INSTRUCTION, KINDS, OPERAND, REGISTER, TYPES

CLASSES = {REGISTER: "register", BLOCK: "block", BODY: "body", INSTRUCTION: "instruction", OPERAND: "operand", ARM: "arm"}
#: How many records of a class a file may have.
LIMITS = {REGISTER: 756, BLOCK: 160, BODY: 1, INSTRUCTION: 756, OPERAND: 128, ARM: 128}
#: How many registers and instructions are shortened at most.
MOST = {REGISTER: 480, INSTRUCTION: 480}
_KINDS: Dict[int, Sequence[str]] = {
    REGISTER: TYPES, BLOCK: ("",), BODY: ("",), INSTRUCTION: [kind.name for kind in KINDS], OPERAND: ("",), ARM: ("arm", "default"),
}  # fmt: skip
_RECORD = struct.Struct("<4B7I")


class Place(NamedTuple):
    """One of p1 to p6: what it is called, and its sort as docs/FORMAT.md has it."""

    name: str
    sort: str  # register, block, table, list, number, small, unused


class Record(NamedTuple):
    """A record's numbers, and which record of the file it is."""

    at: int
    of: int
    kind: int
    op: int
    zero: int
    statement: int
    p: Tuple[int, ...]

    @property
    def kinds(self) -> Sequence[str]:
        """The names of its class's kinds."""
        return _KINDS.get(self.of, ())

    @property
    def ops(self) -> Sequence[str]:
        """The names of its kind's ops."""
        if self.kind >= len(self.kinds):
            return ()
        return KINDS[self.kind].ops if self.of == INSTRUCTION else ("",)

    @property
    def name(self) -> str:
        """What such a record is called."""
        named = self.of in (INSTRUCTION, ARM) and self.kind < len(self.kinds)
        return self.kinds[self.kind] if named else CLASSES[self.of]

    def places(self) -> List[Place]:
        """p1 to p6; none if there is no such class, kind or op, so that nobody can say what they are."""
        if self.op >= len(self.ops):
            return []
        named = _instruction(self.kind, self.op) if self.of == INSTRUCTION else _others(self.of, self.kind)
        return named + [Place("", "unused")] * (6 - len(named))


_SORTS = {"+": "register", "-": "register", "block": "block", "table": "table"}


def _instruction(number: int, op: int) -> List[Place]:
    kind = KINDS[number]
    wanted = kind.fields_of(kind.ops[op])
    places: List[Place] = []
    for name, sort in kind.fields:
        if (name, sort) not in wanted:
            places.append(Place(name, "unused"))
        elif sort == "list":
            places += [Place(name, "list"), Place("length", "number")]
        elif sort in ("word", "real"):
            places += [Place(f"{name}, lower half", "number"), Place(f"{name}, upper half", "number")]
        else:
            small = name == "dim" or name == "space" and kind.ops[op] == "Up"
            places.append(Place(name, "small" if small else _SORTS.get(sort, "number")))
    return places


def _others(of: int, kind: int) -> List[Place]:
    if of == BLOCK:
        return [Place("start", "number"), Place("end", "number")]
    if of == ARM:
        halves = [f"{word}, {half} half" for word in ("low", "high") for half in ("lower", "upper")]
        words = [Place(name, "unused" if kind else "number") for name in halves]
        return [Place("table's number", "number"), *words, Place("target", "block")]
    return {BODY: [Place("block", "block")], OPERAND: [Place("register", "register")]}.get(of, [])


class Records:
    """The records of a file, unpacked when they are needed, and how many there are of each class."""

    def __init__(self, data: bytes) -> None:
        self.data = data
        self.length = min(len(data), LONGEST) // RECORD
        self.classes = data[: RECORD * self.length : RECORD]
        self.count = {of: self.classes.count(of) for of in CLASSES}

    def at(self, number: int) -> Record:
        of, kind, op, zero, statement, *p = _RECORD.unpack_from(self.data, RECORD * number)
        return Record(number, of, kind, op, zero, statement, tuple(p))

    def of(self, which: int) -> List[Record]:
        """The records of a class."""
        return [self.at(number) for number, of in enumerate(self.classes) if of == which]

    def index(self, record: Record) -> int:
        """A record's number within its class."""
        return self.classes[: record.at].count(record.of)


class Cause(NamedTuple):
    """A condition that applies: its name, its words, the fields of the record, and what the rule wants there."""

    name: str
    words: str
    fields: Tuple[str, ...] = ()
    wanted: str = ""


# The words of each condition; `reason` fills them in, `fits` checks whether a text was made from them.
_WORDS = {
    1: {
        "long": "the file is longer than 65536 bytes",
        "odd": "the file has {length} bytes, {over} more than {records} times 32",
    },
    2: {
        "class": "record {at}: its class is {found}, and the classes are 1 to 6",
        "kind": "record {at}: its kind is {found}, and {name} has {wanted}",
        "op": "record {at}: its op is {found}, and {name} has {wanted}",
        "byte 3": "record {at}: its byte 3 is {found}, and must be 0",
        "statement": "record {at}: its statement is {found}, and only an instruction has one",
        "unused": "record {at}: {field} is {found}, and {name} doesn't use it: it must be 0",
        "small": "record {at}: {field} is {found}, and may be at most 255",
        "order": "record {at}: {name} after {before}, and classes must ascend",
    },
    3: {
        "limit": "the file has {found} {names}, and may have {wanted}",
        "no block": "the file has no block",
    },
    4: {
        "start": "record {at}: block {number} starts at {found}, and must start at {wanted}",
        "empty": "record {at}: block {number} starts at {start} and ends at {found}, so nothing is in it",
        "past": "record {at}: block {number} ends at {found}, and there are {wanted} instructions",
        "over": "record {at}: block {number} is the last and ends at {found}, and there are {wanted} instructions",
    },
    5: {
        "missing": "record {at}: block {number} ends in {name} (record {last}), which is no terminator",
        "early": "record {at}: block {number} has {name} (record {early}) before its end (record {last})",
    },
    6: {
        "number": "record {at}: the table's number is {found}, and {wanted} is due",
        "default": "record {at}: the last arm of the file is no default",
    },
    7: {
        "name": "record {at}: {field} names {sort} {found}, and there {wanted}",
        "list": "record {at}: {field} names a list of {length} operands from operand {found}, and there {wanted}",
    },
    8: {
        "many": "the file has {found} {names}, and at most {wanted} are shortened",
    },
}


def _cause(number: int, which: str, fields: Tuple[str, ...] = (), want: str = "", /, **more: object) -> Cause:
    return Cause(which, _WORDS[number][which].format(**more), fields, want)


def _of_length(data: bytes) -> Iterator[Cause]:
    if len(data) > LONGEST:
        yield _cause(1, "long")
    elif len(data) % RECORD:
        yield _cause(1, "odd", length=len(data), records=len(data) // RECORD, over=len(data) % RECORD)


def _among(count: int) -> str:
    return f"0 to {count - 1}" if count > 1 else "0 only"


def plural(count: int, name: str) -> str:
    return name if count == 1 else "bodies" if name == "body" else name + "s"


def _article(name: str) -> str:
    return ("an " if name[0] in "AEIOUaeiou" else "a ") + name


def _of_record(record: Record, before: int) -> Iterator[Cause]:
    """Refusal 2: a record after one of class `before`. What depends on a wrong class, kind or op isn't checked."""
    at = record.at
    if record.of not in CLASSES:
        yield _cause(2, "class", ("class",), "1 to 6", at=at, found=record.of)
        return
    if record.kind >= len(record.kinds):
        want = _among(len(record.kinds))
        yield _cause(2, "kind", ("kind",), want, at=at, found=record.kind, name=_article(CLASSES[record.of]), wanted=want)
    elif record.op >= len(record.ops):
        want = _among(len(record.ops))
        yield _cause(2, "op", ("op",), want, at=at, found=record.op, name=_article(record.name), wanted=want)
    if record.zero:
        yield _cause(2, "byte 3", ("byte 3",), "0", at=at, found=record.zero)
    if record.statement and record.of != INSTRUCTION:
        yield _cause(2, "statement", ("statement",), "0", at=at, found=record.statement)
    yield from _of_places(record)
    if record.of < before:
        told = {"name": _article(CLASSES[record.of]), "before": _article(CLASSES[before])}
        yield _cause(2, "order", ("class",), f"{before} or more", at=at, **told)


def _field(number: int, place: Place) -> str:
    return f"p{number}" + (f" ({place.name})" if place.name else "")


def _of_places(record: Record) -> Iterator[Cause]:
    for number, (place, found) in enumerate(zip(record.places(), record.p), 1):
        field, name = _field(number, place), _article(record.name)
        if place.sort == "unused" and found:
            yield _cause(2, "unused", (f"p{number}",), "0", at=record.at, field=field, found=found, name=name)
        elif place.sort == "small" and found > 255:
            yield _cause(2, "small", (f"p{number}",), "0 to 255", at=record.at, field=field, found=found)


def _of_limits(records: Records, limits: Dict[int, int], number: int, which: str) -> Iterator[Cause]:
    for of, most in limits.items():
        if records.count[of] > most:
            names = plural(2, CLASSES[of])
            yield _cause(number, which, (CLASSES[of],), f"at most {most}", found=records.count[of], names=names, wanted=most)


def _of_tiling(records: Records, block: Record) -> Iterator[Cause]:
    number, blocks, code = records.index(block), records.of(BLOCK), records.count[INSTRUCTION]
    due = blocks[number - 1].p[1] if number else 0
    start, end = block.p[:2]
    told = {"at": block.at, "number": number}
    if start != due:
        yield _cause(4, "start", ("p1",), str(due), found=start, wanted=due, **told)
    if end <= start:
        yield _cause(4, "empty", ("p2",), f"more than {start}", start=start, found=end, **told)
    if end > code:
        yield _cause(4, "past", ("p2",), f"at most {code}", found=end, wanted=code, **told)
    if end < code and number == len(blocks) - 1:
        yield _cause(4, "over", ("p2",), str(code), found=end, wanted=code, **told)


def _of_terminator(records: Records, block: Record) -> Iterator[Cause]:
    code = records.of(INSTRUCTION)[block.p[0] : block.p[1]]
    if not code:
        return
    ends = [record for record in code if KINDS[record.kind].ends]
    told = {"at": block.at, "number": records.index(block), "last": code[-1].at}
    if not ends:
        yield _cause(5, "missing", (f"record {code[-1].at}",), "a Br, CondBr, Case, Ret or Unreachable", name=code[-1].name, **told)
    elif ends[0] != code[-1]:
        yield _cause(5, "early", (f"record {ends[0].at}",), "no terminator", name=ends[0].name, early=ends[0].at, **told)


def _of_arm(records: Records, arm: Record) -> Iterator[Cause]:
    arms = records.of(ARM)
    due = sum(other.kind == 1 for other in arms if other.at < arm.at)
    if arm.p[0] != due:
        yield _cause(6, "number", ("p1",), str(due), at=arm.at, found=arm.p[0], wanted=due)
    if arm == arms[-1] and arm.kind != 1:
        yield _cause(6, "default", ("kind",), "1", at=arm.at)


def _there(sort: str, count: int) -> str:
    return f"is no {sort}" if count == 0 else f"{'is' if count == 1 else 'are'} {count} {plural(count, sort)}"


def _of_names(records: Records, record: Record) -> Iterator[Cause]:
    tables = sum(arm.kind == 1 for arm in records.of(ARM))
    there = {"register": records.count[REGISTER], "block": records.count[BLOCK], "table": tables}
    operands = records.count[OPERAND]
    for number, (place, found) in enumerate(zip(record.places(), record.p), 1):
        field = _field(number, place)
        if place.sort == "list" and found + record.p[number] > operands:
            fields, want = (f"p{number}", f"p{number + 1}"), f"start plus length at most {operands}"
            told = {"length": record.p[number], "wanted": _there("operand", operands)}
            yield _cause(7, "list", fields, want, at=record.at, field=field, found=found, **told)
        elif place.sort in there and found >= there[place.sort]:
            count = there[place.sort]
            want = f"{place.sort} {_among(count)}" if count else f"a {place.sort}, and there is none"
            told = {"sort": place.sort, "wanted": _there(place.sort, count)}
            yield _cause(7, "name", (f"p{number}",), want, at=record.at, field=field, found=found, **told)


def causes(data: bytes, number: int, record: int) -> List[Cause]:
    """The conditions of the library's refusal that apply, in the order in which they are checked."""
    if number == 1:
        return list(_of_length(data))
    records = Records(data)
    if number == 3:
        found = list(_of_limits(records, LIMITS, 3, "limit"))
        return found if records.count[BLOCK] else [_cause(3, "no block", ("block",), "at least 1"), *found]
    if number == 8:
        return list(_of_limits(records, MOST, 8, "many"))
    if record >= records.length:
        return []
    told = records.at(record)
    if number == 2:
        return list(_of_record(told, records.classes[record - 1] if record else 1))
    if told.of != {4: BLOCK, 5: BLOCK, 6: ARM}.get(number, told.of):
        return []
    asked = {4: _of_tiling, 5: _of_terminator, 6: _of_arm, 7: _of_names}.get(number)
    return list(asked(records, told)) if asked else []


def reason(data: bytes, number: int, record: int) -> str:
    """The first condition that applies, in words; the refusal's own words if none is found."""
    found = causes(data, number, record)
    return found[0].words if found else answers.reason(number, record)


def fits(number: int, record: int, text: str) -> bool:
    """Can these words be the reason of such a refusal?"""
    if number and text == answers.reason(number, record):
        return True
    for words in _WORDS.get(number, {}).values():
        form = re.escape(words).replace(re.escape("{at}"), str(record))
        if re.fullmatch(re.sub(r"\\{\w+\\}", ".+", form), text):
            return True
    return False
