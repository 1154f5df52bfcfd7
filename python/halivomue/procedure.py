"""A file's records as Python values, and back."""

from __future__ import annotations

import math
import struct
from dataclasses import dataclass, field
from typing import Any, Iterator, List, Optional, Sequence, Tuple, Union

from . import _library
from .answers import RECORD, Refused
from .kinds import ARM, BLOCK, BODY, BY_NAME, INSTRUCTION, KINDS, OPERAND, REGISTER, TYPES, Kind

_PLACES = struct.Struct("<4B7I")
_U32 = 1 << 32
_U64 = 1 << 64
_NAN = 0x7FF8_0000_0000_0000

Value = Union[int, float, Tuple[int, int]]

#: Fields that hold a number of one byte.
_BYTES = frozenset((("DopeLen", "", "dim"), ("AddrOf", "Up", "space")))


def _is_nan(bits: int) -> bool:
    return bits >> 52 & 0x7FF == 0x7FF and bits & (1 << 52) - 1 != 0


def _signed(bits: int) -> int:
    return bits - _U64 if bits >> 63 else bits


def _halves(bits: int) -> Tuple[int, int]:
    return bits % _U32, bits // _U32


def _word(value: Any, what: str) -> int:
    """64 bits of an integer, signed or not."""
    if isinstance(value, bool) or not isinstance(value, int) or not -(1 << 63) <= value < _U64:
        raise ValueError(f"{what}: a number of 64 bits expected, not {value!r}")
    return value % _U64


def _number(value: Any, what: str) -> int:
    """32 bits of an integer."""
    if isinstance(value, bool) or not isinstance(value, int) or not 0 <= value < _U32:
        raise ValueError(f"{what}: a number from 0 to 4294967295 expected, not {value!r}")
    return value


def _pair(value: Any, what: str) -> Tuple[int, int]:
    if not isinstance(value, (tuple, list)) or len(value) != 2:
        raise ValueError(f"{what}: a pair of start and length expected, not {value!r}")
    return _number(value[0], what), _number(value[1], what)


def _real_bits(value: Any, what: str) -> int:
    """The 64 bits of a ConstF's value: a float, or an integer that is the bits of a NaN."""
    if isinstance(value, int) and not isinstance(value, bool) and 0 <= value < _U64 and _is_nan(value):
        return value
    if isinstance(value, bool) or not isinstance(value, (int, float)):
        raise ValueError(f"{what}: a float, or the bits of a NaN, expected, not {value!r}")
    return _NAN if math.isnan(value) else int.from_bytes(struct.pack("<d", value), "little")


def _real(bits: int) -> Union[int, float]:
    return bits if _is_nan(bits) else struct.unpack("<d", struct.pack("<Q", bits))[0]


def _shape(kind: str, op: str) -> Kind:
    """The kind of that name; ValueError if there is none, or it has no such op."""
    shape = BY_NAME.get(kind)
    if shape is None:
        raise ValueError(f"there is no kind {kind!r}")
    if op not in shape.ops:
        raise ValueError(f"{kind} has no op {op!r}: {', '.join(filter(None, shape.ops)) or 'it has none'}")
    return shape


@dataclass(frozen=True)
class Instruction:
    """An instruction: kind and op by name, statement, and its fields' values in their order.

    `instruction("Bin", "Add", 10, dst=2, a=0, b=1)` makes one by field names; fields are read as
    attributes: `i.dst`. A list of operands is a pair of start and length, a Const's `v` a signed
    number, a ConstF's a float (or the bits, if they are those of a NaN). ValueError if kind, op and
    fields don't go together or a field can't hold its value.
    """

    kind: str
    op: str
    statement: int
    values: Tuple[Value, ...]

    def __post_init__(self) -> None:
        fields, values = _shape(self.kind, self.op).fields_of(self.op), tuple(self.values)
        _number(self.statement, "statement")
        if len(values) != len(fields):
            names = ", ".join(name for name, _ in fields)
            raise ValueError(f"{self.kind} {self.op}: the fields are {names or 'none'}, not {len(values)} values")
        plain = tuple(self._plain(name, sort, value) for (name, sort), value in zip(fields, values))
        object.__setattr__(self, "values", plain)

    def __reduce__(self) -> Tuple[Any, ...]:
        return Instruction, (self.kind, self.op, self.statement, self.values)

    def _plain(self, name: str, sort: str, value: Any) -> Value:
        """A field's value as parsing gives it."""
        what = f"{self.kind} {name}"
        if sort == "word":
            return _signed(_word(value, what))
        if sort == "real":
            return _real(_real_bits(value, what))
        if sort == "list":
            return _pair(value, what)
        number = _number(value, what)
        if number > 255 and (self.kind, self.op, name) in _BYTES:
            raise ValueError(f"{what}: a number from 0 to 255 expected, not {value!r}")
        return number

    @property
    def shape(self) -> Kind:
        """The kind with its number, ops and fields."""
        return BY_NAME[self.kind]

    @property
    def fields(self) -> Tuple[Tuple[str, str, Value], ...]:
        """Name, sort and value of each field."""
        shape = self.shape.fields_of(self.op)
        return tuple((name, sort, value) for (name, sort), value in zip(shape, self.values))

    def __getattr__(self, name: str) -> Value:
        if name.startswith("_") or "values" not in self.__dict__:
            raise AttributeError(name)
        for field_name, _, value in self.fields:
            if field_name == name:
                return value
        raise AttributeError(f"{self.kind} has no field {name}")

    @property
    def targets(self) -> Tuple[int, ...]:
        """The blocks that it names itself; those of a Case are in its table."""
        return tuple(value for _, sort, value in self.fields if sort == "block")  # type: ignore[misc]

    def places(self) -> List[int]:
        """p1 to p6."""
        found: List[int] = []
        given = {name: (sort, value) for name, sort, value in self.fields}
        for name, sort in self.shape.fields:
            value = given.get(name, (sort, (0, 0) if sort == "list" else 0))[1]
            what = f"{self.kind} {name}"
            if sort == "word":
                found += _halves(_word(value, what))
            elif sort == "real":
                found += _halves(_real_bits(value, what))
            elif sort == "list":
                found += [_number(part, what) for part in value]  # type: ignore[union-attr]
            else:
                found.append(_number(value, what))
        return found + [0] * (6 - len(found))

    def record(self) -> bytes:
        """Its 32 bytes."""
        shape = self.shape
        number, statement = shape.ops.index(self.op), _number(self.statement, "statement")
        return _PLACES.pack(INSTRUCTION, shape.number, number, 0, statement, *self.places())


def instruction(kind: str, op: str = "", statement: int = 0, **fields: Value) -> Instruction:
    """An instruction by the names of its kind, op and fields; ValueError for an unknown name."""
    # For these two kinds the op says whether the field exists.
    if kind == "Ret" and op == "" and "v" in fields:
        op = "v"
    if kind == "CallNative" and op == "" and "dst" in fields:
        op = "dst"
    names = [name for name, _ in _shape(kind, op).fields_of(op)]
    if sorted(names) != sorted(fields):
        raise ValueError(f"{kind} {op}: the fields are {', '.join(names) or 'none'}, not {', '.join(fields) or 'none'}")
    return Instruction(kind, op, statement, tuple(fields[name] for name in names))


def _parsed(kind: int, op: int, statement: int, places: Sequence[int]) -> Instruction:
    shape = KINDS[kind]
    name = shape.ops[op]
    wanted = shape.fields_of(name)
    values: List[Value] = []
    at = 0
    for pair in shape.fields:
        low, high = places[at], places[min(at + 1, 5)]
        sort = pair[1]
        at += 2 if sort in ("word", "real", "list") else 1
        if pair not in wanted:
            continue
        if sort == "word":
            values.append(_signed(low + high * _U32))
        elif sort == "real":
            values.append(_real(low + high * _U32))
        else:
            values.append((low, high) if sort == "list" else low)
    return Instruction(shape.name, name, statement, tuple(values))


@dataclass(frozen=True)
class Arm:
    """An arm of a table: from `low` to `high`, both signed and inclusive, to `block`."""

    low: int
    high: int
    block: int


@dataclass(frozen=True)
class Table:
    """A table: its arms in order, and the block for a value that is in none."""

    arms: Tuple[Arm, ...]
    default: int


@dataclass(frozen=True)
class Procedure:
    """A call procedure: types of registers, blocks of instructions, body, operands and tables.

    `bytes()` of it is its file, and `Procedure.parse` goes the other way; `str()` is a readable listing,
    and `numeric()` document 01's. Whether everything that it names exists is for `halivomue.read` to say.
    """

    registers: Sequence[str] = ()
    blocks: Sequence[Sequence[Instruction]] = ()
    body: Optional[int] = None
    operands: Sequence[int] = ()
    tables: Sequence[Table] = field(default=())

    def __post_init__(self) -> None:
        object.__setattr__(self, "registers", tuple(self.registers))
        object.__setattr__(self, "blocks", tuple(tuple(block) for block in self.blocks))
        object.__setattr__(self, "operands", tuple(self.operands))
        object.__setattr__(self, "tables", tuple(self.tables))
        for name in self.registers:
            if name not in TYPES:
                raise ValueError(f"there is no type {name!r}: {', '.join(TYPES)}")

    @classmethod
    def parse(cls, data: _library.Data) -> "Procedure":
        """The procedure of an accepted file; raises `Refused` for any other."""
        answer = _library.read(data)
        if answer.number:
            raise Refused(answer.number, answer.record)
        of: List[List[Tuple[int, ...]]] = [[] for _ in range(7)]
        for record in _PLACES.iter_unpack(data):
            of[record[0]].append(record)
        code = [_parsed(kind, op, statement, places) for _, kind, op, _, statement, *places in of[INSTRUCTION]]
        tables: List[Table] = []
        arms: List[Arm] = []
        for _, kind, _, _, _, _, low, low_high, high, high_high, block in of[ARM]:
            if kind:
                tables.append(Table(tuple(arms), block))
                arms = []
            else:
                arms.append(Arm(_signed(low + low_high * _U32), _signed(high + high_high * _U32), block))
        return cls(
            [TYPES[record[1]] for record in of[REGISTER]],
            [code[record[5] : record[6]] for record in of[BLOCK]],
            of[BODY][0][5] if of[BODY] else None,
            [record[5] for record in of[OPERAND]],
            tables,
        )

    @property
    def code(self) -> Tuple[Instruction, ...]:
        """All instructions, block after block."""
        return tuple(i for block in self.blocks for i in block)

    def spans(self) -> Iterator[Tuple[int, int]]:
        """Start and end of each block in the code."""
        start = 0
        for block in self.blocks:
            yield start, start + len(block)
            start += len(block)

    def __bytes__(self) -> bytes:
        def record(of: int, kind: int, *places: int) -> bytes:
            places += (0,) * (6 - len(places))
            return _PLACES.pack(of, kind, 0, 0, 0, *(_number(place, "place") for place in places))

        rows = [record(REGISTER, TYPES.index(name)) for name in self.registers]
        rows += [record(BLOCK, 0, start, end) for start, end in self.spans()]
        if self.body is not None:
            rows.append(record(BODY, 0, self.body))
        rows += [i.record() for i in self.code]
        rows += [record(OPERAND, 0, register) for register in self.operands]
        for number, table in enumerate(self.tables):
            for arm in table.arms:
                low, high = _halves(_word(arm.low, "low")), _halves(_word(arm.high, "high"))
                rows.append(record(ARM, 0, number, *low, *high, arm.block))
            rows.append(record(ARM, 1, number, 0, 0, 0, 0, table.default))
        return b"".join(rows)

    def numeric(self) -> str:
        """Document 01's listing without its line of counts: registers, blocks, code in decimal."""
        lines = [f"reg {number} {TYPES.index(name)}" for number, name in enumerate(self.registers)]
        lines += [f"block {number} {start} {end}" for number, (start, end) in enumerate(self.spans())]
        for place, i in enumerate(self.code):
            op = i.shape.ops.index(i.op)
            numbers = " ".join(map(str, i.places()))
            lines.append(f"code {place} {i.shape.number} {op} {i.statement} {numbers}")
        return "".join(line + "\n" for line in lines)

    def __str__(self) -> str:
        from .listing import listing

        return listing(self)


__all__ = ["Arm", "Instruction", "Procedure", "RECORD", "Table", "instruction"]
