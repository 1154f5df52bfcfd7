"""The library's answers as small frozen classes, and its refusals in words."""

from __future__ import annotations

from dataclasses import dataclass
from typing import Any, Tuple

#: Bytes of room in which every shortened form fits.
ROOM = 61_728

#: Bytes of a record, and the most that a file may have.
RECORD = 32
LONGEST = 65_536

#: Cents that a file costs at most, and that a tally may be.
DEAREST = 233
CEILING_CENTS = 9_999_999
#: The refusal of a file whose price the tally has no room for.
CEILING = 10
#: Bytes of the saved form of accounts.
ACCOUNTS_SAVED = 416

_REASONS = {
    1: "the file is not a multiple of 32 bytes long, or is longer than 65536",
    2: "record {} is wrong in itself, or its class is below that of the record before",
    3: "the file has more records of a class than its limit, or no block",
    4: "record {}: the block is empty, starts elsewhere than the one before ends, ends past the code, "
    "or is the last and leaves code over",
    5: "record {}: the block ends without a terminator, or has one before its end",
    6: "record {}: the arm's table is not the one due, or the last default is missing",
    7: "record {} names a register, block, table or list that does not exist",
    8: "the file has more than 480 registers or 480 instructions, the most that are shortened",
    9: "the buffer is too short for the shortened form",
    10: f"the tally would pass {CEILING_CENTS} cents",
}


def reason(number: int, record: int = 0) -> str:
    """What a refusal means, in the words of `halivomue --words`; nothing for 0."""
    return _REASONS[number].format(record) if number else ""


def untidy_reason(reg: int, by_addr_of: bool = False) -> str:
    """What an untidy register means, in the words of `halivomue --words`."""
    if by_addr_of:
        return f"register {reg} is written once, by an AddrOf, and read before it in its block or in a block that leads there"
    return f"register {reg} is written once, and read elsewhere than later in the same block"


def is_by_addr_of(data: "bytes | memoryview", reg: int) -> bool:
    """Does an AddrOf write the offending register of an accepted file? (Only one field writes it.)"""
    record = b"\x04\x03"
    register = reg.to_bytes(4, "little")
    return any(data[at : at + 2] == record and data[at + 8 : at + 12] == register for at in range(0, len(data), RECORD))


class Refused(ValueError):
    """A file that the library refuses, with `number`, `record` and `reason`."""

    def __init__(self, number: int, record: int = 0) -> None:
        super().__init__(number, record)
        self.number = number
        self.record = record
        self.reason = reason(number, record)

    def __str__(self) -> str:
        return f"refused {self.number} {self.record} ({self.reason})"


class _Frozen:
    """Lets a frozen class with slots be pickled and copied."""

    __slots__: Tuple[str, ...] = ()

    def __reduce__(self) -> Tuple[Any, ...]:
        return type(self), tuple(getattr(self, name) for name in self.__slots__)


@dataclass(frozen=True)
class Reading(_Frozen):
    """The answer of `read`: 0 and 0 if the file is accepted, else the refusal and its record. It is true
    if the file is accepted."""

    __slots__ = ("number", "record")
    number: int
    record: int

    def __bool__(self) -> bool:
        return self.accepted

    @property
    def accepted(self) -> bool:
        return self.number == 0

    @property
    def reason(self) -> str:
        """The refusal in words; empty if the file is accepted."""
        return reason(self.number, self.record)


@dataclass(frozen=True)
class Tidiness(_Frozen):
    """The answer of `tidy`: number and record as from `read`, and for an accepted file whether it is
    tidy. `reg` is the lowest register that offends if it isn't, else 0. The answer is true if the
    file is accepted and tidy."""

    __slots__ = ("number", "record", "tidy", "reg", "_by_addr_of")
    number: int
    record: int
    tidy: bool
    reg: int

    def __post_init__(self) -> None:
        object.__setattr__(self, "_by_addr_of", False)

    def __reduce__(self) -> Tuple[Any, ...]:
        return tidiness, (self.number, self.record, self.tidy, self.reg, getattr(self, "_by_addr_of"))

    def __bool__(self) -> bool:
        return self.tidy

    @property
    def accepted(self) -> bool:
        return self.number == 0

    @property
    def reason(self) -> str:
        """The refusal, or what offends, in words; empty if the file is tidy."""
        if self.number or self.tidy:
            return reason(self.number, self.record)
        return untidy_reason(self.reg, getattr(self, "_by_addr_of"))


def tidiness(number: int, record: int, tidy: bool, reg: int, by_addr_of: bool) -> Tidiness:
    """An answer that knows whether an AddrOf writes the offending register; its `reason` depends on that."""
    answer = Tidiness(number, record, tidy, reg)
    object.__setattr__(answer, "_by_addr_of", by_addr_of)
    return answer


@dataclass(frozen=True)
class Shortening(_Frozen):
    """The answer of `shorten`: the shortened form's bytes, the counts, and the price in cents."""

    __slots__ = ("data", "moved", "grown", "fresh", "rescued", "price")
    data: bytes
    moved: int
    grown: int
    fresh: int
    rescued: int
    price: int

    @property
    def length(self) -> int:
        return len(self.data)

    @property
    def counts(self) -> str:
        return f"moved {self.moved} grown {self.grown} fresh {self.fresh} rescued {self.rescued}"

    def listing(self) -> str:
        """Document 01's listing: the counts, then registers, blocks and code in decimal."""
        from .procedure import Procedure

        return f"{self.counts}\n{Procedure.parse(self.data).numeric()}"
