"""The report: a row for each file, read and written as CSV and as JSON lines, and the totals."""

from __future__ import annotations

import csv
import heapq
import io
import json
from itertools import groupby
from operator import attrgetter
from typing import IO, Dict, Iterator, List, NamedTuple, Optional, Sequence, Tuple

from . import names
from .filing import LINE, File, lines


class Row(NamedTuple):
    """What the run did with a file; None if a column doesn't apply.

    answer   accepted, refused, unreadable, or `not sent` for what an earlier run filed
    number   of the library's refusal; 8 if there is no shortened form because the file is too large;
             none if the run refuses an untidy file (--strict)
    filed    yes, with its shortened form; as sent, without one; no; earlier (what an earlier run filed
             is still there); spoiled (something else is there)

    price    what the shortened form costs, in cents
    billed   the cents that this run has added to the tally for this file

    The columns from `tidy` on, but for `billed`, describe what is filed.
    """

    name: str
    answer: str
    number: Optional[int] = None
    record: Optional[int] = None
    reason: str = ""
    filed: str = "no"
    tidy: str = ""
    reg: Optional[int] = None
    instructions_sent: Optional[int] = None
    instructions_short: Optional[int] = None
    bytes_sent: Optional[int] = None
    bytes_short: Optional[int] = None
    moved: Optional[int] = None
    grown: Optional[int] = None
    fresh: Optional[int] = None
    rescued: Optional[int] = None
    price: Optional[int] = None
    billed: Optional[int] = None
    sha256_sent: str = ""
    sha256_short: str = ""


COLUMNS = Row._fields
#: The columns that are summed; `billed` last, which files without a shortened form may have too.
SUMMED = (
    "instructions_sent", "instructions_short", "bytes_sent", "bytes_short", "moved", "grown", "fresh", "rescued", "price", "billed",
)  # fmt: skip
_summed = attrgetter(*SUMMED)
_NUMBERS = frozenset(("number", "record", "reg", *SUMMED))
HEADER = ",".join(COLUMNS)
#: The columns up to version 0.5, which billed nothing.
_UNBILLED = tuple(name for name in COLUMNS if name not in ("price", "billed"))
_COLUMNS_OF = {(",".join(columns) + "\n").encode(): columns for columns in (COLUMNS, _UNBILLED)}
_IS_NUMBER = {columns: tuple(name in _NUMBERS for name in columns) for columns in (COLUMNS, _UNBILLED)}
#: Roughly the bytes of a row without its name.
ROW_BYTES = 512
#: The answer of the last row.
TOTAL = "total"
#: After so many wrong lines no more of a report is read.
_MOST_WRONG = 1000


def counted(files: int) -> str:
    return f"{files} file" + ("" if files == 1 else "s")


class Damaged(ValueError):
    """A line that isn't a row of a report, with the reason."""


class TooLong(Damaged):
    """A line that is longer than any row."""


def with_billed(row: Row, cents: int) -> Row:
    """A row with the cents that this run has billed; none for a file that costs nothing and was never billed."""
    return row._replace(billed=None if row.price is None and not cents else cents)


def _csv_text(values: Sequence[object]) -> str:
    line = ",".join(["" if value is None else str(value) for value in values])
    if line.count(",") == len(values) - 1 and '"' not in line:
        return line + "\n"
    out = io.StringIO()
    csv.writer(out, lineterminator="\n").writerow(values)
    return out.getvalue()


def csv_line(row: Row) -> str:
    """A row as a line of CSV; no field contains a line end."""
    return _csv_text(row)


def json_line(row: Row) -> str:
    """A row as a line of JSON, without the columns that don't apply."""
    return json.dumps({k: v for k, v in row._asdict().items() if v not in (None, "")}, ensure_ascii=False) + "\n"


def _fields(line: str) -> List[str]:
    """The fields of a line of CSV; raises ValueError or csv.Error."""
    if not line.endswith("\n"):
        raise ValueError(line)
    # Nearly every line has no quotes, and is split faster than csv reads it.
    if '"' not in line and line[:-1].isprintable():
        return line[:-1].split(",")
    (fields,) = csv.reader([line], strict=True)
    return fields


def parse_line(line: str, columns: Tuple[str, ...] = COLUMNS) -> Row:
    """The row of a line of CSV with these columns; raises `Damaged`."""
    try:
        fields = _fields(line)
        if len(fields) != len(columns):
            raise ValueError(line)
        values = [(int(f) if f else None) if number else f for f, number in zip(fields, _IS_NUMBER[columns])]
    except (ValueError, csv.Error) as error:
        raise Damaged("no row of a report") from error
    if _csv_text(values) != line:
        raise Damaged("no row of a report")
    return Row._make(values) if columns is COLUMNS else Row(**dict(zip(columns, values)))  # type: ignore[arg-type]


def keyed(line: bytes, columns: Tuple[str, ...] = COLUMNS) -> Tuple[bytes, Row]:
    """The row of a report's line, and its name's key; raises `Damaged`."""
    if len(line) == LINE and not line.endswith(b"\n"):
        raise TooLong("longer than a row can be")
    try:
        text = line.decode("utf-8")
    except UnicodeDecodeError as error:
        raise Damaged("no row of a report") from error
    if not text[:-1].isprintable() and names.UNSHOWN.search(text[:-1]):
        raise Damaged("no row of a report")
    row = parse_line(text, columns)
    name = names.unquote(row.name)
    right = name == b"" if row.answer == TOTAL else names.proper(name) and names.quote(name) == row.name
    if not right:
        raise Damaged("no name of a file")
    return names.key(name), row


class Totals:
    """Sums over the rows of a report; the columns are summed over the files with a shortened form, but for
    `billed`, which is summed over all."""

    def __init__(self) -> None:
        self.answers: Dict[str, int] = {"accepted": 0, "refused": 0, "unreadable": 0, "not sent": 0}
        self._sums: List[int] = [0] * len(SUMMED)
        self.untidy = 0
        self.as_sent = 0
        self.spoiled = 0

    def add(self, row: Row) -> None:
        self.answers[row.answer] = self.answers.get(row.answer, 0) + 1
        self.untidy += row.tidy == "no" and row.answer == "accepted"
        self.as_sent += row.filed == "as sent"
        if row.filed == "yes":
            self._sums = [total + (value or 0) for total, value in zip(self._sums, _summed(row))]
            return
        self.spoiled += row.filed == "spoiled"
        self._sums[-1] += row.billed or 0

    def join(self, other: "Totals") -> None:
        """Adds the sums over other rows."""
        for answer, count in other.answers.items():
            self.answers[answer] = self.answers.get(answer, 0) + count
        self._sums = [total + value for total, value in zip(self._sums, other._sums)]
        self.untidy += other.untidy
        self.as_sent += other.as_sent
        self.spoiled += other.spoiled

    @property
    def sums(self) -> Dict[str, int]:
        return dict(zip(SUMMED, self._sums))

    @property
    def files(self) -> int:
        """Files that were sent."""
        return sum(self.answers.values()) - self.answers["not sent"]

    @property
    def failed(self) -> int:
        return self.answers["refused"] + self.answers["unreadable"] + self.spoiled

    def answers_text(self) -> str:
        told = [f"{self.answers[name]} {name}" for name in ("accepted", "refused", "unreadable")]
        told += [f"{self.untidy} untidy"] if self.untidy else []
        told += [f"{self.as_sent} without a shortened form"] if self.as_sent else []
        told += [f"{self.answers['not sent']} not sent any more"] if self.answers["not sent"] else []
        told += [f"{self.spoiled} spoiled"] if self.spoiled else []
        return f"{counted(self.files)}: {', '.join(told)}"

    def sums_text(self) -> str:
        s = self.sums
        return (
            f"instructions {s['instructions_sent']} to {s['instructions_short']}, "
            f"bytes {s['bytes_sent']} to {s['bytes_short']}, "
            f"moved {s['moved']}, grown {s['grown']}, fresh {s['fresh']}, rescued {s['rescued']}, "
            f"price {s['price']}, billed {s['billed']}"
        )

    def row(self) -> Row:
        """The report's last row."""
        return Row(name="", answer=TOTAL, reason=self.answers_text(), filed="", **self.sums)  # type: ignore[arg-type]


def _header(file: File) -> bytes:
    """A report's first line; nothing if there is no such file."""
    try:
        with file.open() as stream:
            return stream.readline(LINE)
    except FileNotFoundError:
        return b""


def is_billed(file: File) -> bool:
    """Is this a report, or a part of one, with the columns of this version?"""
    return _COLUMNS_OF.get(_header(file)) == COLUMNS


def is_unbilled(file: File) -> bool:
    """Is this a report, or a part of one, of a version that billed nothing?"""
    return _COLUMNS_OF.get(_header(file)) == _UNBILLED


def entries(file: File, most: Optional[int] = None) -> Iterator[Tuple[bytes, Row]]:
    """The rows of a report or of a part of one that are whole and in order, with their names' keys; of a part,
    those in its first bytes, if it is said how many."""
    try:
        stream = file.open()
    except FileNotFoundError:
        return
    with stream:
        header = stream.readline(LINE)
        columns, last, read = _COLUMNS_OF.get(header), b"", len(header)
        if columns is None:
            return
        for line in lines(stream):
            read += len(line)
            if most is not None and read > most:
                return
            try:
                at, row = keyed(line, columns)
            except TooLong:
                return
            except Damaged:
                continue
            if row.answer == TOTAL:
                return
            if at > last:
                last = at
                yield at, row


def sound_length(file: File) -> int:
    """How many bytes of a part of a report are its header and whole rows in order; 0 if it isn't of this version."""
    try:
        stream = file.open()
    except FileNotFoundError:
        return 0
    with stream:
        header = stream.readline(LINE)
        if _COLUMNS_OF.get(header) != COLUMNS:
            return 0
        length, last = len(header), b""
        for line in lines(stream):
            try:
                at, row = keyed(line)
            except Damaged:
                break
            if row.answer == TOTAL or at <= last:
                break
            length, last = length + len(line), at
    return length


#: Rows with their names' keys, in order.
Entries = Iterator[Tuple[bytes, Row]]


def _numbered(entries: Entries, number: int) -> Iterator[Tuple[bytes, int, Row]]:
    for at, row in entries:
        yield at, number, row


def merged(*several: Entries) -> Iterator[Tuple[bytes, int, Row]]:
    """The rows of several reports in order, with their keys and which report has them; if several have a
    name, the row of the first."""
    streams = [_numbered(entries, number) for number, entries in enumerate(several)]
    for _, same in groupby(heapq.merge(*streams), key=lambda item: item[0]):
        yield next(same)


def write_json(source: File, out: IO[str]) -> None:
    """Writes a whole report as JSON lines."""
    with source.open() as stream:
        stream.readline(LINE)
        for line in lines(stream):
            out.write(json_line(keyed(line)[1]))


class Checked:
    """The rows of a complete report; what is found wrong with it on the way is added to `wrong`."""

    def __init__(self, file: File, also_unbilled: bool = False) -> None:
        self.file, self.also_unbilled = file, also_unbilled
        self.wrong: List[str] = []
        self.totals = Totals()
        self._columns: Tuple[str, ...] = COLUMNS
        self._last, self._ended = b"", False

    def _begin(self, header: bytes) -> bool:
        """Are these columns that are read?"""
        columns = _COLUMNS_OF.get(header)
        if columns is None:
            self.wrong.append("line 1: not the columns of a report")
        elif columns == _UNBILLED and not self.also_unbilled:
            self.wrong.append("line 1: the columns of version 0.5 or earlier; start the run again")
        self._columns = columns or COLUMNS
        return not self.wrong

    def __iter__(self) -> Iterator[Row]:
        with self.file.open() as stream:
            if not self._begin(stream.readline(LINE)):
                return
            for number, line in enumerate(lines(stream), 2):
                try:
                    row = self._row(line)
                except Damaged as error:
                    self.wrong.append(f"line {number}: {error}")
                    if isinstance(error, TooLong) or len(self.wrong) == _MOST_WRONG:
                        self.wrong.append("what follows was not read")
                        return
                else:
                    if row.answer != TOTAL:
                        yield row
            if not self._ended:
                self.wrong.append("the totals are missing")

    def _total(self) -> Row:
        due = self.totals.row()
        return due if self._columns == COLUMNS else due._replace(price=None, billed=None)

    def _row(self, line: bytes) -> Row:
        """The row of the next line; raises `Damaged` if it can't come there."""
        at, row = keyed(line, self._columns)
        if self._ended:
            raise Damaged("after the totals")
        if row.answer == TOTAL:
            self._ended = True
            if row != self._total():
                raise Damaged("the totals are not those of the rows")
        elif at <= self._last:
            raise Damaged("out of order, or a name twice")
        else:
            self._last = at
            self.totals.add(row)
        return row


def sound(file: File) -> bool:
    """Is this a whole report, of this version or one that billed nothing, with the totals of its rows?"""
    checked = Checked(file, also_unbilled=True)
    try:
        for _ in checked:
            pass
    except FileNotFoundError:
        return False
    return not checked.wrong
