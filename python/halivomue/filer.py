"""Files procedures, chunk after chunk, in one process of a run."""

from __future__ import annotations

import errno
import hashlib
import os
from typing import Any, Iterator, List, NamedTuple, Optional, Set, Tuple, Union

from . import _library, filing, names, report
from ._library import Words
from .answers import CEILING, is_by_addr_of, reason, untidy_reason
from .filing import Failed, Folder, Form, Held, Unreadable
from .report import Row, with_billed

_sha256 = hashlib.sha256

#: The kinds of tasks: a file to be filed, a row whose reason is known, a row of an earlier report
#: whose file isn't sent any more.
FILE, TOLD, GONE = range(3)

#: Shorten's own refusal: Read accepts the file, but it is too large to be shortened.
_TOO_LARGE = 8
#: Files that take each step together.
_TOGETHER = 32


class Task(NamedTuple):
    """`billed` are the cents that the same run billed for this name before it was interrupted."""

    how: int
    name: bytes
    earlier: Optional[Row] = None
    reason: str = ""
    billed: int = 0


def task_size(task: Task) -> int:
    return len(task.name) + (report.ROW_BYTES if task.earlier else 0)


class Options(NamedTuple):
    sent: bytes
    filed: bytes
    pattern: str = "*.call"
    jobs: int = 1
    strict: bool = False
    untidy: bool = False
    dry_run: bool = False
    flush: bool = True
    json: bool = False
    accounts: Optional[bytes] = None
    resumed: bool = False


class Done(NamedTuple):
    """What became of a chunk of tasks: the report's lines, their totals, the messages to print, and the accounts of
    the chunk alone, in their saved form, if it was done apart."""

    text: str
    totals: report.Totals
    filed_now: int
    told: List[str]
    tasks: int
    part: bytes


class Both(NamedTuple):
    """The two forms of a file, the library's answer, and the mode that the forms get. There is no shortened
    form if the file is refused or too large, or if it is untidy and --untidy wasn't given. Of a file that was billed,
    `before` has the accounts' words before that."""

    sent: bytes
    short: Optional[bytes]
    answer: Any
    mode: int = 0o666
    before: Optional[bytes] = None


def asked(sent: bytes, mode: int = 0o666, words: Optional[Words] = None) -> Both:
    """What the library makes of a file, which is billed if accounts are given."""
    answer, short = _library.provisioned(sent, words)
    return Both(sent, None if answer.number else short, answer, mode)


def cents(both: Both) -> int:
    """What was billed for a file."""
    return 0 if both.before is None else int(both.answer.price)


def is_refused(both: Both) -> bool:
    """Does Read refuse it?"""
    return both.answer.number not in (0, _TOO_LARGE)


def why_untidy(both: Both) -> str:
    """What makes an accepted file untidy, in words."""
    return untidy_reason(both.answer.reg, is_by_addr_of(both.sent, both.answer.reg))


def filed_as(sent: Optional[bytes], short: Optional[bytes]) -> Optional[Both]:
    """The forms of a filed file, if a run files such forms; only the sent one of a file that is too large or untidy."""
    if sent is None:
        return None
    both = asked(sent)
    if is_refused(both):
        return None
    if short is None and not both.answer.tidy:
        return both._replace(short=None)
    return both if short == both.short else None


def without_short(name: str, answer: str, filed: str, both: Both, billed: int = 0) -> Row:
    """The row of a file that is filed only as sent, with the reason."""
    sent, number, tidy = both.sent, both.answer.number or None, both.answer.tidy
    return Row(
        name=name,
        answer=answer,
        number=number,
        record=0 if number else None,
        reason=reason(number, 0) if number else why_untidy(both),
        filed=filed,
        tidy="yes" if tidy else "no",
        reg=None if tidy else both.answer.reg,
        instructions_sent=sent[::32].count(4),
        bytes_sent=len(sent),
        billed=billed or None,
        sha256_sent=_sha256(sent).hexdigest(),
    )


def described(name: str, answer: str, filed: str, both: Both, billed: int = 0) -> Row:
    """The row of a filed file, from its forms, the library's answer and the cents that this run has billed."""
    sent, short, counts = both.sent, both.short, both.answer
    if short is None:
        return without_short(name, answer, "as sent" if filed == "yes" else filed, both, billed)
    digest = _sha256(sent).hexdigest()
    return Row(
        name=name,
        answer=answer,
        filed=filed,
        tidy="yes" if counts.tidy else "no",
        reg=None if counts.tidy else counts.reg,
        instructions_sent=sent[::32].count(4),
        instructions_short=short[::32].count(4),
        bytes_sent=len(sent),
        bytes_short=len(short),
        moved=counts.moved,
        grown=counts.grown,
        fresh=counts.fresh,
        rescued=counts.rescued,
        price=counts.price,
        billed=billed,
        sha256_sent=digest,
        sha256_short=digest if short == sent else _sha256(short).hexdigest(),
    )


def standing(filed: Folder) -> Iterator[Tuple[bytes, Row]]:
    """Rows of what stands under FILED as a run files it, with their names' keys; none of it is billed."""
    held = Held(filed)
    try:
        for name, kind in names.walk(filed, names.by_pair):
            both = _standing(held, name) if kind == "file" and not names.reserved(name) else None
            if both is not None:
                yield names.key(name), described(names.quote(name), "accepted", "yes", both)
    finally:
        held.leave()


def _standing(held: Held, name: bytes) -> Optional[Both]:
    try:
        return filed_as(held.read(name), held.read(name + names.SHORT))
    except Unreadable:
        return None


def line_of(row: Row) -> str:
    """What is printed about a file; nothing if it is filed with its shortened form."""
    if row.filed == "yes":
        return ""
    if row.filed == "as sent":
        numbers = "" if row.number is None else f", refused {row.number} {row.record}"
        return f"{row.name}: filed without a shortened form{numbers} ({row.reason})"
    spoiled = "; what is filed under this name is not as a run files it" if row.filed == "spoiled" else ""
    if row.answer == "refused":
        numbers = "" if row.number is None else f" {row.number} {row.record}"
        return f"{row.name}: refused{numbers} ({row.reason}){spoiled}"
    if row.answer == "unreadable":
        return f"{row.name}: unreadable: {row.reason}{spoiled}"
    return f"{row.name}: {row.answer}{spoiled}" if spoiled else ""


class Target:
    """The folder of FILED that files are put in; it is made if it doesn't exist."""

    def __init__(self, filed: Optional[Folder], flush: bool) -> None:
        self.filed, self.flush = filed, flush
        self.held = Held(filed, make=True)
        self.listed: Optional[bytes] = None
        self.folders: Set[bytes] = set()
        self.touched: Set[bytes] = set()

    def at(self, name: bytes) -> Tuple[Folder, bytes]:
        """Holds the folder for a file. Before its first file, it finds out which folders are in it, since
        none of them can become a file."""
        below = name.rpartition(b"/")[0]
        if below != self.held.name:
            self.leave()
        held = self.held.folder
        try:
            folder, base = self.held.at(name)
            if self.listed != below:
                with os.scandir(folder.fd) as entries:
                    self.folders = {os.fsencode(entry.name) for entry in entries if entry.is_dir(follow_symlinks=False)}
                self.listed = below
        except OSError as error:
            top = self.filed.path if self.filed is not None else b""
            raise filing.cannot_make(os.path.join(top, below), error) from error
        if self.flush and held is None:
            self.touch(below)
        return folder, base

    def touch(self, below: bytes) -> None:
        """Notes that this folder and those above it have to be flushed."""
        self.touched.add(below)
        while below:
            below = os.path.dirname(below)
            self.touched.add(below)

    def leave(self) -> None:
        """Releases the folder; raises `Failed` if it was moved."""
        folder = self.held.folder
        if folder is not None and self.filed is not None:
            stands = self.filed.has(self.held.name, folder)
            self.held.leave()
            if not stands:
                raise Failed(f"{os.fsdecode(folder.path)}: moved while files were put in it")

    def flush_all(self) -> None:
        for name in self.touched:
            if self.filed is not None:
                with self.filed.below(name) as folder:
                    folder.flush()
        self.touched.clear()


class Filer:
    """Does tasks, chunk after chunk, in one process. It bills the accounts that it is given; otherwise each chunk has
    accounts of its own, which are handed back."""

    def __init__(
        self, options: Options, sent: Folder, filed: Optional[Folder], number: int, words: Optional[Words] = None
    ) -> None:
        self.strict, self.untidy = options.strict, options.untidy
        self.dry_run, self.flush = options.dry_run, options.flush
        self.resumed = options.resumed
        self.temporary = b"%s.%d.sent.tmp" % (names.OWN, number), b"%s.%d.short.tmp" % (names.OWN, number)
        self.source, self.kept, self.target = Held(sent), Held(filed), Target(filed, options.flush)
        self.now = 0
        self.apart = words is None
        self.words = Words() if words is None else words
        self.made = bytes(self.words.bytes)

    def chunk(self, tasks: List[Task]) -> Done:
        """Does some tasks."""
        self.now = 0
        if self.apart:
            self.words.bytes[:] = self.made
        try:
            found = [row for at in range(0, len(tasks), _TOGETHER) for row in self.rows(tasks[at : at + _TOGETHER])]
        finally:
            self.source.leave()
            self.kept.leave()
            self.target.leave()
        self.target.flush_all()
        rows = [row for row in found if row.answer != "not sent" or row.filed != "no" or row.billed]
        totals = report.Totals()
        for row in rows:
            totals.add(row)
        told = [line for line in map(line_of, rows) if line]
        part = _library.saved(self.words) if self.apart else b""
        return Done("".join(map(report.csv_line, rows)), totals, self.now, told, len(tasks), part)

    def rows(self, tasks: List[Task]) -> List[Row]:
        """The rows of some tasks. They take each step together, which keeps what a step uses in the
        processor's caches."""
        read = [self.read(task) for task in tasks]
        shortened = self.shortened(tasks, read)
        found: List[Row] = []
        for at, task in enumerate(tasks):
            both = shortened[at]
            if isinstance(both, Both):
                filed = self.file(task, both)
                if isinstance(filed, Row) and both.before is not None:
                    # It isn't billed after all. What comes after it was billed on top of it, and may have been refused.
                    self.words.bytes[:] = both.before
                    shortened[at + 1 :] = self.shortened(tasks[at + 1 :], read[at + 1 :])
                shortened[at] = filed
        for task, one in zip(tasks, shortened):
            if isinstance(one, Both):
                one = described(names.quote(task.name), "accepted", "yes", one, task.billed + cents(one))
            found.append(one)
        return found

    def shortened(self, tasks: List[Task], read: List[Union[Row, Form]]) -> List[Union[Row, Both]]:
        """What is to be filed of each, or its row."""
        return [form if isinstance(form, Row) else self.shorten(task, form) for task, form in zip(tasks, read)]

    def read(self, task: Task) -> Union[Row, Form]:
        """The sent form, or the row of a file that isn't to be filed now."""
        if task.how == GONE:
            return self.unfiled(task, "not sent")
        if task.how == TOLD:
            return self.unfiled(task, "unreadable", task.reason)
        try:
            folder, base = self.source.at(task.name)
            form = filing.read(base, folder)
        except OSError as error:
            return self.unfiled(task, "unreadable", filing.why(error))
        except Unreadable as error:
            return self.unfiled(task, "unreadable", str(error))
        if task.earlier is not None and self.stands(task.name, form.data, task.earlier):
            return self.priced(task.earlier, form.data)
        return form

    @staticmethod
    def priced(row: Row, sent: bytes) -> Row:
        """The row of a file that stands, with its price if a version wrote it that had no prices."""
        return row if row.price is not None else with_billed(row._replace(price=asked(sent).answer.price), 0)

    def shorten(self, task: Task, form: Form) -> Union[Row, Both]:
        """What is to be filed, or the row of a file that is refused. Billed is only what is filed with a shortened
        form; the others leave the accounts as they were."""
        before = bytes(self.words.bytes)
        both = asked(form.data, form.mode, self.words)
        if both.answer.number == CEILING and not both.answer.tidy and not self.untidy:
            both = asked(form.data, form.mode)
        if is_refused(both):
            number, record = both.answer.number, both.answer.record
            return self.unfiled(task, "refused", reason(number, record), number, record)
        if both.answer.tidy or self.untidy:
            return both if both.short is None else both._replace(before=before)
        self.words.bytes[:] = before
        if self.strict:
            return self.unfiled(task, "refused", why_untidy(both) + " (--strict)")
        return both._replace(short=None)

    def file(self, task: Task, both: Both) -> Union[Row, Both]:
        """What is filed now, or the row of a file that can't be."""
        if (self.resumed or task.earlier is not None and both.short is None) and self.there(task.name, both):
            return both
        if not self.dry_run:
            try:
                self.put(task.name, both)
            except Unreadable as error:
                return self.unfiled(task, "unreadable", str(error))
        self.now += 1
        return both

    def stands(self, name: bytes, sent: bytes, earlier: Row) -> bool:
        """Was this file filed before as it would be now, and is it still there as it was filed?"""
        if earlier.answer != "accepted" or earlier.filed != "yes":
            return False
        if earlier.tidy != "yes" and (self.strict or not self.untidy):
            return False
        if _sha256(sent).hexdigest() != earlier.sha256_sent:
            return False
        try:
            short = self.kept.read(name + names.SHORT)
            return short is not None and self.kept.read(name) == sent and _sha256(short).hexdigest() == earlier.sha256_short
        except Unreadable:
            return False

    def there(self, name: bytes, both: Both) -> bool:
        """Is what would be filed already there?"""
        try:
            return self.kept.read(name) == both.sent and self.kept.read(name + names.SHORT) == both.short
        except Unreadable:
            return False

    def put(self, name: bytes, both: Both) -> None:
        """Puts the forms in place, each in one step; the shortened one first, since its name is the longer.
        They get the mode of the sent file, less the umask. A shortened form that doesn't belong there
        any more is removed."""
        folder, base = self.target.at(name)
        of_short = base + names.SHORT
        if base in self.target.folders or of_short in self.target.folders:
            raise Unreadable("cannot be filed: " + os.strerror(errno.EISDIR))
        new_sent, new_short = self.temporary
        if both.short is None:
            filing.write(((base, new_sent, both.sent),), self.flush, folder, both.mode, (of_short,))
        else:
            filing.write(((of_short, new_short, both.short), (base, new_sent, both.sent)), self.flush, folder, both.mode)

    def unfiled(
        self, task: Task, answer: str, why: str = "", number: Optional[int] = None, record: Optional[int] = None
    ) -> Row:
        """The row of a file that isn't filed now, with what an earlier run filed under its name."""
        row = Row(name=names.quote(task.name), answer=answer, number=number, record=record, reason=why)
        return with_billed(self.with_filed(row, task.name), task.billed)

    def with_filed(self, row: Row, name: bytes) -> Row:
        """The row of a file that isn't filed now, with what stands under its name."""
        if names.reserved(name):
            return row
        try:
            sent, short = self.kept.read(name), self.kept.read(name + names.SHORT)
            if sent is None and short is None:
                return row
        except Unreadable:
            return row if self.kept.is_folder(name) else row._replace(filed="spoiled")
        both = filed_as(sent, short)
        if both is None:
            return row._replace(filed="spoiled")
        return described(row.name, row.answer, "earlier", both)._replace(number=row.number, record=row.record, reason=row.reason)
