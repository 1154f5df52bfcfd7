"""The audit: every sent form shortened again, and compared with what is filed."""

from __future__ import annotations

import os
import sys
from typing import Callable, Iterable, Iterator, List, NamedTuple, Optional

from . import _library, books, causes, filing, names, report, work
from .answers import reason
from .filer import asked, described, is_refused
from .filing import LINE, Failed, Folder, Held, NotAFile, Unreadable
from .progress import Progress
from .report import Row
from .state import Lock, State, open_top

_FORMS = {"sha256_sent": "the sent form is not the one that was filed", "sha256_short": "the shortened form is not the one that was filed"}
# The columns of a row that are compared: the digests first, since if they differ, the others are those of another file.
_REASON = ("number", "record", "reason")
# What a run has billed can't be told from what is filed.
_COMPARED = (*_FORMS, *report.COLUMNS[report.COLUMNS.index("tidy") : report.COLUMNS.index("billed")])


#: What is said about things that no report lists.
_KINDS = {
    "file": "no report has it",
    "link": "a symbolic link",
    "link to a folder": "a symbolic link",
    "other": "no regular file",
    "empty": "an empty folder",
}


class Task(NamedTuple):
    """A row to be compared with its files, or something already found to be wrong."""

    name: bytes
    row: Optional[Row]
    finding: str = ""


class Outcome:
    """What the audit found: files compared, and findings by kind."""

    def __init__(self) -> None:
        self.compared = 0
        self.kinds = {"altered": 0, "missing": 0, "foreign": 0, "report": 0}

    @property
    def findings(self) -> int:
        return sum(self.kinds.values())

    def text(self) -> str:
        told = ", ".join(f"{count} {kind}" for kind, count in self.kinds.items() if count)
        return f"{report.counted(self.compared)} compared: {told or 'all as filed'}"


def _size(task: Task) -> int:
    return len(task.name) + (report.ROW_BYTES if task.row else 0)


def _form(filed: Held, name: bytes, what: str, found: List[str], due: bool = True) -> Optional[bytes]:
    """A filed form's bytes; if something is wrong with it, or it shouldn't be there, that is added to `found`."""
    try:
        data = filed.read(name)
    except Unreadable as error:
        found.append(f"altered: the {what} form: {error}")
        return None
    if data is None and due:
        found.append(f"missing: the {what} form")
    if data is not None and not due:
        found.append(f"altered: a {what} form stands there, and by the report there is none")
    return data


def findings(filed: Held, row: Row) -> List[str]:
    """What is wrong with the files of a row, or with the row."""
    if row.filed == "spoiled":
        return ["altered: the run found there what no run had filed"]
    found: List[str] = []
    name = names.unquote(row.name)
    sent = _form(filed, name, "sent", found)
    short = _form(filed, name + names.SHORT, "shortened", found, due=row.sha256_short != "")
    if sent is None:
        return found
    both = asked(sent)
    if is_refused(both):
        number, record = both.answer.number, both.answer.record
        return [*found, f"altered: the sent form is refused {number} {record} ({causes.reason(sent, number, record)})"]
    if row.sha256_short == "":
        if both.short is not None and both.answer.tidy:
            return [*found, "report: it has no shortened form in the report and has one by the library"]
        both = both._replace(short=None)
    elif short is None:
        return found
    elif short != both.short:
        found.append("altered: the shortened form is not what the sent form is shortened to")
        both = both._replace(short=short)
    return found + _differences(row, described(row.name, row.answer, row.filed, both), bool(found))


def _differences(row: Row, now: Row, altered: bool) -> List[str]:
    """Where a row differs from what the library says; for altered forms, only the digests."""
    found: List[str] = []
    for column in (*_COMPARED, *(_REASON if row.answer == "accepted" else ())):
        told, is_now = getattr(row, column), getattr(now, column)
        if told == is_now:
            continue
        if column in _FORMS:
            found.append(f"altered: {_FORMS[column]} (its digest is not the report's)")
        elif not found and not altered:
            found.append(f"report: {column} is {_shown(told)} in the report and {_shown(is_now)} by the library")
    return found


def _shown(value: object) -> str:
    return "nothing" if value is None or value == "" else str(value)


def _wrong_row(row: Row) -> Optional[str]:
    """Why no run could have written such a row; None if one could."""
    if row.answer not in ("accepted", "refused", "unreadable", "not sent"):
        return f"there is no answer {row.answer!r}"
    filed_now = row.filed in ("yes", "as sent")
    if not filed_now and row.filed not in ("no", "earlier", "spoiled") or (row.answer == "accepted") != filed_now:
        return f"{row.answer} and filed {row.filed!r} don't go together"
    if row.answer == "refused" and row.number is not None and row.reason != _reason(row):
        return "number, record and reason of the refusal don't go together"
    # Whoever was billed in a run was billed what is filed now, and before that perhaps other forms.
    if row.filed == "yes" and row.price is not None and not (row.billed == 0 or (row.billed or 0) >= row.price):
        return "billed is neither 0 nor at least the price"
    return None


def _reason(row: Row) -> str:
    """What a run writes about a refusal: the fixed words of its number, so that no change of them goes unnoticed."""
    try:
        return reason(row.number or 0, row.record or 0)
    except KeyError:
        return ""


def _own(name: bytes) -> bool:
    """Is this one of the run's own files, which remain after it?"""
    return name in (names.REPORT, names.REPORT_JSON, names.OWN + b"/lock", books.ACCOUNTS)


def _base(name: bytes) -> bytes:
    return name[: -len(names.SHORT)] if name.endswith(names.SHORT) else name


def tasks(filed: Folder, rows: Iterator[Row]) -> Iterator[Task]:
    """The rows and what else is found under FILED, in name order."""
    keyed = ((names.unquote(row.name), row) for row in rows)
    due = next(keyed, None)
    for name, kind in names.walk(filed, names.by_pair):
        if _own(name) or not name:
            continue
        base = _base(name)
        while due is not None and names.key(due[0]) < names.key(base):
            yield Task(*due)
            due = next(keyed, None)
        if due is not None and due[0] == base and due[1].filed != "no" and kind != "empty":
            continue
        yield Task(name, None, _foreign(name, kind))
    while due is not None:
        yield Task(*due)
        due = next(keyed, None)


def _foreign(name: bytes, kind: str) -> str:
    if os.path.basename(name).startswith(names.OWN) or name.startswith(names.OWN + b"/"):
        return "foreign: left over by a run that was interrupted; start it again"
    return f"foreign: {_KINDS.get(kind, 'a folder that cannot be read: ' + kind)}"


def _json_differs(state: State, rows: Iterable[Row], wrong: List[str]) -> Iterator[Row]:
    """Passes the rows on, and compares the report in JSON with them if there is one."""
    try:
        stream = state.report_json.open()
    except (FileNotFoundError, NotAFile) as error:
        wrong += [f"altered: {error.reason}"] if isinstance(error, NotAFile) else []
        yield from rows
        return
    totals = report.Totals()

    def due(row: Row) -> bool:
        return stream.readline(LINE) == report.json_line(row).encode()

    with stream:
        same = True
        for row in rows:
            totals.add(row)
            same = same and due(row)
            yield row
        if not (same and due(totals.row()) and stream.read(1) == b""):
            wrong.append("report: it differs from report.csv")


def audit(filed: bytes, jobs: int, say: Callable[[str], None]) -> Outcome:
    """Compares everything under FILED; each finding is reported through `say`. Raises `Failed`."""
    outcome = Outcome()
    with open_top(filed) as top:
        _library.functions()
        lock = Lock(top, shared=True)
        try:
            _compare(top, jobs, outcome, say)
        except OSError as error:
            raise Failed(filing.told(error, filed)) from error
        finally:
            lock.release()
    return outcome


def _compare(filed: Folder, jobs: int, outcome: Outcome, say: Callable[[str], None]) -> None:
    def tell(name: str, finding: str) -> None:
        outcome.kinds[finding.partition(":")[0]] += 1
        progress.clear()
        say(f"{name}: {finding}")

    def make(number: int) -> work.Worker:
        return lambda chunk: _checked_all(filed, chunk)

    state = State(filed)
    with Progress(sys.stderr, lambda: _count(state)) as progress:
        unusable = _unusable(state)
        if unusable:
            tell("report.csv", unusable)
            return
        checked = report.Checked(state.report)
        wrong_json: List[str] = []
        all_tasks = tasks(filed, _json_differs(state, checked, wrong_json))
        for chunk in work.ordered(all_tasks, make, jobs, _size):
            for name, compared, found in chunk:
                outcome.compared += compared
                for finding in found:
                    tell(name, finding)
            progress.add(len(chunk))
        for text in checked.wrong:
            tell("report.csv", "report: " + text)
        for text in _wrong_accounts(filed):
            tell(os.fsdecode(books.ACCOUNTS), text)
        for text in wrong_json:
            tell("report.jsonl", text)


def _unusable(state: State) -> str:
    """Why there is no usable report to compare with; None if there is one."""
    try:
        os.close(state.report.descriptor())
    except FileNotFoundError:
        return "missing: the report; start the run again"
    except NotAFile as error:
        return f"altered: {error.reason}"
    return ""


def _wrong_accounts(filed: Folder) -> List[str]:
    """What is wrong with FILED's own accounts; they need not be there."""
    try:
        books.Books(filed, None, flush=False).read()
    except FileNotFoundError:
        return []
    except NotAFile as error:
        return [f"altered: {error.reason}"]
    except Failed:
        return ["altered: damaged: not the saved form of accounts"]
    return []


def _count(state: State) -> int:
    try:
        return sum(1 for _ in report.entries(state.report))
    except Failed:
        return 0


def _checked_all(filed: Folder, chunk: List[Task]) -> "List[tuple[str, int, List[str]]]":
    held = Held(filed)
    try:
        return [_checked(held, task) for task in chunk]
    finally:
        held.leave()


def _checked(filed: Held, task: Task) -> "tuple[str, int, List[str]]":
    if task.row is None:
        return names.quote(task.name), 0, [task.finding]
    wrong = _wrong_row(task.row)
    if wrong is not None:
        return task.row.name, 0, ["report: " + wrong]
    if task.row.filed == "no":
        return task.row.name, 0, []
    return task.row.name, 1, findings(filed, task.row)
