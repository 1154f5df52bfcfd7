"""What a run keeps in FILED besides what it files: its lock, its report, and the unfinished
report with its ledger."""

from __future__ import annotations

import fcntl
import os
import re
from typing import Callable, Iterator, List, Tuple

from . import books, filer, names, report
from .books import Ledger
from .filing import LINE, Failed, File, Folder, why
from .report import Row


class Lock:
    """FILED's lock: held by one run at a time, or by any number of readers."""

    def __init__(self, filed: Folder, shared: bool) -> None:
        self.fd = -1
        try:
            self.fd = File(filed, names.OWN + b"/lock").descriptor(0 if shared else os.O_RDWR | os.O_CREAT)
            fcntl.flock(self.fd, (fcntl.LOCK_SH if shared else fcntl.LOCK_EX) | fcntl.LOCK_NB)
        except FileNotFoundError:
            return
        except BlockingIOError:
            holder = os.read(self.fd, 64).decode("ascii", "replace")
            self.release()
            raise Failed(f"another run{holder and f', process {holder},'} works on {os.fsdecode(filed.path)}") from None
        if not shared:
            os.ftruncate(self.fd, 0)
            os.write(self.fd, b"%d" % os.getpid())

    def release(self, empty: bool = False) -> None:
        if self.fd >= 0:
            if empty:
                os.ftruncate(self.fd, 0)
            os.close(self.fd)
            self.fd = -1


class State:
    """The files by which an interrupted run is continued, in the run's own folder of FILED.

    `part` is the unfinished report, in name order, and the ledger says up to where it is believed, with the accounts
    there. When a run is continued, the rows of an existing part are merged into `before`, together with the accounts.
    Its rows, and then those of the last complete report, say what is already filed. If a report's totals don't match
    its rows, only its names are believed.
    """

    def __init__(self, filed: Folder) -> None:
        self.filed, self.ledger = filed, Ledger(File(filed, books.LEDGER))
        self.part, self.part_json = File(filed, names.OWN + b"/part.csv"), File(filed, names.OWN + b"/part.jsonl")
        self.before = File(filed, names.OWN + b"/before.csv")
        self.report, self.report_json = File(filed, names.REPORT), File(filed, names.REPORT_JSON)

    def check(self) -> None:
        """Raises `NotAFile` if something else is in the place of a report."""
        for file in (self.report, self.report_json, self.part, self.before, self.ledger.file):
            try:
                os.close(file.descriptor())
            except FileNotFoundError:
                pass

    def interrupted(self) -> bool:
        """Was a run interrupted?"""
        return self.part.exists() or self.before.exists()

    def unbilled(self) -> bool:
        """Was it a run of a version that billed nothing? Such a run made no ledger."""
        if report.is_billed(self.before) or report.is_billed(self.part):
            return False
        return report.is_unbilled(self.before) or self.part.exists() and not self.ledger.file.exists()

    def believed(self, found: bytes) -> Tuple[bytes, report.Entries]:
        """What an interrupted run is believed: the accounts, and the rows that belong to them. `found` are the accounts
        as the run found them at its start. What a version filed that billed nothing isn't billed later either: then
        what stands under FILED is taken for its rows."""
        saved, rows = found, report.entries(self.before)
        if report.is_billed(self.before):
            saved = self._before_accounts()
        elif self.unbilled():
            rows = filer.standing(self.filed)
        entry = self.ledger.last(report.sound_length(self.part))
        if entry is None:
            return self._sure(saved), rows
        newer = report.entries(self.part, entry.length)
        return entry.saved, ((at, row) for at, _, row in report.merged(newer, rows))

    def _before_accounts(self) -> bytes:
        """The accounts that stand in `before`; nothing if they are damaged."""
        with self.before.open() as stream:
            stream.readline(LINE)
            line = stream.readline(LINE)
        try:
            saved = bytes.fromhex(line.decode("ascii"))
        except ValueError:
            return b""
        return saved if books.is_saved(saved) else b""

    def _sure(self, saved: bytes) -> bytes:
        if not saved:
            raise Failed(f"{self.before.path}: damaged: it has no accounts in its second line")
        return saved

    def earlier(self, rows: report.Entries) -> Iterator[Tuple[bytes, Row, bool]]:
        """What is known from these rows of the same run and the last complete report: a name's key, its row, and
        whether the row is believed. A complete report's rows are billed for good: this run has billed nothing there."""
        sound = report.sound(self.report)
        for at, source, row in report.merged(rows, report.entries(self.report)):
            if source and row.billed:
                row = report.with_billed(row, 0)
            yield at, row, sound or source == 0

    def take_up(self, found: bytes, flush: bool) -> bytes:
        """Cleans up after a run that was interrupted; its rows and accounts, which are returned, are in `before` then."""
        saved, rows = self.believed(found)
        new = File(self.filed, self.before.name + b".tmp")
        with new.create() as out:
            out.write(f"{report.HEADER}\n{saved.hex()}\n")
            for _, row in rows:
                out.write(report.csv_line(row))
            out.flush()
            if flush:
                os.fsync(out.fileno())
        new.becomes(self.before)
        if flush:
            self._flush_own()
        self.part_json.remove()
        self.part.remove()
        self.ledger.file.remove()
        pattern = re.compile(re.escape(names.OWN) + rb"\.\d+\.(sent|short)\.tmp")
        for entry in names.walk(self.filed):
            if pattern.fullmatch(os.path.basename(entry.name)):
                File(self.filed, entry.name).remove()
        return saved

    def _flush_own(self) -> None:
        with self.filed.below(names.OWN) as folder:
            folder.flush()

    def end(self, flush: bool, json: bool, save: Callable[[], None]) -> None:
        """Puts the finished report in its place; before that, `save` saves the accounts."""
        json = json or self.report_json.exists()
        if json:
            with self.part_json.create() as out:
                report.write_json(self.part, out)
                out.flush()
                if flush:
                    os.fsync(out.fileno())
        if flush:
            with self.part.open() as file:
                os.fsync(file.fileno())
        self.ledger.close(flush)
        save()
        if json:
            self.part_json.becomes(self.report_json)
        self.before.remove()
        self.part.becomes(self.report)
        if flush:
            self.filed.flush()
            self._flush_own()


def open_top(path: bytes) -> Folder:
    """A folder that the user names; raises `Failed`."""
    try:
        return Folder.top(path)
    except OSError as error:
        raise Failed(f"{os.fsdecode(path)}: {why(error)}") from error


def whole_report(state: State) -> Tuple[List[Row], report.Totals]:
    """All rows of the report and its totals; raises `Failed` if it is missing or incomplete."""
    checked = report.Checked(state.report)
    try:
        rows = list(checked)
    except FileNotFoundError:
        raise Failed(f"{state.report.path} isn't there: start the run first") from None
    if checked.wrong:
        raise Failed(f"{state.report.path}: {checked.wrong[0]}")
    return rows, checked.totals
