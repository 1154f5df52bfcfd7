"""The provisioning run: every procedure under SENT is filed under FILED, as sent and shortened."""

from __future__ import annotations

import contextlib
import os
from typing import IO, Callable, Iterator, List, NamedTuple, Optional, Tuple

from . import _library, files, filing, names, report, work
from ._library import Words
from .answers import CEILING_CENTS, DEAREST
from .books import Books, Entry
from .filer import FILE, GONE, TOLD, Done, Filer, Options, Task, task_size
from .filing import Failed, Folder
from .progress import Progress
from .report import Row
from .state import Lock, State, open_top

#: How many files are flushed before their rows are written.
_FLUSHED = 8


#: What is said about things under SENT that aren't files.
_KINDS = {
    "link": "a symbolic link, not followed",
    "link to a folder": "a symbolic link to a folder, not followed",
    "other": "not a regular file",
}


def _nothing(_: str) -> None:
    pass


class Told(NamedTuple):
    """Where the run's messages go: a line for each file that is refused or unreadable, the row of each file,
    and a terminal for the progress."""

    say: Callable[[str], None] = _nothing
    each: Optional[Callable[[Row], None]] = None
    progress: Optional[IO[str]] = None


class Outcome(NamedTuple):
    """The result of a run: `done` and `kept` count the files filed now and those found already filed,
    `passed_over` those whose name doesn't match the pattern; `tally` is that of the accounts, in cents, which `accounts`
    names."""

    totals: report.Totals
    done: int
    kept: int
    passed_over: int
    tally: int
    accounts: str


def check_folders(sent: bytes, filed: bytes) -> None:
    """Raises `Failed` if no run is possible between these two."""
    open_top(sent).close()
    if files.within(filed, sent):
        raise Failed("FILED stands inside SENT: what is filed would be taken for sent files by the next run")
    if files.within(sent, filed):
        raise Failed("SENT stands inside FILED: the sent files would be taken for filed ones by the audit")


class Walk:
    """The tasks of a run: SENT in name order, with what is known of each name from earlier."""

    def __init__(self, sent: Folder, pattern: str, earlier: Iterator[Tuple[bytes, Row, bool]]) -> None:
        self.sent = sent
        self.earlier = earlier
        self.wanted = names.matcher(pattern)
        self.passed_over = 0

    def told(self, entry: names.Entry) -> Optional[Task]:
        """The task for something found under SENT; None if its name isn't that of a procedure."""
        name, kind = entry
        if kind == "empty":
            return None
        if kind in ("file", "link", "other") and not self.wanted(name):
            self.passed_over += 1
            return None
        why = names.reserved(name)
        if why is None and kind == "file":
            return Task(FILE, name)
        return Task(TOLD, name, None, _KINDS.get(kind, kind) if why is None else why)

    def __iter__(self) -> Iterator[Task]:
        due = next(self.earlier, None)
        for entry in names.walk(self.sent, kept_out=(names.REPORT, names.REPORT_JSON)):
            task = self.told(entry)
            if task is None:
                continue
            at = names.key(task.name) if due is not None else b""
            while due is not None and due[0] < at:
                yield from self.gone(due[1])
                due = next(self.earlier, None)
            if due is not None and due[0] == at:
                if task.how == FILE and due[2]:
                    task = task._replace(earlier=due[1])
                if due[1].billed:
                    task = task._replace(billed=due[1].billed)
                due = next(self.earlier, None)
            yield task
        while due is not None:
            yield from self.gone(due[1])
            due = next(self.earlier, None)

    @staticmethod
    def gone(row: Row) -> Iterator[Task]:
        if row.filed != "no" or row.billed:
            yield Task(GONE, names.unquote(row.name), billed=row.billed or 0)


class _Run:
    """A run between two folders that it holds; FILED need not exist in a dry run. It bills the accounts `words`."""

    def __init__(self, options: Options, sent: Folder, filed: Optional[Folder], told: Told, words: Words) -> None:
        self.options, self.sent, self.filed, self.told, self.words = options, sent, filed, told, words
        self.joined = 0
        self.left: List[List[Task]] = []

    def chunks(self, walk: Walk) -> Iterator[Done]:
        """What became of the tasks, chunk by chunk, in order and billed in that order."""
        coming = work.chunks(walk, task_size, _FLUSHED if self.options.flush else work.CHUNK)
        jobs = self.options.jobs
        if jobs > 1:
            yield from work.ordered_chunks(self.within(coming), self.apart, jobs)
        here = Filer(self.options, self.sent, self.filed, jobs, self.words)
        for chunk in self.left:
            yield here.chunk(chunk)
        for chunk in coming:
            yield here.chunk(chunk)

    def apart(self, number: int) -> work.Worker:
        """Work in a process of its own, where each chunk has accounts of its own."""
        return Filer(self.options, self.sent, self.filed, number).chunk

    def within(self, coming: Iterator[List[Task]]) -> Iterator[List[Task]]:
        """The chunks that can be given out together: whatever their files cost, no sum passes the ceiling. If one
        could, the rest is done in this process, on the accounts themselves."""
        given = 0
        for chunk in coming:
            given += len(chunk)
            if _library.tally(self.words) + DEAREST * (given - self.joined) > CEILING_CENTS:
                self.left.append(chunk)
                return
            yield chunk

    def join(self, done: Done) -> None:
        """Adds what was billed in another process."""
        self.joined += done.tasks
        part = Words()
        if done.part and not (_library.loaded(part, done.part) and _library.joined(self.words, part)):
            raise Failed("a process of the run handed back accounts that can't be joined")

    def count(self) -> int:
        """How many files there are under SENT, to estimate the time left."""
        return sum(1 for _ in Walk(self.sent, self.options.pattern, iter(())))

    def take(
        self, earlier: Iterator[Tuple[bytes, Row, bool]], out: IO[str], booked: Callable[[bytes], None], accounts: str
    ) -> Outcome:
        """Does all the tasks, with a row of the report for each. `booked` is given the accounts after each chunk."""
        totals, now = report.Totals(), 0
        walk = Walk(self.sent, self.options.pattern, earlier)
        out.write(report.HEADER + "\n")
        out.flush()
        booked(_library.saved(self.words))
        with Progress(self.told.progress, self.count) as progress:
            for done in self.chunks(walk):
                self.join(done)
                out.write(done.text)
                out.flush()
                booked(_library.saved(self.words))
                totals.join(done.totals)
                now += done.filed_now
                self.tell(done, progress)
                progress.add(done.tasks)
        out.write(report.csv_line(totals.row()))
        out.flush()
        kept = totals.answers["accepted"] - now
        return Outcome(totals, now, kept, walk.passed_over, _library.tally(self.words), accounts)

    def tell(self, done: Done, progress: Progress) -> None:
        if self.told.each is not None:
            for line in done.text.splitlines(keepends=True):
                self.told.each(report.parse_line(line))
        for text in done.told:
            progress.clear()
            self.told.say(text)


def _words_of(saved: bytes) -> Words:
    words = Words()
    _library.loaded(words, saved)
    return words


def _dry(options: Options, sent: Folder, told: Told, out: IO[str]) -> Outcome:
    """The run on a copy of the accounts, which isn't saved."""
    try:
        filed = Folder.top(options.filed)
    except FileNotFoundError:
        with contextlib.closing(Books(None, options.accounts, flush=False)) as books:
            words = _words_of(books.look(False, False, False))
            return _Run(options, sent, None, told, words).take(iter(()), out, _nothing_booked, books.shown)
    with filed, contextlib.closing(Books(filed, options.accounts, flush=False)) as books:
        state = State(filed)
        state.check()
        interrupted = state.interrupted()
        saved = books.look(interrupted, not state.unbilled(), report.is_billed(state.report))
        rows: report.Entries = iter(())
        if interrupted:
            saved, rows = state.believed(saved)
        run = _Run(options, sent, filed, told, _words_of(saved))
        return run.take(state.earlier(rows), out, _nothing_booked, books.shown)


def _nothing_booked(_: bytes) -> None:
    pass


def _filing(options: Options, sent: Folder, filed: Folder, told: Told) -> Outcome:
    filed.below(names.OWN, make=True).close()
    lock = Lock(filed, shared=False)
    try:
        with contextlib.closing(Books(filed, options.accounts, options.flush)) as books:
            outcome = _billing(options, sent, filed, told, books)
        lock.release(empty=True)
        return outcome
    finally:
        lock.release()


def _billing(options: Options, sent: Folder, filed: Folder, told: Told, books: Books) -> Outcome:
    """The run, begun or taken up again, with the accounts saved at its end."""
    state = State(filed)
    state.check()
    interrupted = state.interrupted()
    saved = books.begin(interrupted, not state.unbilled(), report.is_billed(state.report))
    if interrupted:
        saved = state.take_up(saved, options.flush)
    options = options._replace(resumed=interrupted)
    words = _words_of(saved)
    state.ledger.create()
    try:
        with state.part.create() as out:

            def booked(now: bytes) -> None:
                state.ledger.add(Entry(os.fstat(out.fileno()).st_size, now))

            run = _Run(options, sent, filed, told, words)
            outcome = run.take(state.earlier(report.entries(state.before)), out, booked, books.shown)
        state.end(options.flush, options.json, lambda: books.save(_library.saved(words)))
    finally:
        state.ledger.close()
    books.end()
    return outcome


def trimmed(path: files.Path) -> bytes:
    """A folder's path without slashes at its end."""
    return os.fsencode(path).rstrip(b"/") or b"/"


def _open_or_make(path: bytes) -> Folder:
    try:
        return Folder.top(path)
    except FileNotFoundError:
        os.makedirs(path, exist_ok=True)
        return Folder.top(path)


def run(options: Options, told: Told, out: IO[str]) -> Outcome:
    """Makes the run; a dry run's report goes to `out`. Raises `Failed` if the run itself fails."""
    check_folders(options.sent, options.filed)
    _library.functions()
    with open_top(options.sent) as sent:
        if options.dry_run:
            return _dry(options, sent, told, out)
        try:
            with _open_or_make(options.filed) as filed:
                return _filing(options, sent, filed, told)
        except OSError as error:
            raise Failed(filing.told(error, options.filed)) from error


def provision(
    sent: files.Path,
    filed: files.Path,
    *,
    pattern: str = "*.call",
    jobs: int = 1,
    strict: bool = False,
    untidy: bool = False,
    dry_run: bool = False,
    flush: bool = True,
    json: bool = False,
    accounts: Optional[files.Path] = None,
    each: Optional[Callable[[Row], None]] = None,
) -> Outcome:
    """Files every procedure under `sent` under `filed`, as sent and shortened, with a report, as the
    command `python3 -m halivomue provision` does; raises `Failed` if the run itself fails.

    pattern   a shell pattern: files whose names match it are procedures
    jobs      processes; more than one only in a program without threads, since they are forked
    strict    refuse untidy files
    untidy    file shortened forms of untidy files too, though nothing is promised about what they do
    dry_run   file nothing, and write no report
    flush     wait for the disk, so that what is filed survives a power cut
    json      write report.jsonl too
    accounts  the file of the accounts that are billed; FILED's own if none is named
    each      called with the row of each file, in name order, once it is in the report

    If `each` raises an exception, the run ends with it, and the same call continues the run later.
    """
    if strict and untidy:
        raise ValueError("strict and untidy don't go together")
    named = None if accounts is None else os.fsencode(accounts)
    options = Options(trimmed(sent), trimmed(filed), pattern, jobs, strict, untidy, dry_run, flush, json, named)
    with open(os.devnull, "w") as nowhere:
        return run(options, Told(each=each), nowhere)
