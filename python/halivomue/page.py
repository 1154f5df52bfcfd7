"""A page to look at: totals, a table of the files, and for each what was done, drawn and in words."""

from __future__ import annotations

import base64
import fnmatch
import html
import json
import os
import re
import shutil
import subprocess
import sys
import time
import zlib
from concurrent.futures import ThreadPoolExecutor
from itertools import islice
from typing import Any, Callable, Dict, Iterable, Iterator, List, NamedTuple, Optional, Sequence, Tuple
from urllib.parse import quote_from_bytes

from . import __version__, audit, diff, explain, files, filing, flow, names, report, show, styled, work
from .answers import Refused
from .filing import Failed, Folder, Held, Unreadable
from .procedure import Procedure
from .progress import Progress
from .report import Row
from .state import Lock, State, open_top, whole_report

#: Seconds after which a drawing is abandoned.
_PATIENCE = 10
#: Columns of the texts.
_WIDTH = 120
#: The columns of the table; `answer` has a refusal's number in it.
_COLUMNS = (
    "name", "answer", "record", "reason", "filed", "tidy", "instructions_sent", "instructions_short", "bytes_sent", "bytes_short",
    "moved", "grown", "fresh", "rescued", "price", "billed",
)  # fmt: skip


class Options(NamedTuple):
    """Which names are drawn, how many files at most, and in how many seconds in all."""

    patterns: Sequence[str] = ("*",)
    most: int = 300
    seconds: float = 120


class NotDrawn(Exception):
    """Why a file has no drawing."""


class Looked(NamedTuple):
    """What is found about a filed file: what isn't as the report says, and why it is untidy."""

    findings: List[str]
    untidy: str


# Each file


def _dot(dot: str, texts: Sequence[str], patience: float) -> List[str]:
    """The drawings of some graphs as SVG."""
    try:
        done = subprocess.run([dot, "-Tsvg"], input="".join(texts), capture_output=True, encoding="utf-8", timeout=patience)
    except subprocess.TimeoutExpired:
        raise NotDrawn(f"dot needed more than {patience:.3g} seconds") from None
    except OSError as error:
        raise NotDrawn(f"dot: {filing.why(error)}") from None
    drawn = re.findall(r"<svg.*?</svg>", done.stdout, re.DOTALL)
    if done.returncode or len(drawn) != len(texts):
        raise NotDrawn("dot: " + (done.stderr.strip().splitlines() or ["no drawing"])[-1])
    return [re.sub(r"<title>.*?</title>\n?|<!--.*?-->\n?", "", svg, flags=re.DOTALL) for svg in drawn]


def _packed(text: str) -> str:
    return base64.b64encode(zlib.compress(text.encode("utf-8"), 9)).decode("ascii")


def _text(lines: List[styled.Line]) -> str:
    return _packed(styled.marked_up(lines))


def _forms(filed: Held, row: Row) -> Tuple[bytes, Optional[bytes]]:
    """A file's forms as they are filed: both, or the sent one if only that is filed; raises `NotDrawn`."""
    name = names.unquote(row.name)
    try:
        sent = filed.read(name)
        short = filed.read(name + names.SHORT) if row.sha256_short else None
    except Unreadable as error:
        raise NotDrawn(f"what is filed can't be read: {error}") from error
    if sent is None or short is None and row.sha256_short:
        raise NotDrawn("it is not filed any more")
    return sent, short


class Artist:
    """Makes the drawings and texts of files, with dot if it is installed, until the time is up."""

    def __init__(self, filed: Folder, dot: Optional[str], seconds: float) -> None:
        self.filed, self.dot, self.seconds = filed, dot, seconds
        self.end = time.monotonic() + seconds

    def drawings(self, forms: Sequence[Procedure], texts: Callable[[], Sequence[str]]) -> Dict[str, str]:
        """The drawings of one form or both, packed; raises `NotDrawn`."""
        if self.dot is None:
            raise NotDrawn("dot isn't installed where this page was made (Debian: graphviz)")
        if len({len(form.blocks) for form in forms}) > 1:
            raise NotDrawn("the two forms don't belong together")
        arrows = max(map(flow.count_arrows, forms))
        if arrows > flow.MOST_ARROWS:
            raise NotDrawn(f"it has {arrows} arrows, and at most {flow.MOST_ARROWS} are drawn")
        left = self.end - time.monotonic()
        if left <= 0:
            raise NotDrawn(f"the time for all drawings, {self.seconds:g} seconds, was used up (--seconds)")
        return dict(zip(("sent", "short"), map(_packed, _dot(self.dot, texts(), min(_PATIENCE, left)))))

    def both(self, row: Row, sent: Procedure, short: Procedure, made: Dict[str, str]) -> None:
        counts = row.moved or 0, row.grown or 0, row.fresh or 0, row.rescued or 0
        c = diff.compare(sent, short, counts)
        told = "moved {} grown {} fresh {} rescued {}".format(*counts)
        made["text"] = _text(diff.lines(c, told, _WIDTH))
        made.update(self.drawings((sent, short), lambda: flow.graphs(c)))

    def alone(self, row: Row, data: bytes, made: Dict[str, str]) -> None:
        p = Procedure.parse(data)
        made["text"] = _text(show.lines(data, row.name, False, _WIDTH))
        made.update(self.drawings((p,), lambda: (flow.graph(p, flow.unmarked(p)),)))

    def make(self, row: Row) -> Dict[str, str]:
        """A file's texts and drawings, or why it has none."""
        made: Dict[str, str] = {}
        held = Held(self.filed)
        try:
            sent, short = _forms(held, row)
            if row.tidy == "no":
                made["untidy"] = _text(explain.lines(sent, row.name, _WIDTH)[0])
            if short is None:
                self.alone(row, sent, made)
            else:
                self.both(row, Procedure.parse(sent), Procedure.parse(short), made)
        except Refused as error:
            made["why"] = f"what is filed is {error}"
        except NotDrawn as error:
            made["why"] = str(error)
        finally:
            held.leave()
        return made


def _looked(filed: Held, row: Row) -> Looked:
    """Compares a filed file with its row; for an untidy one, says what offends."""
    found = [] if row.filed == "no" else audit.findings(filed, row)
    if row.tidy != "no" or row.reg is None or found:
        return Looked(found, "")
    try:
        return Looked(found, explain.untidy_words(Procedure.parse(_forms(filed, row)[0]), row.reg))
    except (NotDrawn, Refused):
        return Looked(found, "")


# All files


def _in_order(calls: Iterator[Any], jobs: int) -> Iterator[Any]:
    """Results of calls by several threads, in order, a few at a time."""
    pool = ThreadPoolExecutor(jobs)
    waiting: List[Any] = []
    try:
        waiting += [pool.submit(*call) for call in islice(calls, 2 * jobs)]
        while waiting:
            yield waiting.pop(0).result()
            waiting += [pool.submit(*call) for call in islice(calls, 1)]
    finally:
        for call in waiting:
            call.cancel()
        pool.shutdown()


def _told(results: Iterable[Any], total: int) -> Iterator[Any]:
    """Passes results on, with a progress bar on a terminal."""
    with Progress(sys.stderr, lambda: total) as progress:
        for result in results:
            yield result
            progress.add(1)


def _looked_all(filed: Folder, rows: List[Row]) -> List[Looked]:
    held = Held(filed)
    try:
        return [_looked(held, row) for row in rows]
    finally:
        held.leave()


def _look(filed: Folder, rows: List[Row]) -> List[Looked]:
    def make(number: int) -> work.Worker:
        return lambda chunk: _looked_all(filed, chunk)

    chunks = work.ordered(iter(rows), make, work.default_jobs(), lambda row: len(row.name) + report.ROW_BYTES)
    return list(_told((one for chunk in chunks for one in chunk), len(rows)))


def natural(name: str) -> Tuple[List[List[Any]], str]:
    """The key by which names are sorted: part by part, with numbers as numbers."""
    parts = [re.split(r"(\d+)", part) for part in name.split("/")]
    return [[int(text) if at % 2 else text for at, text in enumerate(part)] for part in parts], name


def _wanted(row: Row, patterns: Sequence[str]) -> bool:
    return row.filed in ("yes", "as sent", "earlier") and any(fnmatch.fnmatchcase(row.name, pattern) for pattern in patterns)


# The page


def _script(value: Any) -> str:
    """JSON that is safe inside a page."""
    return json.dumps(value, ensure_ascii=False, separators=(",", ":")).replace("<", "\\u003c")


def _cards(totals: report.Totals) -> str:
    s, a = totals.sums, totals.answers

    def card(title: str, value: str, more: str = "", kind: str = "") -> str:
        return f'<div class="card {kind}"><b>{value}</b><span>{title}</span><i>{more}</i></div>'

    def change(now: int, before: int) -> str:
        return f"from {before:,} ({100 * (now - before) / before:+.1f}%)" if before else ""

    cards = [
        card("files sent", f"{totals.files:,}", f"{a['not sent']:,} not sent any more" if a["not sent"] else ""),
        card("accepted", f"{a['accepted']:,}", f"{totals.untidy:,} untidy", "good"),
        card("refused", f"{a['refused']:,}", "", "bad" if a["refused"] else ""),
        card("unreadable", f"{a['unreadable']:,}", "", "bad" if a["unreadable"] else ""),
        card("shortened", f"{s['moved']:,}", f"of {a['accepted']:,}"),
        card("instructions", f"{s['instructions_short']:,}", change(s["instructions_short"], s["instructions_sent"])),
        card("bytes", f"{s['bytes_short']:,}", change(s["bytes_short"], s["bytes_sent"])),
        card("grown", f"{s['grown']:,}", "instructions copied"),
        card("fresh", f"{s['fresh']:,}", "new registers"),
        card("rescued", f"{s['rescued']:,}", "constants"),
        card("price", f"{s['price']:,}", "cents"),
        card("billed", f"{s['billed']:,}", "cents, by the last run"),
    ]  # fmt: skip
    return "".join(cards)


def _cells(row: Row, looked: Looked) -> List[Any]:
    """What the table shows about a file."""
    number = f" {row.number}" if row.answer == "refused" and row.number is not None else ""
    shown = {"answer": row.answer + number, "reason": looked.untidy or row.reason}
    return [shown[name] if name in shown else getattr(row, name) for name in _COLUMNS]


def _links(rows: List[Row]) -> Dict[int, str]:
    """The paths of files whose names are quoted in the table; the others are made from their names."""
    return {n: quote_from_bytes(names.unquote(row.name)) for n, row in enumerate(rows) if "\\" in row.name}


def _data(filed: Folder, out: str, rows: List[Row], options: Options, dot: Optional[str]) -> Dict[str, Any]:
    looked = _look(filed, rows)
    chosen = [n for n, row in enumerate(rows) if _wanted(row, options.patterns)][: options.most]
    artist = Artist(filed, dot, options.seconds)
    calls = ((artist.make, rows[n]) for n in chosen)
    way = os.path.relpath(os.path.realpath(filed.path), os.path.dirname(os.path.realpath(os.fsencode(out))))
    return {
        "columns": _COLUMNS,
        "rows": [_cells(row, one) for row, one in zip(rows, looked)],
        "differs": {n: one.findings for n, one in enumerate(looked) if one.findings},
        "digests": {n: [row.sha256_sent, row.sha256_short] for n, row in enumerate(rows) if row.sha256_sent},
        "drawings": dict(zip(chosen, _told(_in_order(calls, work.default_jobs()), len(chosen)))),
        "undrawn": "it was left out when the page was made (--draw and --most choose)",
        "base": "./" + quote_from_bytes(way) + "/",
        "links": _links(rows),
    }


def _made(filed: Folder) -> str:
    """When, by what and from what the page was made."""
    folder = html.escape(names.shown(os.path.abspath(filed.path)))
    with State(filed).report.open() as file:
        written = os.fstat(file.fileno()).st_mtime
    times = [time.strftime("%Y-%m-%d %H:%M %z", time.localtime(at)) for at in (time.time(), written)]
    return f"{folder}: page made {times[0]} by halivomue {__version__}, of the report of {times[1]}"


def _line(out: str, rows: List[Row], data: Dict[str, Any], dot: Optional[str]) -> str:
    """The line about a page that was made."""
    drawn = sum("sent" in one for one in data["drawings"].values())
    without = len(data["drawings"]) - drawn
    told = f"{out}: {report.counted(len(rows))}, {drawn} drawn"
    if dot is None:
        told += "; dot isn't installed (Debian: graphviz)"
    elif without:
        told += f", {without} not (the page says why)"
    return told + (f"; {report.counted(len(data['differs']))} not as the report says" if data["differs"] else "")


def write(filed: bytes, out: str, options: Options = Options()) -> str:
    """Writes the page and returns a line about it; raises `Failed`."""
    files.check_out(out, apart=filed)
    with open_top(filed) as top:
        lock = Lock(top, shared=True)
        try:
            rows, totals = whole_report(State(top))
            rows.sort(key=lambda row: natural(row.name))
            dot = shutil.which("dot")
            data = _data(top, out, rows, options, dot)
            made = _made(top)
        except OSError as error:
            raise Failed(filing.told(error, filed)) from error
        finally:
            lock.release()
    with open(os.path.join(os.path.dirname(os.path.abspath(__file__)), "page.html"), encoding="utf-8") as file:
        text = file.read()
    title = html.escape(names.shown(os.path.basename(os.path.realpath(filed))))
    for mark, value in (("TITLE", title), ("MADE", made), ("CARDS", _cards(totals)), ("DATA", _script(data))):
        text = text.replace(f"<!--{mark}-->", value)
    files.replace(out, text.encode("utf-8"))
    return _line(out, rows, data, dot)
