"""The two forms of a procedure side by side, with what was done."""

from __future__ import annotations

from difflib import SequenceMatcher
from itertools import zip_longest
from typing import Dict, Iterator, List, NamedTuple, Optional, Sequence, Tuple

from . import listing, roles, show, steps, traced
from .lengths import Sliced
from .procedure import Instruction, Procedure
from .styled import Line, wrapped

SIGNS = {"": " ", "changed": "~", "copied": "+", "rescued": "^", "emptied": "~", "gone": "-"}
KEY = "+ copied  ~ changed  - gone  ^ rescued"
_EXACT = "a test of a length became a comparison of its bounds: the runs are alike if that length is exact and below 2^63 there"
_UNTOLD = "how it came about can't be told: the steps as this package knows them don't give this form"


class Row(NamedTuple):
    """A line as sent and as shortened, either of which may be missing; what was done; and, if a line comes
    from another block, that block as sent."""

    sent: Optional[Instruction]
    short: Optional[Instruction]
    mark: str = ""
    origin: Optional[int] = None


class Block(NamedTuple):
    rows: Tuple[Row, ...]
    notes: Tuple[str, ...] = ()
    emptied: bool = False

    @property
    def changed(self) -> bool:
        return bool(self.notes) or any(row.mark for row in self.rows)


class Comparison(NamedTuple):
    """Both forms, compared block by block; `note` says something about the whole."""

    sent: Procedure
    short: Procedure
    blocks: Tuple[Block, ...]
    note: str
    traced: bool


# What was done, in words


_NO_LISTS = Procedure()


def _line(line: traced.Line, at: int, p: Procedure = _NO_LISTS) -> str:
    """An instruction with its statement, and its block if it comes from another; the procedure has its list, if it has one."""
    elsewhere = f" of block {line.block}" if line.block != at else ""
    return f"{listing.brief(p, line.i)}, statement {line.i.statement}{elsewhere}"


def _by(lines: Sequence[traced.Line], at: int, p: Procedure = _NO_LISTS) -> str:
    more = f"{len(lines)} instructions, the last " if len(lines) > 2 else ""
    return "(" + more + "; ".join(_line(line, at, p) for line in (lines[-1:] if more else lines)) + ")"


def _copy(at: int, line: traced.Line, copy: traced.Block, source: int) -> str:
    return f"r{roles.number(line.i, 'c')} is a copy of r{source} {_by(copy, at)}" if copy else ""


def _joined(e: steps.Joined) -> str:
    over = [f"over {show.numbers(list(passed))}" if passed else "at once" for passed in e.passed]
    return f"both arms of the CondBr lead to block {e.to}, t {over[0]} and f {over[1]}: it becomes a Br"


def _decided(e: steps.Decided) -> str:
    copy = _copy(e.block, e.line, e.copy, e.source)
    known = f"r{e.source} is {e.known.value} {_by(e.known.by, e.block)}"
    return f"{copy + ', and ' if copy else ''}{known}: the CondBr becomes a Br to block {e.to}"


def _turned(e: steps.Turned) -> str:
    told = [f"{arm} goes on from block {over}, which tests r{e.source} alone, to block {to}" for arm, over, to in e.arms]
    copy = _copy(e.block, e.line, e.copy, e.source)
    return "; ".join(([f"{copy}: the CondBr tests that"] if copy else []) + told)


def _copied(e: steps.Copied) -> str:
    told = [f"the Br to block {e.of} gives way to a copy of block {e.of}"]
    told += [f"without {_line(line, e.block)} (r{roles.number(line.i, 'dst')} holds it from the start)" for line in e.left_out]
    told += [f"with r{new} in place of r{old}" for old, new in e.fresh]
    return ", ".join(told)


def _emptied(e: steps.Emptied) -> str:
    told = "; ".join(_line(line, e.block) for line in e.rescued)
    more = " any more" if e.reached_before else ", as sent neither"
    return f"no way from block 0 leads here{more}: it becomes a Br" + (f"; rescued to the front of block 0: {told}" if told else "")


def _sliced(e: Sliced, p: Procedure) -> str:
    a, (x, y) = roles.number(e.line.i, "a"), roles.read(e.to.i)
    down = "down " if e.bounds.down else ""
    told = f"r{a} is the length from r{e.bounds.left} {down}to r{e.bounds.right} {_by(e.bounds.by, e.block, p)}"
    return f"{told}: the Cmp compares r{x} with r{y} instead of r{a} with 0"


def words(event: steps.Event, sent: Procedure) -> str:
    """What an event did to the file as sent, in words."""
    if isinstance(event, steps.Joined):
        return _joined(event)
    if isinstance(event, steps.Decided):
        return _decided(event)
    if isinstance(event, steps.Turned):
        return _turned(event)
    if isinstance(event, Sliced):
        return _sliced(event, sent)
    return _copied(event) if isinstance(event, steps.Copied) else _emptied(event)


# The comparison


def _rows(at: int, sent: Sequence[Instruction], short: traced.Block, rescued: Sequence[traced.Line]) -> Iterator[Row]:
    """A block's rows by the origin of its lines."""
    kept: Dict[int, traced.Line] = {line.place: line for line in short if line.how in ("", "changed")}
    saved = {line.place for line in rescued}
    yield from (Row(None, line.i, line.how, line.block) for line in short if line.how == "rescued")
    for place, i in enumerate(sent):
        line = kept.get(place)
        if line is None:
            yield Row(i, None, "rescued" if place in saved else "gone")
        else:
            yield Row(i, line.i, line.how)
    for line in short:
        if line.how == "copied":
            yield Row(None, line.i, line.how, line.block)
        elif line.how == "emptied":
            yield Row(None, line.i, line.how)


def _traced(sent: Procedure, trace: steps.Trace) -> Iterator[Block]:
    emptied = {event.block: event.rescued for event in trace.events if isinstance(event, steps.Emptied)}
    for at, (before, after) in enumerate(zip(sent.blocks, trace.blocks)):
        notes = tuple(words(event, sent) for event in trace.events if event.block == at)
        yield Block(tuple(_rows(at, before, after, emptied.get(at, ()))), notes, at in emptied)


def _untraced(before: Sequence[Instruction], after: Sequence[Instruction]) -> Block:
    """Two blocks by their lines alone: what is in both, in order, and the rest, which is changed."""
    rows: List[Row] = []
    matcher = SequenceMatcher(None, [i.record() for i in before], [i.record() for i in after], autojunk=False)
    for what, a, a_end, b, b_end in matcher.get_opcodes():
        if what == "equal":
            rows += [Row(*pair) for pair in zip(before[a:a_end], after[b:b_end])]
        else:
            rows += [Row(i, None, "gone") for i in before[a:a_end]] + [Row(None, i, "changed") for i in after[b:b_end]]
    return Block(tuple(rows))


def compare(sent: Procedure, short: Procedure, counts: Optional[Tuple[int, int, int, int]] = None) -> Comparison:
    """Compares two forms. If the steps turn the first into the second, with these counts if any are given, it
    says what was done; else it only marks what differs."""
    within = max(len(sent.registers), len(sent.code)) <= 480
    trace = steps.trace(sent) if within else None
    if trace is not None and bytes(trace.procedure) == bytes(short) and counts in (None, trace.counts):
        note = f"nothing was done: {trace.stopped}" if not trace.events else ""
        if any(isinstance(event, Sliced) for event in trace.events):
            note = _EXACT
        return Comparison(sent, short, tuple(_traced(sent, trace)), note, True)
    blocks = tuple(_untraced(a, b) for a, b in zip_longest(sent.blocks, short.blocks, fillvalue=()))
    return Comparison(sent, short, blocks, _UNTOLD, False)


# Side by side


class _Columns:
    """How wide the two forms are shown."""

    def __init__(self, c: Comparison, blocks: Sequence[Block], width: int) -> None:
        self.c = c
        self.wide = max((len(str(i.statement)) for i in (*c.sent.code, *c.short.code)), default=1)
        most = max((width - 20) // 2, 24)
        self.left = self.needed([row.sent for block in blocks for row in block.rows], c.sent, most)
        self.right = self.needed([row.short for block in blocks for row in block.rows], c.short, most)

    def needed(self, side: Sequence[Optional[Instruction]], p: Procedure, most: int) -> int:
        return min(max((self.wide + 2 + len(listing.brief(p, i)) for i in side if i), default=0), most)

    def cell(self, p: Procedure, i: Optional[Instruction], width: int) -> List[str]:
        if i is None:
            return []
        return wrapped(f"{i.statement:>{self.wide}}  {listing.brief(p, i)}", width, " " * (self.wide + 4))

    def lines(self, row: Row) -> Iterator[Line]:
        left, right = self.cell(self.c.sent, row.sent, self.left), self.cell(self.c.short, row.short, self.right)
        origin = f"  from block {row.origin}" if row.origin is not None else ""
        for at, (a, b) in enumerate(zip_longest(left, right, fillvalue="")):
            sign = SIGNS[row.mark] if at == 0 else " "
            style = "gone" if row.mark == "changed" else row.mark
            pieces = [("", "  "), (style, f"{a:<{self.left}}"), (row.mark, f"  {sign} "), (row.mark, f"{b:<{self.right}}")]
            yield [*pieces, ("faint", origin if at == 0 else "")]


def _unchanged(blocks: Sequence[Block], at: int) -> int:
    """How many blocks from this one on are unchanged."""
    end = at
    while end < len(blocks) and not blocks[end].changed:
        end += 1
    return end - at


def lines(c: Comparison, head: str, width: int = 100, everything: bool = False) -> List[Line]:
    """The comparison as text, without the rows of unchanged blocks unless everything is wanted."""
    shown = [block for block in c.blocks if everything or block.changed]
    columns = _Columns(c, shown, width)
    out: List[Line] = [[("title", head)]]
    if c.note:
        out += [[("" if c.traced else "bad", text)] for text in wrapped(c.note, width)]
    if shown:
        out += [[("faint", "  " + KEY)], [("faint", f"  {'as sent':<{columns.left}}    shortened")]]
    at = 0
    while at < len(c.blocks):
        same = 0 if everything else _unchanged(c.blocks, at)
        if same:
            name = f"block {at}" if same == 1 else f"blocks {at} to {at + same - 1}"
            out.append([("faint", f"{name}: unchanged")])
            at += same
            continue
        block = c.blocks[at]
        title = listing.block_title(c.sent, at) + (", emptied" if block.emptied else "")
        out.append([("title", title)])
        for row in block.rows:
            out += columns.lines(row)
        for note in block.notes:
            out += [[("", text)] for text in wrapped("  * " + note, width, "    ")]
        at += 1
    return out
