"""show, explain and diff: a text about each file."""

from __future__ import annotations

import os
import shutil
import sys
from typing import List, NamedTuple, Sequence, Tuple

from . import _library, causes, diff, explain, filing, names, show, styled
from .answers import LONGEST, Refused
from .procedure import Procedure

#: Columns if the output isn't a terminal.
_COLUMNS = 100


class Wanted(NamedTuple):
    """What to print: show, explain or diff; whether the shortened form; whether everything."""

    command: str
    short: bool = False
    everything: bool = False


def _read(name: str) -> bytes:
    """A file's bytes, at most one more than the longest file has."""
    if name == "-":
        return sys.stdin.buffer.read(LONGEST + 1)
    with open(name, "rb") as file:
        return file.read(LONGEST + 1)


def told(wanted: Wanted, data: bytes, name: str, width: int) -> Tuple[List[styled.Line], int]:
    """The text about a file, and the number of its refusal, 0 if it isn't refused."""
    if wanted.command == "explain":
        return explain.lines(data, name, width)
    try:
        if wanted.command == "show":
            return show.lines(data, name, wanted.short, width), 0
        short = _library.shorten(data)
        counts = short.moved, short.grown, short.fresh, short.rescued
        compared = diff.compare(Procedure.parse(data), Procedure.parse(short.data), counts)
        return diff.lines(compared, f"{name}: {short.counts}", width, wanted.everything), 0
    except Refused as refused:
        why = causes.reason(data, refused.number, refused.record)
        return [[("title", f"{name}: "), ("bad", f"refused {refused.number} {refused.record}"), ("", f" ({why})")]], refused.number


def _print(lines: List[styled.Line], apart: bool) -> None:
    """Prints a text, after an empty line if it has to be set apart."""
    text = (styled.coloured if styled.wants_colour(sys.stdout) else styled.plain)(lines)
    try:
        print(("\n" if apart else "") + text, end="", flush=True)
    except BrokenPipeError:
        # The reader has seen enough.
        os.dup2(os.open(os.devnull, os.O_WRONLY), 1)


def main(wanted: Wanted, files: Sequence[str]) -> int:
    """Prints the text about each file; returns 1 if one is refused or can't be read."""
    _library.functions()
    width = shutil.get_terminal_size((_COLUMNS, 24)).columns if sys.stdout.isatty() else _COLUMNS
    status, printed = 0, False
    for file in files:
        name = names.shown(os.fsencode(file))
        try:
            lines, refused = told(wanted, _read(file), name, max(width, 60))
        except OSError as error:
            lines, refused = [[("", f"{name}: cannot be read: {filing.why(error)}")]], 1
        if refused and len(lines) == 1:
            print(styled.plain(lines), end="", file=sys.stderr)
        else:
            _print(lines, printed)
            printed = True
        status = 1 if refused else status
    return status
