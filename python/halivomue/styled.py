"""Lines of text with styles: coloured on a terminal, plain in a pipe, marked up in a page."""

from __future__ import annotations

import html
import os
import textwrap
from typing import IO, Callable, Iterable, List, Tuple

#: A piece of a line: its style, or nothing, and its text.
Span = Tuple[str, str]
Line = List[Span]

#: The styles and their colours on a terminal.
STYLES = {
    "title": "1", "faint": "2", "copied": "33", "changed": "34", "rescued": "32", "emptied": "35", "gone": "31", "bad": "1;31",
}  # fmt: skip


def _written(lines: Iterable[Line], span: Callable[[str, str], str]) -> str:
    """The lines without trailing spaces, each styled piece written by `span`."""
    out: List[str] = []
    for line in lines:
        pieces = list(line)
        while pieces and not pieces[-1][1].strip():
            pieces.pop()
        if pieces:
            pieces[-1] = pieces[-1][0], pieces[-1][1].rstrip()
        out += [span(style, text) for style, text in pieces]
        out.append("\n")
    return "".join(out)


def plain(lines: Iterable[Line]) -> str:
    return _written(lines, lambda _, text: text)


def coloured(lines: Iterable[Line]) -> str:
    return _written(lines, lambda style, text: f"\x1b[{STYLES[style]}m{text}\x1b[0m" if style and text.strip() else text)


def marked_up(lines: Iterable[Line]) -> str:
    """HTML: a span with the style's class for each styled piece."""

    def span(style: str, text: str) -> str:
        return f'<span class="{style}">{html.escape(text)}</span>' if style and text.strip() else html.escape(text)

    return _written(lines, span)


def wants_colour(out: IO[str]) -> bool:
    """Is this a terminal, and is colour wanted on it (NO_COLOR)?"""
    return out.isatty() and not os.environ.get("NO_COLOR") and os.environ.get("TERM") != "dumb"


def wrapped(text: str, width: int, indent: str = "") -> List[str]:
    """A text in lines of at most that width, those after the first indented."""
    return textwrap.wrap(text, max(width, 20), subsequent_indent=indent, break_on_hyphens=False) or [""]
