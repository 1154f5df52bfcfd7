"""Names of files: how they are quoted, in which order they come, and how a tree is walked in it.

A name is the path below the tree's top, in bytes. Names are in the order of their parts: the order
in which a tree is walked with each folder's entries sorted by their bytes.
"""

from __future__ import annotations

import errno
import fnmatch
import heapq
import os
import re
from typing import Callable, Container, Iterator, List, NamedTuple, Optional, Tuple

from .filing import Folder, why

#: What a shortened form's name has after the sent form's.
SHORT = b".short"
#: The run's own folder at the top of FILED, and the start of its temporary files' names.
OWN = b".halivomue"
#: The reports at the top of FILED.
REPORT, REPORT_JSON = b"report.csv", b"report.jsonl"

#: How many names of a folder are held at once.
_BATCH = 20_000
#: Bytes of the longest name of a folder that is walked: the system's limit for paths.
_LONGEST = 4096
# Control characters (C0, DEL and C1), bytes that aren't UTF-8 (as surrogates), and invisible characters that
# change how others appear: they reverse the direction of writing (U+202E and the like), break the line,
# join, hide or tag. The list is fixed, so that a report looks the same with every Python.
_UNSHOWN = (
    "\x00-\x1f\x7f-\x9f\ud800-\udfff"
    "\u00ad\u061c\u115f\u1160\u180b-\u180f\u200b-\u200f\u2028-\u202e\u2060-\u206f\u3164\ufe00-\ufe0f\ufeff\uffa0\ufff0-\ufffb"
    "\U0001bca0-\U0001bca3\U0001d173-\U0001d17a\U000e0000-\U000e0fff"
)
#: Characters that no line of a report contains.
UNSHOWN = re.compile(f"[{_UNSHOWN}]")
_TO_QUOTE = re.compile(f"[{_UNSHOWN}\\\\]")
# A sign, plain or wide, that makes a spreadsheet take a cell for a formula, at a place where a cell could start.
_SIGN = re.compile("((?:^|;)\\s*)([=+@\uff1d\uff0b\uff0d\uff20-])")
# Names that are shown and quoted unchanged; most are.
_PLAIN = re.compile(rb"[0-9A-Za-z_][0-9A-Za-z_ /.,+=@-]*")
_QUOTED = re.compile(r"\\(\\|x[0-9a-f]{2})")


def _hex(text: str) -> str:
    return "".join(f"\\x{byte:02x}" for byte in text.encode("utf-8", "surrogateescape"))


def shown(name: bytes) -> str:
    """A name in one line of text: a backslash as two; what a terminal would obey, what is invisible and
    what isn't UTF-8 byte by byte as backslash, x and two digits."""
    text = name.decode("utf-8", "surrogateescape")
    return _TO_QUOTE.sub(lambda found: "\\\\" if found[0] == "\\" else _hex(found[0]), text)


def quote(name: bytes) -> str:
    """A name as a report has it: as it is shown, but a sign that would start a formula in a
    spreadsheet is also written as backslash, x and two digits."""
    if _PLAIN.fullmatch(name):
        return name.decode("ascii")
    return _SIGN.sub(lambda found: found[1] + _hex(found[2]), shown(name))


def unquote(text: str) -> bytes:
    """The name that was quoted, in either of these ways."""
    if "\\" not in text:
        return text.encode("utf-8")

    def plain(found: "re.Match[str]") -> str:
        if found[1] == "\\":
            return "\\"
        return bytes([int(found[1][1:], 16)]).decode("latin-1")

    parts = []
    end = 0
    for found in _QUOTED.finditer(text):
        parts += [text[end : found.start()].encode("utf-8"), plain(found).encode("latin-1")]
        end = found.end()
    return b"".join([*parts, text[end:].encode("utf-8")])


def key(name: bytes) -> bytes:
    """The key by which names are sorted."""
    return name.replace(b"/", b"\0")


def reserved(name: bytes) -> Optional[str]:
    """Why nothing can be filed under this name; None if something can."""
    if name.endswith(SHORT):
        return "a name that ends in .short is kept for shortened forms"
    if name.split(b"/", 1)[0] in (REPORT, REPORT_JSON):
        return "this name is kept for the report"
    if OWN in name and b"/" + OWN in b"/" + name:
        return "a name that starts with .halivomue is kept for the run's own files"
    return None


def proper(name: bytes) -> bool:
    """Is this the name of something below a tree's top?"""
    return b"\0" not in name and not {b"", b".", b".."} & set(name.split(b"/"))


def matcher(pattern: str) -> Callable[[bytes], bool]:
    """Does the last part of a name match a shell's pattern?"""
    if pattern[:1] == "*" and not set(pattern[1:]) & set("*?["):
        ending = os.fsencode(pattern[1:])
        return lambda name: name.endswith(ending)
    matches = re.compile(fnmatch.translate(pattern)).match
    return lambda name: matches(os.fsdecode(os.path.basename(name))) is not None


class Entry(NamedTuple):
    """What a walk finds: `kind` is file, link, link to a folder, folder (one that isn't entered), other,
    empty (a folder without entries) or the reason why a folder can't be read."""

    name: bytes
    kind: str


def _kind(entry: "os.DirEntry[str]") -> str:
    if entry.is_file(follow_symlinks=False):
        return "file"
    if entry.is_dir(follow_symlinks=False):
        return "folder"
    if not entry.is_symlink():
        return "other"
    try:
        return "link to a folder" if entry.is_dir() else "link"
    except OSError:
        return "link"


Sorting = Callable[[bytes, str], bytes]


def by_name(name: bytes, kind: str) -> bytes:
    return name


def by_pair(name: bytes, kind: str) -> bytes:
    """Puts a shortened form right after its sent form."""
    if kind != "folder" and name.endswith(SHORT):
        return name[: -len(SHORT)] + b"\0"
    return name


def _batch(folder: Folder, sorting: Sorting, last: Optional[bytes]) -> List[Tuple[bytes, bytes, str]]:
    """The next of a folder's entries after the last one, in order."""
    batch: List[Tuple[bytes, bytes, str]] = []
    with os.scandir(folder.fd) as entries:
        for entry in entries:
            name, kind = os.fsencode(entry.name), _kind(entry)
            order = sorting(name, kind)
            if last is None or order > last:
                batch.append((order, name, kind))
            if len(batch) == 2 * _BATCH:
                batch = heapq.nsmallest(_BATCH, batch)
    batch.sort()
    return batch[:_BATCH]


def _entries(top: Folder, name: bytes, sorting: Sorting) -> Iterator[Tuple[bytes, bytes, str]]:
    """A folder's entries in order; a large one is read again for each batch."""
    last: Optional[bytes] = None
    while True:
        if len(name) > _LONGEST:
            raise OSError(errno.ENAMETOOLONG, os.strerror(errno.ENAMETOOLONG))
        with top.below(name) as folder:
            batch = _batch(folder, sorting, last)
        yield from batch
        if len(batch) < _BATCH:
            return
        last = batch[-1][0]


def walk(top: Folder, sorting: Sorting = by_name, kept_out: Container[bytes] = ()) -> Iterator[Entry]:
    """Everything under a folder except folders, in name order. No symbolic link is followed, and folders
    with an excluded name aren't entered. Raises OSError if the folder itself can't be read."""
    open_folders = [(b"", _entries(top, b"", sorting))]
    entered = True
    while open_folders:
        below, entries = open_folders[-1]
        try:
            _, name, kind = next(entries)
        except StopIteration:
            open_folders.pop()
            if entered:
                yield Entry(below, "empty")
            entered = False
            continue
        except OSError as error:
            if not below:
                raise
            open_folders.pop()
            entered = False
            yield Entry(below, why(error))
            continue
        path = below + b"/" + name if below else name
        entered = kind == "folder" and path not in kept_out
        if entered:
            open_folders.append((path, _entries(top, path, sorting)))
        else:
            yield Entry(path, kind)
