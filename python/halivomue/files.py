"""A file that the user names, replaced whole or not at all, and never anything but a plain file."""

from __future__ import annotations

import os
import secrets
import stat
from typing import Callable, Optional, Union

from .filing import Failed, why

_FOLDER = os.O_RDONLY | os.O_DIRECTORY | os.O_CLOEXEC
_NEW = os.O_WRONLY | os.O_CREAT | os.O_EXCL | os.O_NOFOLLOW | os.O_CLOEXEC
_UPDATE = os.O_WRONLY | os.O_NOFOLLOW | os.O_NONBLOCK | os.O_CLOEXEC
#: How many bytes of a file's name the new file's name starts with: the rest still fits in 255 bytes.
_KEPT = 200

Path = Union[str, bytes, "os.PathLike[str]", "os.PathLike[bytes]"]


def within(inner: bytes, outer: bytes) -> bool:
    """Is a folder, which need not exist yet, the same as another or below it?"""
    at = os.path.realpath(inner)
    while True:
        try:
            if os.path.samefile(at, outer):
                return True
        except OSError:
            pass
        above = os.path.dirname(at)
        if above == at:
            return False
        at = above


def _open_folder(path: bytes) -> int:
    return os.open(os.path.dirname(path) or b".", _FOLDER)


def _failed(path: bytes, reason: str) -> Failed:
    return Failed(f"{os.fsdecode(path)}: cannot be written: {reason}")


def _old(path: bytes, folder: int) -> Optional[os.stat_result]:
    """The plain file that would be replaced, if there is one; raises `Failed` for anything else."""
    base = os.path.basename(path)
    try:
        found = os.stat(base or b".", dir_fd=folder, follow_symlinks=False)
    except FileNotFoundError:
        return None
    if stat.S_ISLNK(found.st_mode):
        raise _failed(path, "a symbolic link")
    if not stat.S_ISREG(found.st_mode):
        raise _failed(path, "not a plain file")
    os.close(os.open(base, _UPDATE, dir_fd=folder))
    return found


def check_out(out: Path, apart: bytes) -> None:
    """Raises `Failed` if a file can't be put at `out`, or would be inside the folder `apart`."""
    path = os.fsencode(out)
    if within(os.path.dirname(path) or b".", apart):
        raise _failed(path, f"it stands inside {os.fsdecode(apart)}, which holds what a run filed and nothing else")
    try:
        folder = _open_folder(path)
        try:
            _old(path, folder)
        finally:
            os.close(folder)
    except OSError as error:
        raise _failed(path, why(error)) from error


def _fill(fd: int, data: bytes) -> None:
    try:
        done = 0
        while done < len(data):
            done += os.write(fd, memoryview(data)[done:])
        os.fsync(fd)
    finally:
        os.close(fd)


def _nothing() -> None:
    pass


def _replace(path: bytes, folder: int, data: bytes, mode: int, first: Callable[[], None]) -> None:
    """Writes and flushes a new file in the folder, under a name that nobody can guess, and renames it to the name."""
    base = os.path.basename(path)
    new = b"%s.%s.new" % (base[:_KEPT], secrets.token_hex(8).encode())
    fd = os.open(new, _NEW, mode, dir_fd=folder)
    try:
        _fill(fd, data)
        first()
        os.replace(new, base, src_dir_fd=folder, dst_dir_fd=folder)
    except BaseException:
        os.unlink(new, dir_fd=folder)
        raise


def replace(out: Path, data: bytes, mode: Optional[int] = None, first: Callable[[], None] = _nothing) -> None:
    """Writes a file completely or not at all; raises `Failed`. A symbolic link, a device, a pipe or a
    folder isn't replaced, nor is a file that the user may not write. If no mode is given, a file that
    exists keeps its own. `first` is called when the new file is written and flushed, before it takes the name."""
    path = os.fsencode(out)
    try:
        folder = _open_folder(path)
        try:
            old = _old(path, folder)
            if mode is None:
                mode = stat.S_IMODE(old.st_mode) & 0o777 if old else 0o666
            _replace(path, folder, data, mode, first)
            try:
                os.fsync(folder)
            except OSError:
                pass
        finally:
            os.close(folder)
    except OSError as error:
        raise _failed(path, why(error)) from error
