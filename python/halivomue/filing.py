"""Folders held by their descriptors, reading the files in them, and putting files in place so that nobody
ever sees half of one.

Every part of a name is opened by its parent's descriptor, and no symbolic link is followed on the way:
whatever is replaced meanwhile, nothing outside the tree is read or written. Only a tree's top, which the
user names, may be a link. Opening anything but a regular file never blocks.
"""

from __future__ import annotations

import errno
import io
import os
import stat
from typing import IO, BinaryIO, Iterator, NamedTuple, Optional, Sequence, Tuple

from .answers import LONGEST

_READ = os.O_RDONLY | os.O_NOFOLLOW | os.O_NONBLOCK | os.O_CLOEXEC | getattr(os, "O_NOCTTY", 0)
_NEW = os.O_WRONLY | os.O_CREAT | os.O_EXCL | os.O_NOFOLLOW | os.O_CLOEXEC
_FOLDER = os.O_RDONLY | os.O_DIRECTORY | os.O_CLOEXEC

#: What the name of a new file has after that of the file that it replaces.
_NEW_END = b".new"

#: Bytes of the longest line of a report, in CSV or JSON: a name of 4,350 bytes, each quoted, and more.
LINE = 1 << 17

#: Write errors that concern one name; any other makes the whole run fail.
_OF_A_NAME = frozenset((errno.ENAMETOOLONG, errno.EISDIR, errno.ENOTDIR, errno.EEXIST, errno.ELOOP))
#: Errors on opening which mean that there is no such file.
_NOT_THERE = frozenset((errno.ENOENT, errno.ENOTDIR, errno.ENAMETOOLONG))


class Unreadable(Exception):
    """A file that can't be read or filed, with the reason."""


class Failed(Exception):
    """The run itself can't go on, with the reason."""


class NotAFile(Failed):
    """Something that isn't a file is in the place of one of the run's own files; with the reason."""

    def __init__(self, path: str, reason: str) -> None:
        super().__init__(f"{path}: {reason}")
        self.reason = reason


def why(error: OSError) -> str:
    """The system's reason."""
    if error.errno == errno.ELOOP:
        return "a symbolic link, not followed"
    return error.strerror or str(error)


def told(error: OSError, otherwise: bytes = b"") -> str:
    """What an error of the system is about (or else what is given), and its reason."""
    name = error.filename if isinstance(error.filename, (str, bytes)) else otherwise
    return f"{os.fsdecode(name)}: {why(error)}" if name else why(error)


def _is_link(name: bytes, at: int) -> bool:
    try:
        return stat.S_ISLNK(os.stat(name, dir_fd=at, follow_symlinks=False).st_mode)
    except OSError:
        return False


def _open_part(name: bytes, at: int, make: bool) -> int:
    """A folder in another; it is made if it doesn't exist and may be made."""
    while True:
        try:
            return os.open(name, _FOLDER | os.O_NOFOLLOW, dir_fd=at)
        except FileNotFoundError:
            if not make:
                raise
        except NotADirectoryError:
            if _is_link(name, at):
                raise OSError(errno.ELOOP, os.strerror(errno.ELOOP), name) from None
            raise
        try:
            os.mkdir(name, dir_fd=at)
        except FileExistsError:
            pass


class Folder:
    """A folder held by its descriptor; `path` is for messages."""

    def __init__(self, path: bytes, fd: int) -> None:
        self.path, self.fd = path, fd

    @classmethod
    def top(cls, path: bytes) -> "Folder":
        """A tree's top, which may be a symbolic link; raises OSError."""
        return cls(path, os.open(path, _FOLDER))

    def below(self, name: bytes, make: bool = False) -> "Folder":
        """The folder of that name below this one, which has no name; raises OSError."""
        fd = os.open(b".", _FOLDER, dir_fd=self.fd)
        try:
            for part in name.split(b"/") if name else ():
                inner = _open_part(part, fd, make)
                os.close(fd)
                fd = inner
        except BaseException:
            os.close(fd)
            raise
        return Folder(os.path.join(self.path, name) if name else self.path, fd)

    def has(self, name: bytes, folder: "Folder") -> bool:
        """Does that name still lead to a folder?"""
        try:
            with self.below(name) as now:
                return os.path.samestat(os.fstat(now.fd), os.fstat(folder.fd))
        except OSError:
            return False

    def flush(self) -> None:
        """Flushes the names in it to the disk."""
        os.fsync(self.fd)

    def close(self) -> None:
        os.close(self.fd)

    def __enter__(self) -> "Folder":
        return self

    def __exit__(self, *_: object) -> None:
        self.close()


class Held:
    """The folder of the file below a tree's top that was last asked for; `top` is None if there is no
    tree."""

    def __init__(self, top: Optional[Folder], make: bool = False) -> None:
        self.top, self.make = top, make
        self.name = b""
        self.folder: Optional[Folder] = None

    def at(self, name: bytes) -> Tuple[Folder, bytes]:
        """The folder that a name leads to, and the name's last part; raises OSError."""
        below, _, base = name.rpartition(b"/")
        if self.folder is None or below != self.name:
            self.leave()
            if self.top is None:
                raise FileNotFoundError(errno.ENOENT, os.strerror(errno.ENOENT))
            self.name, self.folder = below, self.top.below(below, self.make)
        return self.folder, base

    def read(self, name: bytes) -> Optional[bytes]:
        """A form's bytes, or None if there is no such file; raises `Unreadable`."""
        try:
            folder, base = self.at(name)
            return read(base, folder).data
        except OSError as error:
            missing: BaseException = error
            reason = why(error)
        except Unreadable as error:
            missing, reason = error.__cause__ or error, str(error)
        if isinstance(missing, OSError) and missing.errno in _NOT_THERE:
            return None
        raise Unreadable(reason) from missing

    def is_folder(self, name: bytes) -> bool:
        try:
            folder, base = self.at(name)
            return stat.S_ISDIR(os.stat(base, dir_fd=folder.fd, follow_symlinks=False).st_mode)
        except OSError:
            return False

    def leave(self) -> None:
        folder, self.folder = self.folder, None
        if folder is not None:
            folder.close()


class Form(NamedTuple):
    """A file as it is: its bytes, at most the first 65,537, and its mode."""

    data: bytes
    mode: int


def _whole(fd: int, length: int) -> bytes:
    """The bytes of a file of that length, and one more if there is one; at most 65,537."""
    due = min(length, LONGEST + 1)
    data = os.read(fd, min(length, LONGEST) + 1)
    while data and len(data) < due:
        more = os.read(fd, due - len(data))
        if not more:
            break
        data += more
    return data


def read(name: bytes, folder: Optional[Folder] = None) -> Form:
    """A file as it is; raises `Unreadable`, also if it changes meanwhile."""
    try:
        fd = os.open(name, _READ, dir_fd=folder.fd if folder is not None else None)
        try:
            before = os.fstat(fd)
            if not stat.S_ISREG(before.st_mode):
                raise Unreadable("not a regular file")
            data = _whole(fd, before.st_size)
            after = os.fstat(fd)
        finally:
            os.close(fd)
    except OSError as error:
        raise Unreadable(why(error)) from error
    if (
        before.st_mtime_ns != after.st_mtime_ns
        or before.st_size != after.st_size
        or len(data) != min(before.st_size, LONGEST + 1)
    ):
        raise Unreadable("changed while it was read")
    return Form(data, before.st_mode & 0o777)


def _create(name: bytes, at: int, mode: int = 0o666) -> int:
    """Makes a new file; whatever an interrupted run or anybody else left under its name is removed."""
    try:
        return os.open(name, _NEW, mode, dir_fd=at)
    except FileExistsError:
        os.unlink(name, dir_fd=at)
        return os.open(name, _NEW, mode, dir_fd=at)


def stage(temporary: bytes, data: bytes, flush: bool, at: int, mode: int) -> None:
    """Writes a new file, flushed."""
    fd = _create(temporary, at, mode)
    try:
        done = os.write(fd, data)
        while done < len(data):
            done += os.write(fd, memoryview(data)[done:])
        if flush:
            os.fsync(fd)
    finally:
        os.close(fd)


def write(
    files: Sequence[Tuple[bytes, bytes, bytes]], flush: bool, folder: Folder, mode: int = 0o666, gone: Sequence[bytes] = ()
) -> None:
    """Puts files in their places in a folder, each in one step: writes new files beside them (name,
    temporary name and bytes of each), flushes them and renames them. If one can't be written, none is
    put in place. Before the renaming, the files `gone` are removed if they exist."""
    at = folder.fd
    try:
        for name, temporary, data in files:
            stage(temporary, data, flush, at, mode)
        for name in gone:
            _unlink(name, at)
        for name, temporary, _ in files:
            os.replace(temporary, name, src_dir_fd=at, dst_dir_fd=at)
    except OSError as error:
        for _, temporary, _ in files:
            _remove(temporary, at)
        if error.errno in _OF_A_NAME:
            raise Unreadable(f"cannot be filed: {why(error)}") from error
        raise Failed(f"{os.fsdecode(os.path.join(folder.path, name))}: {why(error)}") from error


def _unlink(name: bytes, at: int) -> None:
    try:
        os.unlink(name, dir_fd=at)
    except FileNotFoundError:
        pass


def cannot_make(path: bytes, error: OSError) -> Exception:
    """What is raised if a folder for files can't be made or opened."""
    if error.errno in _OF_A_NAME:
        return Unreadable(f"cannot be filed: {why(error)}")
    return Failed(f"{os.fsdecode(path)}: {why(error)}")


def _remove(name: bytes, at: int) -> None:
    try:
        os.unlink(name, dir_fd=at)
    except OSError:
        pass


class File(NamedTuple):
    """A file of the run's own, by the tree's top and its name below it. Its folder need not exist."""

    top: Folder
    name: bytes

    @property
    def path(self) -> str:
        return os.fsdecode(os.path.join(self.top.path, self.name))

    @property
    def base(self) -> bytes:
        return os.path.basename(self.name)

    def folder(self) -> Folder:
        return self.top.below(os.path.dirname(self.name))

    def descriptor(self, flags: int = 0) -> int:
        """Opens the file without blocking; raises FileNotFoundError or `NotAFile`."""
        try:
            with self.folder() as folder:
                fd = os.open(self.base, flags | _READ, 0o666, dir_fd=folder.fd)
        except FileNotFoundError:
            raise
        except OSError as error:
            raise NotAFile(self.path, why(error)) from error
        if not stat.S_ISREG(os.fstat(fd).st_mode):
            os.close(fd)
            raise NotAFile(self.path, "not a regular file")
        return fd

    def open(self) -> BinaryIO:
        return os.fdopen(self.descriptor(), "rb")

    def create(self) -> IO[str]:
        """A new file to be written; it replaces whatever has the name."""
        with self.folder() as folder:
            fd = _create(self.base, folder.fd)
        return io.TextIOWrapper(os.fdopen(fd, "wb"), encoding="utf-8", newline="\n")

    def put(self, data: bytes, flush: bool) -> None:
        """Replaces the file whole, with the mode that it has: writes a new file beside it, and renames that."""
        with self.folder() as folder:
            try:
                mode = stat.S_IMODE(os.stat(self.base, dir_fd=folder.fd, follow_symlinks=False).st_mode) & 0o777
            except FileNotFoundError:
                mode = 0o666
            stage(self.base + _NEW_END, data, flush, folder.fd, mode)
            os.replace(self.base + _NEW_END, self.base, src_dir_fd=folder.fd, dst_dir_fd=folder.fd)
            if flush:
                folder.flush()

    def new(self) -> "File":
        """The new file beside it, which a killed run may have left."""
        return File(self.top, self.name + _NEW_END)

    def exists(self) -> bool:
        """Is there anything of that name?"""
        try:
            with self.folder() as folder:
                os.stat(self.base, dir_fd=folder.fd, follow_symlinks=False)
            return True
        except FileNotFoundError:
            return False

    def becomes(self, other: "File") -> None:
        """Takes the other's name and place."""
        with self.folder() as here, other.folder() as there:
            os.replace(self.base, other.base, src_dir_fd=here.fd, dst_dir_fd=there.fd)

    def remove(self) -> None:
        """Removes it if it exists and can be removed."""
        try:
            with self.folder() as folder:
                os.unlink(self.base, dir_fd=folder.fd)
        except OSError:
            pass


def lines(file: BinaryIO) -> Iterator[bytes]:
    """The lines of a file; a line longer than any of a report is split."""
    return iter(lambda: file.readline(LINE), b"")
