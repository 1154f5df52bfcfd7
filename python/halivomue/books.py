"""The accounts that a run bills, and how each shortening is billed exactly once, wherever the run is killed.

The file of the accounts is replaced only at the end of a run. Until then the tally stands in the ledger, beside the
rows of the unfinished report: rows and tally are only ever believed together. The record says which run holds the
accounts, so that only the same run, taken up again, goes on with them.
"""

from __future__ import annotations

import contextlib
import errno
import json
import os
import secrets
from typing import List, NamedTuple, Optional, Tuple

from . import _library, files, names
from .accounts import LOCK, MAKES_IT, damaged, digest, held
from .answers import ACCOUNTS_SAVED
from .filing import Failed, File, Folder, stage, why

ACCOUNTS, LEDGER, RECORD = names.OWN + b"/accounts", names.OWN + b"/ledger", names.OWN + b"/run"
#: What the record says of accounts that are FILED's own.
_OWN = "own"
#: Bytes that are read of a lock and of a record.
_LOCK_MOST, _RECORD_MOST = 256, 1 << 17
#: Bytes of a number in the ledger, which stands there twice, the second time with each byte subtracted from 255.
_NUMBER = 8
_ENTRY = 2 * _NUMBER + ACCOUNTS_SAVED
#: Errors by which a file system says that it has no links.
_NO_LINKS = frozenset((errno.EPERM, errno.EOPNOTSUPP, errno.ENOSYS))


class Entry(NamedTuple):
    """What the ledger says: the tally after the rows in the first bytes of the part, as accounts in their saved form."""

    length: int
    saved: bytes


def _entry(data: bytes) -> Optional[Entry]:
    """An entry of the ledger; None if it is cut or damaged."""
    number, twice, saved = data[:_NUMBER], data[_NUMBER : 2 * _NUMBER], data[2 * _NUMBER :]
    if len(data) != _ENTRY or bytes(255 - byte for byte in number) != twice or not is_saved(saved):
        return None
    return Entry(int.from_bytes(number, "little"), saved)


def is_saved(data: bytes) -> bool:
    return _library.loaded(_library.Words(), data)


class Ledger:
    """A file with an entry for each chunk of rows that is in the part."""

    def __init__(self, file: File) -> None:
        self.file, self.fd = file, -1

    def create(self) -> None:
        with self.file.create() as new:
            self.fd = os.dup(new.fileno())

    def add(self, entry: Entry) -> None:
        number = entry.length.to_bytes(_NUMBER, "little")
        data = number + bytes(255 - byte for byte in number) + entry.saved
        done = os.write(self.fd, data)
        while done < len(data):
            done += os.write(self.fd, data[done:])

    def last(self, length: int) -> Optional[Entry]:
        """The last entry about rows in the first bytes of the part; what follows a damaged one isn't looked at."""
        found = None
        try:
            stream = self.file.open()
        except FileNotFoundError:
            return None
        with stream:
            while True:
                entry = _entry(stream.read(_ENTRY))
                if entry is None or entry.length > length:
                    return found
                found = entry

    def close(self, flush: bool = False) -> None:
        if self.fd >= 0:
            if flush:
                os.fsync(self.fd)
            os.close(self.fd)
            self.fd = -1


class Record(NamedTuple):
    """What a run records of itself: its id, the accounts that it bills, their saved form as it found them, and the
    digests that their file may have as long as the run isn't over."""

    id: str
    accounts: str
    found: str
    digests: Tuple[str, ...]


def _parsed(data: bytes) -> Optional[Record]:
    """The record of a file's bytes; None if they are none."""
    try:
        record = Record(**json.loads(data))
        good = is_saved(bytes.fromhex(record.found)) and all(isinstance(one, str) for one in (record.id, record.accounts, *record.digests))
        return record._replace(digests=tuple(record.digests)) if good and record.id.isalnum() else None
    except (TypeError, ValueError, AttributeError):
        return None


def _named(path: bytes, filed: Optional[Folder]) -> Tuple[str, File]:
    """The accounts that the user names, as the record has them, and their file; raises `Failed`."""
    shown = os.fsdecode(path)
    folder, base = os.path.realpath(os.path.dirname(path) or b"."), os.path.basename(path)
    if base in (b"", b".", b".."):
        raise Failed(f"{shown}: not a file's name")
    with contextlib.ExitStack() as opened:
        try:
            top = opened.enter_context(Folder.top(folder))
        except OSError as error:
            raise Failed(f"{shown}: {why(error)}") from error
        if filed is not None and files.within(folder, filed.path):
            if base == os.path.basename(ACCOUNTS) and filed.has(names.OWN, top):
                return _OWN, File(filed, ACCOUNTS)
            raise Failed(f"{shown}: it stands inside FILED, which holds what a run filed and nothing else")
        opened.pop_all()
    return names.quote(os.path.join(folder, base)), File(top, base)


class Books:
    """The accounts of a run between its start and its end."""

    def __init__(self, filed: Optional[Folder], given: Optional[bytes], flush: bool) -> None:
        self.filed, self.flush = filed, flush
        #: The accounts' file as the user names it.
        self.shown = self._own(ACCOUNTS).path if given is None else os.fsdecode(given)
        self.name, self.file = (_OWN, self._own(ACCOUNTS)) if given is None else _named(given, filed)
        self.record_file = self._own(RECORD)
        self.record: Optional[Record] = None

    def _own(self, name: bytes) -> File:
        return File(self.filed if self.filed is not None else Folder(b"FILED", -1), name)

    # The accounts' file

    def read(self) -> bytes:
        """The accounts as their file has them; raises FileNotFoundError, or `Failed` if they are damaged."""
        with self.file.open() as stream:
            data = stream.read(ACCOUNTS_SAVED + 1)
        if not is_saved(data):
            raise damaged(self.file.path)
        return data

    def _first(self, has_report: bool) -> Optional[bytes]:
        """The accounts as a run finds them that wasn't interrupted; None if they are to be made."""
        try:
            return self.read() if self.filed is not None or self.name != _OWN else None
        except FileNotFoundError:
            if self.name != _OWN:
                raise Failed(f"{self.file.path}: there is no such file ({MAKES_IT})") from None
        if has_report:
            raise Failed(
                f"{self.file.path} isn't there, and what is filed here was billed: a tally must not start again unnoticed "
                f"(name the accounts by --accounts FILE, or put the file back; {MAKES_IT})"
            )
        return None

    def _check_same(self, record: Record) -> None:
        """Raises `Failed` if the run that was interrupted bills other accounts."""
        if record.accounts != self.name:
            whose = "FILED's own accounts (no --accounts)" if record.accounts == _OWN else f"--accounts {record.accounts}"
            raise Failed(f"the run that was interrupted here bills {whose}: take it up with these")

    def _check(self, record: Record) -> None:
        """Raises `Failed` if the accounts aren't as the run left them."""
        try:
            now = self.read()
        except FileNotFoundError:
            now = b""
        if digest(now) not in record.digests:
            raise Failed(f"{self.file.path}: somebody else changed it since the run that was interrupted here began")

    # The record

    def _recorded(self) -> Optional[Record]:
        try:
            with self.record_file.open() as stream:
                data = stream.read(_RECORD_MOST)
        except FileNotFoundError:
            return None
        record = _parsed(data)
        if record is None:
            raise Failed(f"{self.record_file.path}: damaged: not what a run records of itself")
        return record

    def _write(self, record: Record) -> None:
        self.record_file.put((json.dumps(record._asdict()) + "\n").encode(), self.flush)
        self.record = record

    # The lock

    def _lock(self, record: Record) -> None:
        """Takes the lock beside the accounts, or takes it over from the same run; raises `Failed`."""
        lock, new = self._lock_files(self.file, record)
        text = f"run {record.id} process {os.getpid()}\n".encode()
        try:
            with new.folder() as folder:
                _put_once(folder, new.base, lock.base, text)
        except FileExistsError:
            holder = _holder(lock)
            if not _is_of(record, holder):
                raise Failed(held(lock.path, holder)) from None
        finally:
            new.remove()

    @staticmethod
    def _lock_files(file: File, record: Record) -> Tuple[File, File]:
        lock = File(file.top, file.name + LOCK)
        return lock, File(file.top, lock.name + b"." + record.id.encode() + b".new")

    def _forget(self, record: Record) -> None:
        """Takes away what a run that is over, or that did nothing yet, left beside what it filed."""
        self._own(LEDGER).remove()
        if record.accounts == self.name:
            self._unlock(self.file, record)
        elif record.accounts == _OWN:
            self._unlock(self._own(ACCOUNTS), record)
        else:
            with contextlib.suppress(Failed):
                other = _named(names.unquote(record.accounts), None)[1]
                with other.top:
                    self._unlock(other, record)
        self.record_file.remove()

    def _unlock(self, file: File, record: Record) -> None:
        lock, new = self._lock_files(file, record)
        new.remove()
        if _is_of(record, _holder(lock)):
            lock.remove()

    # A run's start and end

    def look(self, interrupted: bool, known: bool, has_report: bool) -> bytes:
        """The accounts as a run would find them, which changes nothing; raises `Failed` as `begin` does."""
        record = self._recorded() if self.filed is not None else None
        if record is not None and interrupted:
            self._check_same(record)
            self._check(record)
            return bytes.fromhex(record.found)
        self._check_known(interrupted, known)
        return self._first(has_report) or made()

    def _check_known(self, interrupted: bool, known: bool) -> None:
        if interrupted and known:
            raise Failed(f"{self.record_file.path} isn't there: without it the run that was interrupted can't be billed once")

    def begin(self, interrupted: bool, known: bool, has_report: bool) -> bytes:
        """Takes the accounts, as they were when the run first began; `interrupted` says whether it goes on now, and
        `known` whether its unfinished report is of this version. Raises `Failed`."""
        for file in (self.record_file, self._own(ACCOUNTS)):
            file.new().remove()
        record = self._recorded()
        if record is not None and not interrupted:
            self._forget(record)
            record = None
        if record is None:
            self._check_known(interrupted, known)
            return self._begin_new(self._first(has_report))
        self._check_same(record)
        self._lock(record)
        self._check(record)
        self.record = record
        return bytes.fromhex(record.found)

    def _begin_new(self, saved: Optional[bytes]) -> bytes:
        if saved is None:
            saved = made()
            self.file.put(saved, self.flush)
        record = Record(secrets.token_hex(8), self.name, saved.hex(), (digest(saved),))
        self._write(record)
        try:
            self._lock(record)
            self._check(record)
        except Failed:
            self._forget(record)
            raise
        return saved

    def save(self, saved: bytes) -> None:
        """Saves the accounts: first the record says that they may be found so, then their file is replaced."""
        if self.record is None:
            return
        self._check(self.record)
        digests: List[str] = list(dict.fromkeys((*self.record.digests, digest(saved))))
        self._write(self.record._replace(digests=tuple(digests)))
        self.file.put(saved, self.flush)

    def end(self) -> None:
        if self.record is not None:
            self._forget(self.record)
            self.record = None

    def close(self) -> None:
        if self.name != _OWN:
            self.file.top.close()


def made() -> bytes:
    """The saved form of accounts with a tally of 0."""
    return _library.saved(_library.Words())


def _is_of(record: Record, holder: bytes) -> bool:
    return holder.startswith(f"run {record.id} process ".encode())


def _holder(lock: File) -> bytes:
    try:
        with lock.open() as stream:
            return stream.read(_LOCK_MOST)
    except (OSError, Failed):
        return b""


def _put_once(folder: Folder, new: bytes, base: bytes, data: bytes) -> None:
    """Puts a whole file in place in one step; raises FileExistsError if there is one. Where there are no links it is
    made first and then written: killed in between, it has to be removed by hand."""
    stage(new, data, False, folder.fd, 0o666)
    try:
        os.link(new, base, src_dir_fd=folder.fd, dst_dir_fd=folder.fd, follow_symlinks=False)
    except OSError as error:
        if error.errno not in _NO_LINKS:
            raise
        fd = os.open(base, os.O_WRONLY | os.O_CREAT | os.O_EXCL | os.O_NOFOLLOW | os.O_CLOEXEC, 0o666, dir_fd=folder.fd)
        try:
            os.write(fd, data)
        finally:
            os.close(fd)
