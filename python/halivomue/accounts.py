"""A shop's accounts: the tally, in cents, of what its shortened files cost; and the file that keeps them.

Every sum is made by the library's functions, none here.
"""

from __future__ import annotations

import contextlib
import hashlib
import os
import stat
import threading
from typing import Any, Iterator, Optional, Tuple, Type

from . import _library, files
from .answers import ACCOUNTS_SAVED, Shortening
from .filing import Failed, why

_LOCKED = os.O_WRONLY | os.O_CREAT | os.O_EXCL | os.O_NOFOLLOW | os.O_CLOEXEC
_READ = os.O_RDONLY | os.O_NOFOLLOW | os.O_NONBLOCK | os.O_CLOEXEC
#: What the name of a file's lock has after the file's own.
LOCK = b".lock"
#: Bytes that are read of a lock, to tell whose it is.
_HOLDER = 256
MAKES_IT = "`python3 -m halivomue accounts make FILE` makes one"


class DamagedAccounts(ValueError):
    """Bytes that aren't the saved form of accounts."""


class Accounts:
    """Accounts with a tally of 0. Any number of threads may use them: each call is one step. They can be pickled and
    copied; two are equal if their saved forms are."""

    __slots__ = ("_words", "_lock")
    __hash__ = None  # type: ignore[assignment]

    def __init__(self) -> None:
        self._words = _library.Words()
        self._lock = threading.Lock()

    @classmethod
    def load(cls, data: _library.Data) -> "Accounts":
        """The accounts of a saved form; raises `DamagedAccounts` for any other bytes."""
        made = cls()
        made.put_back(data)
        return made

    def __bytes__(self) -> bytes:
        """The saved form, 416 bytes."""
        with self._lock:
            return _library.saved(self._words)

    @property
    def tally(self) -> int:
        """The sum of the prices of the files that were shortened with these accounts, in cents."""
        with self._lock:
            return _library.tally(self._words)

    def shorten(self, data: _library.Data) -> Shortening:
        """As `halivomue.shorten`, and the price is added to the tally. A file that would bring the tally above
        9999999 cents is refused with 10. Where `Refused` is raised, the tally is as before."""
        with self._lock:
            return _library.shortened(data, self._words)

    def join(self, part: "Accounts") -> bool:
        """Adds the tally of accounts that another process worked on; if the sum would be above 9999999 cents,
        nothing is added and the answer is False."""
        words = _library.Words()
        with part._lock:
            words.bytes[:] = part._words.bytes
        with self._lock:
            return _library.joined(self._words, words)

    def put_back(self, saved: _library.Data) -> None:
        """Makes them as they were when they were saved; raises `DamagedAccounts` for any other bytes."""
        with self._lock:
            if not _library.loaded(self._words, saved):
                raise DamagedAccounts("not the saved form of accounts")

    def __eq__(self, other: object) -> bool:
        if not isinstance(other, Accounts):
            return NotImplemented
        return bytes(self) == bytes(other)

    def __repr__(self) -> str:
        return f"<Accounts with a tally of {self.tally} cents>"

    def __reduce__(self) -> Tuple[Any, ...]:
        return type(self).load, (bytes(self),)


def digest(saved: bytes) -> str:
    return hashlib.sha256(saved).hexdigest()


def damaged(path: str) -> Failed:
    return Failed(f"{path}: damaged: not the saved form of accounts")


def _opened(path: bytes) -> int:
    """A plain file, opened; raises OSError or `Failed`."""
    fd = os.open(path, _READ)
    if not stat.S_ISREG(os.fstat(fd).st_mode):
        os.close(fd)
        raise Failed(f"{os.fsdecode(path)}: not a plain file")
    return fd


def read_file(path: files.Path) -> Accounts:
    """The accounts that a file keeps; raises `Failed`."""
    name = os.fsdecode(path)
    try:
        with os.fdopen(_opened(os.fsencode(path)), "rb") as file:
            return Accounts.load(file.read(ACCOUNTS_SAVED + 1))
    except DamagedAccounts:
        raise damaged(name) from None
    except FileNotFoundError:
        raise Failed(f"{name}: there is no such file ({MAKES_IT})") from None
    except OSError as error:
        raise Failed(f"{name}: {why(error)}") from error


def make_file(path: files.Path) -> None:
    """Makes a file that keeps accounts with a tally of 0; raises `Failed`, also if there is anything of that name."""
    with _Lock(os.fsencode(path)):
        if os.path.lexists(path):
            raise Failed(f"{os.fsdecode(path)}: there is something of that name already")
        files.replace(path, bytes(Accounts()))


class _Lock:
    """A file's lock: another file beside it, that only one can make."""

    def __init__(self, path: bytes) -> None:
        self.path, self.lock = path, path + LOCK

    def __enter__(self) -> "_Lock":
        try:
            fd = os.open(self.lock, _LOCKED, 0o666)
        except FileExistsError:
            raise Failed(held(os.fsdecode(self.lock), self.holder())) from None
        except OSError as error:
            raise Failed(f"{os.fsdecode(self.lock)}: {why(error)}") from error
        with os.fdopen(fd, "wb") as file:
            file.write(b"process %d\n" % os.getpid())
        return self

    def holder(self) -> bytes:
        try:
            with os.fdopen(_opened(self.lock), "rb") as file:
                return file.read(_HOLDER)
        except (OSError, Failed):
            return b""

    def __exit__(self, *_: object) -> None:
        with contextlib.suppress(FileNotFoundError):
            os.unlink(self.lock)


def held(lock: str, holder: bytes) -> str:
    """What is said about a lock that somebody else holds."""
    whose = holder.decode("ascii", "replace").strip()
    whose = whose if whose.isprintable() else ""
    return f"{lock} is there{whose and f' ({whose})'}: somebody else works with these accounts, or was stopped and left it"


class AccountsFile:
    """A file that keeps accounts, for a script:

        with halivomue.AccountsFile("accounts") as accounts:
            short = accounts.shorten(data)

    While the block runs, the lock beside the file, with `.lock` after its name, keeps others out: a run, the program
    and other scripts. If the block ends without an exception, the file is replaced, whole and flushed; else it stays
    as it is. Raises `Failed`.
    """

    def __init__(self, path: files.Path) -> None:
        self.path = os.fsencode(path)

    @contextlib.contextmanager
    def locked(self) -> Iterator[Accounts]:
        """The accounts, while the lock is held; they are saved only by `save`."""
        with _Lock(self.path):
            yield read_file(self.path)

    def save(self, saved: bytes) -> None:
        """Replaces the file."""
        files.replace(self.path, saved)

    def __enter__(self) -> Accounts:
        with contextlib.ExitStack() as held_now:
            self._accounts = held_now.enter_context(self.locked())
            self._held = held_now.pop_all()
        return self._accounts

    def __exit__(self, kind: Optional[Type[BaseException]], *_: object) -> None:
        with self._held:
            if kind is None:
                self.save(bytes(self._accounts))
