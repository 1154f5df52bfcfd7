"""The shared object and its functions.

The shared object is libhalivomue.so beside this file; HALIVOMUE_LIBRARY names another. ctypes releases
the interpreter's lock during a call. The functions keep nothing between calls and write only to the
buffer that they are given, so several threads may call them at once.
"""

from __future__ import annotations

import ctypes
import mmap
import os
import threading
from typing import Any, List, Optional, Tuple, Union

from .answers import ACCOUNTS_SAVED, CEILING, LONGEST, ROOM, Reading, Refused, Shortening, Tidiness, is_by_addr_of, tidiness

#: The types in which a file's bytes may be passed.
Data = Union[bytes, bytearray, memoryview, mmap.mmap]

#: The version of the package, and of the library that it needs.
VERSION = "0.6"

_NAME = "libhalivomue.so"


class LibraryError(RuntimeError):
    """The shared object isn't there, can't be loaded, is of another version, or lacks a function."""


def _members(names: str) -> List[Tuple[str, Any]]:
    """The members of a struct of the header, by their names: all are uint32_t, but length is a size_t."""
    return [(name, ctypes.c_size_t if name == "length" else ctypes.c_uint32) for name in names.split()]


class _Reading(ctypes.Structure):
    _fields_ = _members("number record")


class _Tidiness(ctypes.Structure):
    _fields_ = _members("number record tidy reg")


class _Billing(ctypes.Structure):
    _fields_ = _members("number record length moved grown fresh rescued price")


class _BilledProvisioning(ctypes.Structure):
    _fields_ = _members("number record tidy reg length moved grown fresh rescued price")


#: struct halivomue_accounts.
_Words = ctypes.c_uint32 * 128


class _Buffer(ctypes.Structure):
    """Python's Py_buffer, as it has been since 3.3."""

    _fields_ = [
        ("buf", ctypes.c_void_p),
        ("obj", ctypes.py_object),
        ("len", ctypes.c_ssize_t),
        ("itemsize", ctypes.c_ssize_t),
        ("readonly", ctypes.c_int),
        ("ndim", ctypes.c_int),
        ("format", ctypes.c_char_p),
        ("shape", ctypes.c_void_p),
        ("strides", ctypes.c_void_p),
        ("suboffsets", ctypes.c_void_p),
        ("internal", ctypes.c_void_p),
    ]


_get_buffer = ctypes.pythonapi.PyObject_GetBuffer
_get_buffer.argtypes = [ctypes.py_object, ctypes.POINTER(_Buffer), ctypes.c_int]
_get_buffer.restype = ctypes.c_int
_release_buffer = ctypes.pythonapi.PyBuffer_Release
_release_buffer.argtypes = [ctypes.POINTER(_Buffer)]
_release_buffer.restype = None


def path() -> str:
    """Where the shared object is looked for."""
    return os.environ.get("HALIVOMUE_LIBRARY") or os.path.join(os.path.dirname(os.path.abspath(__file__)), _NAME)


def _version_of(library: ctypes.CDLL) -> str:
    """The version that a library says it has."""
    try:
        version = library.halivomue_version
    except AttributeError:
        return "0.3 or earlier"
    version.argtypes, version.restype = [], ctypes.c_uint32
    major, minor = divmod(version(), 65_536)
    return f"{major}.{minor}"


class _Functions:
    """The C functions, looked up once."""

    def __init__(self) -> None:
        where = path()
        try:
            library = ctypes.CDLL(where)
            found = _version_of(library)
            if found != VERSION:
                raise LibraryError(f"{where} is of version {found}, and the package of {VERSION} (python/build makes {_NAME} anew)")
            address, size, number = ctypes.c_void_p, ctypes.c_size_t, ctypes.c_uint32
            file, room = (address, size), (address, size)
            self.read = self._function(library, "read", _Reading, *file)
            self.tidy = self._function(library, "tidy", _Tidiness, *file)
            self.shorten_for = self._function(library, "shorten_for", _Billing, address, *file, *room)
            self.provision_for = self._function(library, "provision_for", _BilledProvisioning, address, *file, *room)
            self.make = self._function(library, "accounts_make", None, address)
            self.tally = self._function(library, "tally", number, address)
            self.save = self._function(library, "accounts_save", None, address, address)
            self.load = self._function(library, "accounts_load", number, address, *file)
            self.join = self._function(library, "accounts_join", number, address, address)
            made = _Words()
            self.make(ctypes.addressof(made))
            #: Accounts with a tally of 0.
            self.made = bytes(made)
        except (OSError, AttributeError) as error:
            raise LibraryError(f"{error} (python/build makes {_NAME})") from None

    @staticmethod
    def _function(library: ctypes.CDLL, name: str, answer: Any, *arguments: Any) -> Any:
        function = getattr(library, "halivomue_" + name)
        function.argtypes = arguments
        function.restype = answer
        return function


_functions_lock = threading.Lock()
_functions: Optional[_Functions] = None


def functions() -> _Functions:
    """The C functions; the shared object is loaded when they are first needed."""
    global _functions
    if _functions is None:
        with _functions_lock:
            if _functions is None:
                _functions = _Functions()
    return _functions


def _call(function: Any, accounts: Tuple[int, ...], data: Data, *out: Any) -> Any:
    """What the function returns for the bytes of `data`, which are not copied."""
    if type(data) is bytes:
        return function(*accounts, data, len(data), *out)
    if not isinstance(data, (bytes, bytearray, memoryview, mmap.mmap)):
        raise TypeError(f"bytes, bytearray, memoryview or mmap expected, not {type(data).__name__}")
    if isinstance(data, memoryview) and not data.c_contiguous:
        raise TypeError("a memoryview of bytes that stand one after the other expected")
    view = _Buffer()
    _get_buffer(data, ctypes.byref(view), 0)
    try:
        return function(*accounts, view.buf, view.len, *out)
    finally:
        _release_buffer(ctypes.byref(view))


class Words:
    """The words of accounts, for the C functions: their address, and `bytes`, which can be kept and put back."""

    __slots__ = ("_words", "address", "bytes")

    def __init__(self) -> None:
        self._words = _Words()
        self.address = ctypes.addressof(self._words)
        self.bytes = memoryview(self._words).cast("B")
        self.bytes[:] = functions().made


class _Room:
    """An output buffer, and accounts for a file that is billed to nobody."""

    def __init__(self) -> None:
        buffer = (ctypes.c_char * ROOM)()
        self.address = ctypes.addressof(buffer)
        self.bytes = memoryview(buffer).cast("B")
        self.words = Words()


class _Rooms(threading.local):
    """Output buffers of a thread that aren't in use."""

    def __init__(self) -> None:
        self.free: List[_Room] = []


_rooms = _Rooms()


def read(data: Data) -> Reading:
    """Is this a valid procedure? Any bytes may be given; a refusal is an answer."""
    answer = _call(functions().read, (), data)
    return Reading(answer.number, answer.record)


def tidy(data: Data) -> Tidiness:
    """Is this procedure tidy, so that its shortened form is promised to do what it does?"""
    answer = _call(functions().tidy, (), data)
    untidy = answer.number == 0 and answer.tidy == 0
    by_addr_of = untidy and is_by_addr_of(memoryview(data).cast("B"), answer.reg)
    return tidiness(answer.number, answer.record, answer.tidy == 1, answer.reg, by_addr_of)


def _written(function: Any, words: Optional[Words], data: Data) -> Tuple[Any, bytes]:
    """What a function returns that shortens and bills, and the bytes that it writes; without accounts, the file
    is billed to nobody."""
    free = _rooms.free
    room = free.pop() if free else _Room()
    try:
        address = room.words.address if words is None else words.address
        if type(data) is bytes:
            answer = function(address, data, len(data), room.address, ROOM)
        else:
            answer = _call(function, (address,), data, room.address, ROOM)
        if answer.number == CEILING and words is None:
            # These accounts are full. They are nobody's, so they are made anew.
            room.words = Words()
            answer = _call(function, (room.words.address,), data, room.address, ROOM)
        return answer, room.bytes[: answer.length].tobytes()
    finally:
        free.append(room)


def provisioned(data: Data, words: Optional[Words] = None) -> Tuple[Any, bytes]:
    """The C answer of both Tidy and Shorten, and the bytes written; none if Shorten refuses. The price is added to
    the accounts, if some are given."""
    return _written((_functions or functions()).provision_for, words, data)


def shortened(data: Data, words: Optional[Words] = None) -> Shortening:
    """The procedure with its branches shortened, and the counts; raises `Refused`. The price is added to the
    accounts, if some are given."""
    answer, short = _written((_functions or functions()).shorten_for, words, data)
    if answer.number:
        raise Refused(answer.number, answer.record)
    return Shortening(short, answer.moved, answer.grown, answer.fresh, answer.rescued, answer.price)


def shorten(data: Data) -> Shortening:
    """The procedure with its branches shortened, the counts and the price, which is added to no accounts; raises
    `Refused`."""
    return shortened(data)


def tally(words: Words) -> int:
    """The tally of accounts, in cents."""
    return int(functions().tally(words.address))


def saved(words: Words) -> bytes:
    """The saved form of accounts."""
    form = ctypes.create_string_buffer(ACCOUNTS_SAVED)
    functions().save(words.address, ctypes.addressof(form))
    return form.raw


def loaded(words: Words, data: Data) -> bool:
    """Loads accounts from their saved form; if that is damaged, nothing is changed."""
    return bool(_call(functions().load, (words.address,), data) == 1)


def joined(words: Words, part: Words) -> bool:
    """Adds the tally of a part; if the sum would pass the ceiling, nothing is changed."""
    return bool(functions().join(words.address, part.address) == 1)


__all__ = ["Data", "LONGEST", "LibraryError", "VERSION", "functions", "path", "provisioned", "read", "shorten", "tidy"]
