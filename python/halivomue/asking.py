"""read, tidy, list and shorten as commands of the package: the program's answers, also in JSON, and
several files shortened at once."""

from __future__ import annotations

import json
import os
import stat
import sys
from typing import Any, Callable, Dict, List, NamedTuple, Optional, Sequence, Tuple

from . import _library, files, filing, names
from .accounts import LOCK, Accounts, AccountsFile, make_file, read_file
from .answers import LONGEST, Refused, Shortening
from .filing import Failed
from .procedure import Procedure

#: An answer as JSON has it, without the name.
Answer = Dict[str, Any]


class Asked(NamedTuple):
    """A command, whether reasons are given beside the numbers, and whether answers are in JSON."""

    command: str
    words: bool = False
    json: bool = False


class Input(NamedTuple):
    """A file that was read: its name as it is shown, its bytes (at most the first 65,537), its mode."""

    name: str
    data: bytes
    mode: int


def _read(name: str) -> Input:
    shown = names.shown(os.fsencode(name))
    if name == "-":
        return Input(shown, sys.stdin.buffer.read(LONGEST + 1), 0o666)
    with open(name, "rb") as file:
        mode = stat.S_IMODE(os.fstat(file.fileno()).st_mode) & 0o777
        return Input(shown, file.read(LONGEST + 1), mode)


def _refused(refused: Refused) -> Answer:
    return {"answer": "refused", "number": refused.number, "record": refused.record, "reason": refused.reason}


def _read_answer(data: bytes) -> Answer:
    answer = _library.read(data)
    return {"answer": "accepted"} if answer else _refused(Refused(answer.number, answer.record))


def _tidy_answer(data: bytes) -> Answer:
    answer = _library.tidy(data)
    if not answer.accepted:
        return _refused(Refused(answer.number, answer.record))
    if answer:
        return {"answer": "accepted", "tidy": True}
    return {"answer": "accepted", "tidy": False, "reg": answer.reg, "reason": answer.reason}


def _counts(short: Shortening) -> Answer:
    return {"answer": "accepted", "moved": short.moved, "grown": short.grown, "fresh": short.fresh, "rescued": short.rescued}


def _list_answer(data: bytes) -> Answer:
    """The numbers of document 01's listing: types of registers, start and end of blocks, and kind, op,
    statement and p1 to p6 of each instruction."""
    try:
        short = _library.shorten(data)
    except Refused as refused:
        return _refused(refused)
    of: Dict[str, List[Any]] = {"reg": [], "block": [], "code": []}
    for line in Procedure.parse(short.data).numeric().splitlines():
        kind, _, *numbers = line.split()
        of[kind].append([int(number) for number in numbers])
    return {**_counts(short), "registers": [kind for (kind,) in of["reg"]], "blocks": of["block"], "code": of["code"]}


_ANSWERS: Dict[str, Callable[[bytes], Answer]] = {"read": _read_answer, "tidy": _tidy_answer, "list": _list_answer}


def _listing(answer: Answer) -> str:
    lines = [f"reg {number} {kind}" for number, kind in enumerate(answer["registers"])]
    lines += [f"block {number} {start} {end}" for number, (start, end) in enumerate(answer["blocks"])]
    lines += [f"code {place} {' '.join(map(str, numbers))}" for place, numbers in enumerate(answer["code"])]
    return "".join("\n" + line for line in lines)


def text_of(answer: Answer, words: bool) -> str:
    """An answer as the program prints it, without the name."""
    why = f" ({answer['reason']})" if words and "reason" in answer else ""
    if answer["answer"] == "refused":
        return f"refused {answer['number']} {answer['record']}{why}"
    if answer["answer"] in ("unreadable", "failed"):
        return f"{answer['answer']}: {answer['reason']}"
    if "moved" in answer:
        counts = "moved {moved} grown {grown} fresh {fresh} rescued {rescued}".format(**answer)
        return counts + (_listing(answer) if "code" in answer else f" price {answer['price']}")
    if "tidy" in answer:
        return "yes" if answer["tidy"] else f"no {answer['reg']}{why}"
    return "accepted"


def _say(asked: Asked, name: Optional[str], answer: Answer) -> bool:
    """Prints an answer, after the name if there is one; was the file accepted?"""
    if asked.json:
        print(json.dumps({**({} if name is None else {"name": name}), **answer}, ensure_ascii=False), flush=True)
    else:
        print(("" if name is None else f"{name}: ") + text_of(answer, asked.words), flush=True)
    return bool(answer["answer"] == "accepted")


def ask(asked: Asked, given: Sequence[str]) -> int:
    """Answers for each file, or for standard input; returns 1 if one is refused or can't be read."""
    answer_of, good = _ANSWERS[asked.command], True
    bare = not given or asked.command == "list" and len(given) == 1
    for word in given or ["-"]:
        try:
            answer = answer_of(_read(word).data)
        except OSError as error:
            answer = {"answer": "unreadable", "reason": filing.why(error)}
        name = None if bare and (not given or not asked.json) else names.shown(os.fsencode(word))
        good = _say(asked, name, answer) and good
    return 0 if good else 1


def _outs(inputs: Sequence[str], out: str) -> List[str]:
    """Where each file's shortened form goes: to OUT, or into the folder OUT; raises `Failed`."""
    if not os.path.isdir(out):
        if len(inputs) > 1 or out.endswith("/"):
            raise Failed(f"{out}: several files are shortened into a folder, and this is none")
        return [out]
    bases = [os.path.basename(name) for name in inputs]
    for number, base in enumerate(bases):
        if base in bases[:number] or base in ("", "-"):
            raise Failed(f"{inputs[number]}: there is no name of its own for it in {out}")
    return [os.path.join(out, base) for base in bases]


class _Billed:
    """The accounts that shortening is billed to; none if no file of accounts is named."""

    def __init__(self, file: Optional[AccountsFile], accounts: Accounts) -> None:
        self.file, self.accounts = file, accounts

    def shorten(self, data: bytes, out: str, mode: int) -> Shortening:
        """Shortens and writes OUT. The accounts are saved when OUT's new file is written and before it takes the name,
        and if it can't take it they are put back."""
        before = bytes(self.accounts)
        saved = False

        def save() -> None:
            nonlocal saved
            if self.file is not None:
                self.file.save(bytes(self.accounts))
                saved = True

        try:
            short = self.accounts.shorten(data)
            files.replace(out, short.data, mode, save)
            return short
        except BaseException:
            self.accounts.put_back(before)
            if saved and self.file is not None:
                self.file.save(before)
            raise


def _shorten_one(name: str, out: str, billed: _Billed) -> Answer:
    try:
        read = _read(name)
        short = billed.shorten(read.data, out, read.mode)
        return {**_counts(short), "price": short.price, "out": names.shown(os.fsencode(out))}
    except Refused as refused:
        return _refused(refused)
    except OSError as error:
        return {"answer": "unreadable", "reason": filing.why(error)}
    except Failed as error:
        return {"answer": "failed", "reason": str(error)}


def _shorten_all(asked: Asked, given: Sequence[str], outs: Sequence[str], billed: _Billed) -> int:
    good = True
    for name, out in zip(given, outs):
        good = _say(asked, names.shown(os.fsencode(name)), _shorten_one(name, out, billed)) and good
    return 0 if good else 1


def shorten(asked: Asked, given: Sequence[str], accounts: Optional[str] = None) -> int:
    """Writes the shortened form of each IN, with its mode, to OUT or into the folder OUT, and adds their prices to the
    accounts of a file, if one is named; returns 1 if one is refused, or can't be read or written."""
    inputs = given[:-1]
    outs = _outs(inputs, given[-1])
    if accounts is None:
        return _shorten_all(asked, inputs, outs, _Billed(None, Accounts()))
    file = AccountsFile(accounts)
    for out in outs:
        if os.path.realpath(out) in (os.path.realpath(accounts), os.path.realpath(accounts) + os.fsdecode(LOCK)):
            raise Failed(f"{out}: the accounts are there: a shortened form would take their place")
    with file.locked() as now:
        return _shorten_all(asked, inputs, outs, _Billed(file, now))


def accounts(what: str, path: str) -> int:
    """Makes a file of accounts, or prints the tally of one."""
    if what == "make":
        make_file(path)
        print(f"{names.shown(os.fsencode(path))}: made", flush=True)
    else:
        print(f"tally {read_file(path).tally}", flush=True)
    return 0
