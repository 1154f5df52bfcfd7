"""Procedures and outsides under construction, and their text."""

import hashlib
import itertools

CONST, CONST_F, MOVE, ADDR_OF, SELECT, CMP, BOOL, BIN, BIN_RANGE, LOAD, STORE, CHECK = range(12)
MAKE_DOPE, DOPE_LEN, BOUNDS_LEN, ALLOC, TAKE_BOUNDS, CALL_NATIVE = range(12, 18)
BR, COND_BR, CASE, RET, UNREACHABLE, STMT = range(18, 24)

WORD, MOST = 2**64, 2**32 - 1
LEAST, GREATEST = 2**63, 2**63 - 1  # as signed words
EDGES = [0, 1, GREATEST, LEAST, WORD - 1]


def wide(v):
    return [v % 2**32, v % WORD // 2**32]


def const(dst, v, kind=CONST):
    return [kind, 0, dst, *wide(v)]


def arm(table, low, high, target):
    return [6, 0, 0, 0, table, *wide(low), *wide(high), target]


def default(table, target):
    return [6, 1, 0, 0, table, 0, 0, 0, 0, target]


def file(registers, blocks, operands=(), arms=(), body=None, first=10):
    """The records of a procedure. `registers` is a number of I64, or the kinds; an instruction is
    kind, op, p1 and so on, with statements from `first` on."""
    kinds = [0] * registers if isinstance(registers, int) else registers
    records = [[1, kind] for kind in kinds]
    at = 0
    for block in blocks:
        records.append([2, 0, 0, 0, at, at + len(block)])
        at += len(block)
    records += [] if body is None else [[3, 0, 0, 0, body]]
    records += [[4, i[0], i[1], s, *i[2:]] for s, i in enumerate(itertools.chain(*blocks), first)]
    return records + [[5, 0, 0, 0, r] for r in operands] + list(arms)


def plain_words(n):
    """All different, and none that a constant of these procedures has."""
    return [1000 + r for r in range(n)]


def words_from(name, n):
    """Words that depend on the name alone, most of them small or at an edge."""
    choice = [0, 0, 0, 1, 1, 2, 3, 7, GREATEST, LEAST, WORD - 1, 2**32]
    digests = (hashlib.sha256(f"{name} {k}".encode()).digest() for k in range(n))
    return [(choice + [int.from_bytes(d[8:16], "little")])[d[0] % (len(choice) + 1)] for d in digests]


def listed(*answers):
    """An answer for each act, in order; None ends the run."""
    told = ["end" if a is None else " ".join(map(str, a)) or "-" for a in answers]
    return "listed " + "/".join(told)


def drawn(seed, patience):
    return f"drawn {seed} {patience} 0 0 1 1 2 {GREATEST} {LEAST} {WORD - 1}"


def trimmed(record):
    last = max(k for k, n in enumerate(record) if n)
    return " ".join(map(str, record[:last + 1]))


def text_of(runs):
    lines = ["# Made by make.py."]
    for name, records, words, address, outside, limit in runs:
        lines += ["", f"run {name}", "file " + "/".join(map(trimmed, records))]
        lines += ["words " + " ".join(map(str, words)), "address " + " ".join(map(str, address))]
        lines += [f"outside {outside}", f"limit {limit}"]
    return "\n".join(lines) + "\n"
