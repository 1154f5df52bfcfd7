#!/usr/bin/env python3
"""Makes the stored runs of the machine: procedures, starts, address rules and outsides.

    tests/machine/make.py [--check]

Writes runs.txt, whose form README.md describes, or holds it to what would be written. What a run
does isn't stored. The drawn procedures come from the generator of tests/reference, which has to be
built.
"""

import itertools
import os
import struct
import subprocess
import sys

from draft import *  # noqa: F403

HERE = os.path.dirname(os.path.abspath(__file__))
REFERENCE = os.path.join(os.path.dirname(os.path.dirname(HERE)), "build", "reference", "release", "reference")
RUNS = os.path.join(HERE, "runs.txt")
ADDRESSES = [[1_000_003, 10_007, 101, 5_000_000_000], [2**63, 2**40 + 1, 2**33 + 5, WORD - 1]]


def run(name, records, words, outside, address=ADDRESSES[0], limit=60):
    return name, records, words, address, outside, limit


def pairs_of_edges():
    """Cmp and Bool on all pairs of edge words, from the start or by Consts; an act shows all results."""
    for kind, op in [(CMP, op) for op in range(6)] + [(BOOL, op) for op in range(4)]:
        tests = [[kind, op, 5 + 5 * a + b, a, b] for a in range(5) for b in range(5)]
        consts = [const(r, v) for r, v in enumerate(EDGES)] if op % 2 else []
        blocks = [consts + tests + [[CALL_NATIVE, 0, 3, 0, 25], [RET, 0]]]
        start = plain_words(30) if consts else EDGES + plain_words(25)
        yield run(f"edges-{kind}-{op}", file(30, blocks, range(5, 30)), start, listed([]))


def choices():
    """Select and CondBr on each edge word and two more."""
    values = EDGES + [2, 2**32]
    told = [i for c in range(7) for i in ([SELECT, 0, 9, c, 7, 8], [STORE, 2, 9, 9])]
    yield run("select", file(10, [told + [[RET, 1, 9]]]), values + [77, 88, 99], listed(*[[]] * 7))
    blocks = []
    for c in range(7):
        at = 3 * c
        blocks += [[[COND_BR, 0, c, at + 1, at + 2]], [[STMT, 0], [BR, 0, at + 3]], [[STMT, 0], [BR, 0, at + 3]]]
    yield run("condbr", file(7, blocks + [[[RET, 1, 3]]]), values, listed(*[[]] * 7))


SORTS = {
    "one": (5, 5),
    "negative": (-9, -4),
    "across": (-3, 4),
    "positive": (3, 8),
    "least": (-2**63, -2**63 + 6),
    "greatest": (2**63 - 7, 2**63 - 1),
    "all": (-2**63, 2**63 - 1),
    "none": (6, 2),
}


def arms():
    """A table of one arm and a default; values around the arm, and the edge words."""
    for sort, (low, high) in SORTS.items():
        values = [low - 1, low, low + 1, (low + high) // 2, high - 1, high, high + 1]
        values = [v % WORD for v in values if -2**63 <= v < 2**63]
        values += EDGES if sort in ("across", "all", "none") else []
        blocks = [[[CASE, 0, 0, 0]], [[STMT, 0], [RET, 1, 0]], [[UNREACHABLE, 0, 7]]]
        records = file(1, blocks, (), [arm(0, low, high, 1), default(0, 2)])
        for v in dict.fromkeys(values):
            yield run(f"arm-{sort}-{v}", records, [v], listed([]))


def tables():
    """A default alone, arms that overlap, arms that hold nothing, later tables."""
    ends = [[[STMT, 0], [UNREACHABLE, 0, k]] for k in range(5)]
    rows = [default(0, 5)]
    rows += [arm(1, 0, 10, 1), arm(1, 5, 20, 2), arm(1, -2**63, 2**63 - 1, 3), default(1, 4)]
    rows += [arm(2, -5, 5, 2), arm(2, -5, 5, 1), arm(2, 9, 3, 4), arm(2, 7, 7, 3), default(2, 5)]
    for table, v in itertools.product(range(3), [-6, -5, 0, 4, 5, 7, 10, 11, 20, 21]):
        records = file(1, [[[CASE, 0, 0, table]], *ends], (), rows)
        yield run(f"table-{table}-{v % WORD}", records, [v % WORD], listed([]))


# Kind, ops and places of each act.
ACTS = [
    (BIN, 7, [0, 1, 2]),
    (BIN_RANGE, 7, [0, 1, 2, 3, 4, MOST]),
    (LOAD, 4, [0, 1]),
    (STORE, 4, [0, 1]),
    (CHECK, 5, [0, 1, 2, MOST]),
    (MAKE_DOPE, 1, [0, 1, 3]),
    (DOPE_LEN, 1, [0, 1, 255]),
    (BOUNDS_LEN, 1, [0, 1, 2, 3]),
    (ALLOC, 1, [0, 1]),
    (TAKE_BOUNDS, 1, [0, 1, 2]),
    (CALL_NATIVE, 1, [MOST, 1, 3]),
    (CALL_NATIVE, 2, [MOST, 1, 3, 0]),
    (STMT, 1, []),
]
ANSWERS = [[], [31], [31, 32, 33], [31, 32, 33, 34, 35], None]


def acts():
    """Each act, answered with few and many values and with the end; a second act shows all registers."""
    for kind, ops, places in ACTS:
        # a CallNative with dst is op 1
        for op in range(len(places) == 4 and kind == CALL_NATIVE, ops):
            for k, answer in enumerate(ANSWERS):
                blocks = [[[kind, op, *places], [CALL_NATIVE, 0, 1, 0, 6], [RET, 1, 0]]]
                first = MOST - 2 if k == 3 else 40 * k
                records = file([0, 1, 2, 3, 4, 0], blocks, range(6), first=first)
                yield run(f"act-{kind}-{op}-{k}", records, plain_words(6), listed(answer, []))


def lists():
    """Lists of no, one and more operands, from the start, the middle and the end, a register twice."""
    operands = [3, 1, 1, 0, 2]
    for start, length in [(0, 0), (5, 0), (0, 1), (4, 1), (1, 3), (0, 5), (2, 3), (3, 0)]:
        calls = [[MAKE_DOPE, 0, 2, start, length], [CALL_NATIVE, 0, 9, start, length]]
        calls += [[CALL_NATIVE, 1, 9, start, length, 1], [CALL_NATIVE, 0, 8, start, length], [RET, 1, 1]]
        records = file(4, [calls], operands)
        yield run(f"list-{start}-{length}", records, plain_words(4), listed([], [5], [6], []))
    calls = [[MAKE_DOPE, 0, 0, 0, 0], [CALL_NATIVE, 1, 0, 0, 0, 0], [CALL_NATIVE, 0, 0, 0, 0], [RET, 1, 0]]
    yield run("list-none", file(1, [calls]), [4], listed([], [3], [2, 1]))


def alike():
    """TakeBounds into one register twice or three times, and instructions that read what they write."""
    for a, b, c in [(0, 0, 1), (0, 1, 0), (1, 0, 0), (2, 2, 2), (1, 2, 3)]:
        for values in [], [11], [11, 12], [11, 12, 13]:
            records = file(4, [[[TAKE_BOUNDS, 0, a, b, c], [CALL_NATIVE, 0, 0, 0, 4], [RET, 1, b]]], range(4))
            yield run(f"bounds-{a}{b}{c}-{len(values)}", records, plain_words(4), listed(values, []))
    own = [[MOVE, 0, 0, 0], [SELECT, 0, 1, 1, 1, 0], [CMP, 3, 2, 2, 2], [BOOL, 3, 3, 3, 3], [BIN, 2, 0, 0, 0]]
    own += [[BOUNDS_LEN, 0, 1, 1, 1, 1], [LOAD, 3, 2, 2], [ALLOC, 0, 3, 3], [CALL_NATIVE, 1, 6, 0, 2, 0]]
    records = file(4, [own + [[STORE, 1, 0, 0], [UNREACHABLE, 0, MOST]]], [0, 0])
    yield run("own", records, plain_words(4), listed([5], [6, 7], [], [8], [9, 9], []))


REALS = [0x7FF8000000000000, 0x7FF0000000000001, 0xFFF8000000000123, 2**63, 0, 0x7FF0000000000000, 5]
REALS += [0x3FF0000000000000, WORD - 1, 0xFFF0000000000000, 0x000FFFFFFFFFFFFF, 0x7FEFFFFFFFFFFFFF]
# Space, number, off.
SPACES = [[0, 0, 3], [0, 0, MOST], [1, 255, MOST], [1, 0, 0], [2, 0, MOST], [3, MOST, 0], [3, 1, MOST]]
SPACES += [[4, MOST, MOST], [4, 0, 1], [5, 0, 9], [5, 0, MOST]]
FIXED = {
    "const": [const(r, v) for r, v in enumerate(EDGES + [MOST + 2**32 * 7])],
    "constf": [const(r, v, CONST_F) for r, v in enumerate(REALS)],
    "addrof": [[ADDR_OF, space, r, number, off] for r, (space, number, off) in enumerate(SPACES)],
}


def constants():
    """Single constants: read before they are written, or never written; and constants that are written again."""
    for name, writes in FIXED.items():
        n = len(writes)
        tell = [[CALL_NATIVE, 0, 1, 0, n]]
        loads = [[LOAD, 2, r, 0] for r in range(n)]
        shapes = {
            "first": [tell + [[BR, 0, 1]], writes + tell + [[RET, 1, 0]]],
            "not-run": [tell + [[RET, 1, n - 1]], writes + [[UNREACHABLE, 0, 0]]],
            "twice": [tell + [[BR, 0, 1]], writes + writes[::-1] + tell + [[RET, 0]]],
            "by-others": [tell + [[BR, 0, 1]], writes + tell + loads + tell + [[RET, 0]]],
        }
        outside = listed([], [], *[[60 + r] for r in range(n)], [])
        for (shape, blocks), address in itertools.product(shapes.items(), ADDRESSES[:1 + (name == "addrof")]):
            records = file(n, blocks, range(n))
            label = f"{name}-{shape}-{ADDRESSES.index(address)}"
            yield run(label, records, plain_words(n), outside, address)


def other_writes():
    """Registers that another kind writes, alone or beside a Const, ConstF or AddrOf, before it or after: not loaded."""
    writes = [[MOVE, 0, 0, 9], [SELECT, 0, 1, 9, 9, 9], [CMP, 0, 2, 9, 9], [BOOL, 0, 3, 9, 9], [BIN, 0, 4, 9, 9]]
    writes += [[TAKE_BOUNDS, 0, 5, 6, 7], [CALL_NATIVE, 1, 2, 0, 0, 8]]
    beside = {"alone": [], "const": [const(r, 5) for r in range(9)]}
    beside["constf"] = [const(r, 5, CONST_F) for r in range(9)]
    beside["addrof"] = [[ADDR_OF, 1, r, 5, 5] for r in range(9)]
    tell = [[CALL_NATIVE, 0, 1, 0, 10]]
    outside = listed([], [61], [62, 63, 64], [65], [], [])
    for name, more in beside.items():
        after = [tell + [[BR, 0, 1]], writes + tell + [[BR, 0, 2]], more + tell + [[RET, 1, 5]]]
        before = [tell + [[BR, 0, 2]], more + tell + [[RET, 1, 5]], writes + tell + [[BR, 0, 1]]]
        for k, blocks in enumerate([after, before]):
            yield run(f"written-{name}-{k}", file(10, blocks, range(10)), plain_words(10), outside)


def entries():
    """Into block 0 by each kind of branch, until the outside's values lead elsewhere or it ends the run."""
    again = [[LOAD, 2, 0, 1]]
    rows = [arm(0, 1, 3, 0), arm(0, 4, 4, 1), default(0, 2), arm(1, 7, 9, 1), default(1, 0)]
    rest = [[[RET, 1, 0]], [[STMT, 0], [UNREACHABLE, 0, 1]]]
    ways = {
        "condbr-t": [again + [[COND_BR, 0, 0, 0, 1]], *rest],
        "condbr-f": [again + [[COND_BR, 0, 0, 1, 0]], *rest],
        "condbr-both": [[[COND_BR, 0, 0, 0, 0]], *rest],
        "br": [again + [[COND_BR, 0, 0, 1, 2]], [[BR, 0, 0]], [[RET, 1, 1]]],
        "br-lone": [[[BR, 0, 0]], *rest],
        "br-elsewhere": [again + [[BR, 0, 1]], [[STMT, 0], [BR, 0, 1]], [[RET, 0]]],
        "case-arm": [again + [[CASE, 0, 0, 0]], *rest],
        "case-default": [again + [[CASE, 0, 0, 1]], *rest],
    }
    answers = [[[1], [2], [3], [0]], [[0], [0], [7]], [[4], [1]], [[1], [1], None], [[2], [8], [1], [5]], [None]]
    for (name, blocks), (k, given) in itertools.product(ways.items(), enumerate(answers)):
        records = file(2, blocks, (), rows, body=k if k < 3 else None)
        yield run(f"entry-{name}-{k}", records, [5, 6], listed(*given), limit=12)


ENDS = {"ret": [RET, 0], "ret-value": [RET, 1, 0], "unreachable": [UNREACHABLE, 0, 0], "number": [UNREACHABLE, 0, MOST]}


def endings():
    """Ret and Unreachable, at once and later, at the least and the greatest statement, and ended before them."""
    for (name, end), first in itertools.product(ENDS.items(), [0, MOST]):
        later = file(1, [[[STMT, 0], [BR, 0, 1]], [end]], first=first and MOST - 2)
        yield run(f"end-{name}-{first}", file(1, [[end]], first=first), [WORD - 1], listed())
        yield run(f"end-{name}-{first}-later", later, [7], listed([]))
        yield run(f"end-{name}-{first}-stopped", later, [7], listed(None))


FAMILIES = {"kinds": 80, "tidy-acts": 60, "tidy-process": 20, "small": 12, "known": 8, "chains": 5}


def generated(family, wanted):
    """The first short files of a family: seed and bytes."""
    asked = [REFERENCE, "generate", family, "1", str(5 * wanted)]
    out = subprocess.run(asked, check=True, capture_output=True).stdout
    at = 0
    for seed in range(1, 5 * wanted + 1):
        length = struct.unpack_from("<I", out, at)[0]
        at += 8 + length
        if length <= 40 * 32:
            yield seed, out[at - length:at]


def from_generator():
    """Files of the generator; words and addresses follow from the name, the outside from the seed."""
    for family, wanted in FAMILIES.items():
        for seed, data in itertools.islice(generated(family, wanted), wanted):
            records = [list(r) for r in struct.iter_unpack("<BBBxI6I", data)]
            name = f"{family}-{seed}"
            words = words_from(name, sum(r[0] == 1 for r in records))
            outside = drawn(seed, [8, 30, 1000][seed % 3])
            yield run(name, records, words, outside, words_from(name + " address", 4), limit=40)


MAKERS = [pairs_of_edges, choices, arms, tables, acts, lists, alike, constants, other_writes, entries, endings]


def main(words):
    text = text_of(made for make in [*MAKERS, from_generator] for made in make())
    if words != ["--check"]:
        with open(RUNS, "w") as out:
            out.write(text)
        return
    with open(RUNS) as stored:
        if stored.read() != text:
            sys.exit("machine: runs.txt isn't what make.py writes")


if __name__ == "__main__":
    main(sys.argv[1:])
