"""A procedure's control flow for graphviz's dot, as sent and as shortened, with what was done marked."""

from __future__ import annotations

import html
from typing import Dict, Iterator, List, NamedTuple, Sequence, Tuple

from . import roles
from .diff import Comparison
from .listing import block_title, brief
from .procedure import Instruction, Procedure

#: Colours of marked lines, and of the two arms.
COLOURS = {"copied": "#ffe3a3", "changed": "#cfe3ff", "rescued": "#c6efc9", "gone": "#f7dcd9", "": "#ffffff"}
_TAKEN, _ELSE, _PLAIN, _CASE = "#1b7f3b", "#b3372f", "#55606e", "#6b4fa0"
_LONGEST_LINE, _LONGEST_LABEL = 60, 24
#: How many arrows are drawn at most: two for each of 160 blocks.
MOST_ARROWS = 320


class Marks(NamedTuple):
    """What was done to a block: the mark of each line, and a word about the whole block if it was emptied."""

    lines: Tuple[str, ...]
    emptied: str = ""


class Arrow(NamedTuple):
    to: int
    label: str
    colour: str


def arrows(p: Procedure, block: Sequence[Instruction]) -> Iterator[Arrow]:
    """The blocks that a block can go to; arms of a Case that lead to one block are one arrow."""
    last = block[-1]
    if last.kind == "Br":
        yield Arrow(last.targets[0], "", _PLAIN)
    elif last.kind == "CondBr":
        yield Arrow(last.targets[0], "t", _TAKEN)
        yield Arrow(last.targets[1], "f", _ELSE)
    elif last.kind == "Case":
        table = p.tables[roles.number(last, "table")]
        labels: Dict[int, List[str]] = {}
        for arm in table.arms:
            labels.setdefault(arm.block, []).append(f"{arm.low}" if arm.low == arm.high else f"{arm.low}..{arm.high}")
        labels.setdefault(table.default, []).append("else")
        for to, texts in labels.items():
            label = ", ".join(texts)
            yield Arrow(to, label if len(label) <= _LONGEST_LABEL else f"{len(texts)} arms", _CASE)


def unmarked(p: Procedure) -> List[Marks]:
    return [Marks(("",) * len(block)) for block in p.blocks]


def count_arrows(p: Procedure) -> int:
    return sum(1 for block in p.blocks for _ in arrows(p, block))


def marks(c: Comparison) -> Tuple[List[Marks], List[Marks]]:
    """The marks of the blocks as sent and as shortened."""
    of_sent, of_short = [], []
    for block in c.blocks:
        # What an emptied block loses needs no colour; what is rescued from it does.
        left = {"rescued": "rescued", "gone": "" if block.emptied else "gone"}
        of_sent.append(Marks(tuple(left.get(row.mark, "") for row in block.rows if row.sent), "to be emptied" if block.emptied else ""))
        right = (row.mark if row.mark in COLOURS else "" for row in block.rows if row.short)
        of_short.append(Marks(tuple(right), "emptied" if block.emptied else ""))
    return of_sent, of_short


def _cell(p: Procedure, i: Instruction, mark: str, faint: bool) -> str:
    shown = brief(p, i)
    if len(shown) > _LONGEST_LINE:
        shown = shown[: _LONGEST_LINE - 3] + "..."
    colour = "#9aa3ad" if faint and not mark else "#1d2733"
    number = f'<FONT COLOR="#8a94a0">{i.statement:>4}</FONT>'
    return (
        f'<TR><TD ALIGN="LEFT" BGCOLOR="{COLOURS[mark]}">{number}  '
        f'<FONT COLOR="{colour}">{html.escape(shown)}</FONT></TD></TR>'
    )


def _node(p: Procedure, number: int, marked: Marks, faint: bool) -> str:
    title, colour, style = block_title(p, number), "#e8ecf1", "solid"
    if marked.emptied:
        title, style = f"{title}, {marked.emptied}", "dashed"
    elif "copied" in marked.lines:
        title, colour = title + ", with a copy", "#ffcf66"
    elif faint:
        title += ", not reached"
    lines = "".join(_cell(p, i, mark, faint) for i, mark in zip(p.blocks[number], marked.lines))
    border = "#9aa3ad" if faint else "#3b4754"
    return (
        f'b{number} [label=<<TABLE BORDER="1" CELLBORDER="0" CELLSPACING="0" CELLPADDING="2" COLOR="{border}" '
        f'STYLE="{style}" BGCOLOR="white"><TR><TD ALIGN="LEFT" BGCOLOR="{colour}"><B>{html.escape(title)}</B></TD></TR>'
        f"{lines}</TABLE>>];"
    )


def graph(p: Procedure, marked: Sequence[Marks]) -> str:
    """The control flow in dot's language."""
    there = roles.reached(p, [block[-1] for block in p.blocks])
    lines = [
        "digraph flow {",
        "graph [nodesep=0.35, ranksep=0.4, bgcolor=transparent, margin=0.05, nslimit=4, nslimit1=4];",
        'node [shape=plain, fontname="monospace", fontsize=10];',
        'edge [fontname="monospace", fontsize=10, arrowsize=0.7, penwidth=1.1];',
    ]
    lines += [_node(p, number, mark, number not in there) for number, mark in enumerate(marked)]
    for number, block in enumerate(p.blocks):
        for to, label, colour in arrows(p, block):
            style = ", style=dashed" if number not in there or label == "f" else ""
            lines.append(f'b{number} -> b{to} [label=" {label} ", color="{colour}", fontcolor="{colour}"{style}];')
    return "\n".join([*lines, "}"]) + "\n"


def graphs(c: Comparison) -> Tuple[str, str]:
    """Both control flows in dot's language."""
    of_sent, of_short = marks(c)
    return graph(c.sent, of_sent), graph(c.short, of_short)
