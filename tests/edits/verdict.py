"""What a refused check says: the fact that isn't proved any more, or only that a proof file no longer fits the code.

The toolchain names a goal, and a fact known there, after the code: where an edit changes 756 to 757, the answer to
`returns-then-code-gt756` is an answer to nothing. `refitted` lets a proof file follow such names, so that what is left is a fact."""

import difflib
import glob
import os
import re

ERROR = re.compile(r"(?:note: )?(?:\./)?((?:src|specs|proofs)/[^:\s]+):(\d+):\d+: (?:error(?:\[[^\]]*\])?: )(.*)")
LOST = re.compile(r"^(fn \S+: no proof: (?!it calls|expected a measure)(?:.* in (?:\./)?(proofs/[^\s;]+))?.*)", re.M)
# The toolchain has found values that break the goal.
FALSE = re.compile(r"^note: ((?:\./)?src/\S+:\d+:\d+: it is not proved that .*; the facts known there allow.*)", re.M)
# A sum, a difference or an index that no proof file answers for: the toolchain's own search found it safe before.
UNSAFE = re.compile(r"^note: ((?:\./)?src/\S+:\d+:\d+: it is not proved that .*\(`(?:overflow|bounds|slice_bounds|offset_bounds|nonzero)_?[^`]*`\).*)", re.M)
# An error that is only a consequence of another.
FOLLOWS = re.compile(r"was not admitted|Mend `[^`]*` first")
# Signs that the text of a proof, a definition or a contract no longer fits, whatever holds.
UNFIT = re.compile(
    "that can be named from here|is not in scope|has no field `|is applied to an argument but has type|expected a type, but|has no clause for"
    "|no clause covers|this clause follows the signature|this pattern's constructor belongs to|this line starts at column|is not admitted: has-holes"
    "|exports no `|has no `|is in a cycle of calls|has no function `|is no name|operand is missing|expected the end|cannot continue"
)
# The last of these: a law about any two equal things is given something that isn't an equation, as when `==` became `<=`.
UNFIT_BELOW = re.compile(
    r"expected type `[^`]*\bGoals\.[^`]*`, but this has type|explicit arguments? (?:more|fewer|less) than"
    r"|expected type `(?:(?:\S*\.)?◌≡◌ (?:\{[^{}]*\} )*\(\?[^()]*\) \(\?[^()]*\)|\?\S+ ≡ \?\S+)`"
)
# A name that is gone, and those that are there in its place.
GONE = re.compile(r"has no (?:field )?`([^`]+)`(?: that can be named from here)?(.*)")
ASKED = re.compile(r"^help: `Goals` has no `([^`]+)`; rattle asks for (.*?)(?:; a `use` line|$)", re.M)
LEAST = 0.6  # how alike a name has to be to follow


def errors(log):
    """The errors of a log that don't follow from another: file, line, and what is said, with the indented lines below it."""
    lines = log.split("\n")
    for at, line in enumerate(lines):
        found = ERROR.match(line)
        if not found or FOLLOWS.search(found.group(3)):
            continue
        end = at + 1
        while end < len(lines) and lines[end].startswith("  "):
            end += 1
        yield found.group(1), int(found.group(2)), found.group(3), " ".join(x.strip() for x in lines[at + 1:end])


def fits(file, said, below):
    return file.startswith("proofs/") and not UNFIT.search(said) and not UNFIT_BELOW.search(said + " " + below)


def fact(log):
    """The first fact that isn't proved, and whether it is one; None if the log has no error.

    After a sign of a misfit no later error in its file counts: what is there may now be a proof of something else."""
    unfit, first = set(), None
    for file, line, said, below in errors(log):
        told = f"{file}:{line}: {said}"
        if fits(file, said, below):
            if file not in unfit:
                return told, True
        else:
            unfit.add(file)
        first = first or told
    known = FALSE.search(log)
    if known:
        return known.group(1), True
    unsafe = UNSAFE.search(log)
    if unsafe and not re.search(r"`goal\.(?:overflow|bounds|slice_bounds|offset_bounds|nonzero)", log):
        return unsafe.group(1), True
    # of a function that has no proof file: the toolchain's own search found nothing
    lost = next((found for found in LOST.finditer(log) if found.group(2) not in unfit), None)
    if lost and all(file.startswith("proofs/") for file in unfit):
        return lost.group(1), True
    return (first, False) if first else None


def word(name):
    edge = r"[^\s(){}.;,@\"«»`]"
    return re.compile(rf"(?<!{edge}){re.escape(name)}(?!{edge})")


def refitted(log, folder):
    """Has the proof files in a copy of a crate follow names that the edit changed; whether any did."""
    asked = {found.group(1): re.findall(r"`([^`]+)`", found.group(2)) for found in ASKED.finditer(log)}
    done = False
    for file, _, said, below in errors(log):
        found = GONE.search(said)
        if not found or not file.startswith("proofs/"):
            continue
        name, rest = found.groups()
        there = asked.get(name, []) + [one or other for one, other in re.findall(r"`\.?([^`\s]+)`|(?<=[\s:])\.([^\s,)]+)", rest + " " + below)]
        paths = glob.glob(os.path.join(folder, os.path.dirname(file), "*.antt"))
        texts = {}
        for path in paths:
            with open(path) as text:
                texts[path] = text.read()
        free = [one for one in there if not any(word(one).search(text) for text in texts.values())]
        near = difflib.get_close_matches(name, free, 1, LEAST)
        if not near and "Goals` has no" in said:
            for path, text in texts.items():
                # an answer to a goal that is gone
                less = re.sub(rf"(?ms)^pub {re.escape(name)} :.*?(?:\n\n|\Z)", "", text)
                if less != text:
                    with open(path, "w") as out:
                        out.write(less)
                    done = True
        for path, text in texts.items():
            if near and word(name).search(text):
                with open(path, "w") as out:
                    out.write(word(name).sub(near[0], text))
                done = True
    return done
