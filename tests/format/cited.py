#!/usr/bin/env python3
"""Checks that the definitions named in docs/FORMAT.md exist, written (`crate` `name`, `name`; `crate` `name`).

Each name must be defined in that crate's specs/. A word that is both a name of the crate before it and a crate is taken for the name.
"""
import pathlib
import re
import sys

ROOT = pathlib.Path(__file__).resolve().parent.parent.parent


def specs(crate):
    return "".join(path.read_text() for path in sorted((ROOT / "crates" / crate / "specs").glob("*.antt")))


def defines(crate, name):
    return re.search(r"(?m)^ *(?:abbrev |unfoldable )?pub (?:record |data )?%s\b" % re.escape(name), specs(crate))


def cited(page):
    """The pairs of crate and name of a page's brackets."""
    crates = {path.name for path in (ROOT / "crates").iterdir()}
    for bracket in re.findall(r"\(([^()]*`[^()]*)\)", page):
        crate = None
        for word in re.findall(r"`([^`]+)`", bracket):
            if word in crates and not (crate and defines(crate, word)):
                crate = word
            elif crate:
                yield crate, word


def main():
    pairs = sorted(set(cited((ROOT / "docs" / "FORMAT.md").read_text())))
    lost = [pair for pair in pairs if not defines(*pair)]
    for crate, name in lost:
        print("docs/FORMAT.md names %s of crate %s, which crates/%s/specs doesn't define" % (name, crate, crate))
    print("docs/FORMAT.md: %d definitions named, %d not found" % (len(pairs), len(lost)))
    sys.exit(bool(lost) or not pairs)


main()
