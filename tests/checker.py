"""The toolchain's check of a scratch crate, alone or over proved crates of the repository."""

import functools
import hashlib
import os
import re
import subprocess

ROOT = os.path.dirname(os.path.dirname(os.path.abspath(__file__)))
ROW = re.compile(r"^\s*(\w+)([\w= ]*):([^#\n]*)", re.M)


@functools.lru_cache(maxsize=None)
def kit():
    """The toolchain's folder."""
    guide = subprocess.run(["rt", "doc"], capture_output=True, text=True, check=True).stdout.strip()
    return os.path.dirname(guide)


def crates(root=ROOT):
    """Each crate of crates.txt with the crates and libraries of the toolchain that it names."""
    with open(os.path.join(root, "crates.txt")) as text:
        return {name: uses.split() for name, _, uses in ROW.findall(text.read())}


def statics(root=ROOT):
    """The crates that crates.txt says to be static libraries."""
    with open(os.path.join(root, "crates.txt")) as text:
        return {name for name, marks, _ in ROW.findall(text.read()) if "staticlib" in marks.split()}


@functools.lru_cache(maxsize=None)
def _below(name, root):
    listed, found = crates(root), {}
    if name in listed:
        for use in listed[name]:
            for n in _below(use, root):
                found[n] = None
        found[name] = None
    return tuple(found)


def below(names, root=ROOT):
    """Those of the names that are the repository's, and all of its crates below them, each after those that it uses."""
    found = {}
    for name in names:
        for n in _below(name, root):
            found[n] = None
    return list(found)


LEFT = "build/libraries.txt"  # what the last `rt ci` left: each crate, a digest of its sources, and one of its library


def sources_of(name, root=ROOT):
    """A digest of all that a crate's proof depends on, apart from the crates below it."""
    whole = hashlib.sha256(f"{kit()} {crates(root)[name]}".encode())
    for part in ("src", "specs", "proofs"):
        for at, folders, files in os.walk(os.path.join(root, "crates", name, part)):
            folders.sort()
            for path in (os.path.join(at, file) for file in sorted(files)):
                with open(path, "rb") as file:
                    whole.update(f"{os.path.relpath(path, root)} {hashlib.sha256(file.read()).hexdigest()}\n".encode())
    return whole.hexdigest()


def library_of(name, root=ROOT):
    """A digest of the library that `rt ci` left; None if there is none, or if it is one that rt keeps for itself, which has a stamp."""
    folder = os.path.join(root, "crates", name, "out", "rlib")
    if os.path.exists(os.path.join(folder, "stamp")):
        return None
    try:
        with open(os.path.join(folder, f"{name}.rlib", "format"), "rb") as file:  # it has the sums of the library's files
            return hashlib.sha256(file.read()).hexdigest()
    except OSError:
        return None


def note_left(root=ROOT):
    """Notes the libraries that `rt ci` left, and of which sources they are."""
    found = {name: library_of(name, root) for name in crates(root)}
    with open(os.path.join(root, LEFT), "w") as out:
        out.writelines(f"{name} {sources_of(name, root)} {library}\n" for name, library in found.items() if library)


@functools.lru_cache(maxsize=None)
def _left(root):
    try:
        with open(os.path.join(root, LEFT)) as text:
            return frozenset(text.read().splitlines())
    except OSError:
        return frozenset()


@functools.lru_cache(maxsize=None)
def is_left(name, root=ROOT):
    """Whether the crate's library is the one that the last `rt ci` left, and the sources are as they were then."""
    return f"{name} {sources_of(name, root)} {library_of(name, root)}" in _left(root)


def are_left(names, root=ROOT):
    """The same of the crates, and of all below them."""
    return all(is_left(name, root) for name in below(names, root))


def proved(*names, root=ROOT):
    """Has libraries of the repository proved, and what they need, unless the last `rt ci` has. What rt says if they aren't."""
    if are_left(names, root):
        return None
    for name in names:
        told = subprocess.run(["rt", "lib"], cwd=os.path.join(root, "crates", name), capture_output=True, text=True)
        if told.returncode:
            return (told.stdout + told.stderr)[-3000:] + f"\nnot proved: {name}"
    return None


def command(name, uses=(), sources=(), root=ROOT, file="src/lib.rt"):
    """The words that check a crate. uses: crates of the repository, taken as `rt lib` or `rt ci` has proved them, and libraries of the
    toolchain. sources: crates of the repository that are checked along with it."""
    listed = crates(root)
    own = [n for n in below([*uses, *sources], root) if n not in sources]
    named = {n for crate in [*own, *sources] for n in listed[crate]} | {*uses}
    tools = sorted({"core", "std"} | {n for n in named if n not in listed})
    words = [f"{kit()}/bin/rattle", "check", "--crate-name", name, file]
    for tool in tools:
        words += ["--extern", f"{tool}={kit()}/rlibs/{tool}.rlib"]
    words += ["-L", f"dependency={kit()}/rlibs"]
    for crate in own:
        folder = os.path.join(root, "crates", crate, "out", "rlib")
        words += ["--extern", f"{crate}={folder}/{crate}.rlib", "-L", f"dependency={folder}"]
    for crate in sources:
        on = ",".join(sorted({*listed[crate], *tools}))
        words += ["--lib", f"{crate}:{on}={root}/crates/{crate}/src/lib.rt"]
    return words + ["--antt-project", f"{kit()}/rattle/logic/antt-project.json", "--logic-built", f"{kit()}/logic_built"]


def said(folder, words):
    """The status of a check in a folder, and its lines; it writes to no cache."""
    told = subprocess.run(words, cwd=folder, stdin=subprocess.DEVNULL, stdout=subprocess.PIPE, stderr=subprocess.STDOUT, text=True, errors="replace")
    return told.returncode, told.stdout.replace(folder + "/", "").strip().split("\n")
