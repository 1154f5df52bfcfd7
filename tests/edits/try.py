#!/usr/bin/env python3
"""Tries the wrong edits in crates/NAME/edits and must-fail: the prover must refuse each, and because some fact isn't true any more.

    tests/edits/try.py                      the lists of the crates that changed since tests/edits/tried.txt was written
    tests/edits/try.py --all                every edit
    tests/edits/try.py NAME | NAME/LABEL..  the edits of some crates, or some edits, in both folders
    tests/edits/try.py --write ..           if all are refused, also rewrites tried.txt for the crates tried

The edits have the same form as those in must-fail/, and are read as `rt must-fail` reads those. Each crate is proved first, and
each of its edits is checked in a copy of it. Every module that the edit doesn't touch is taken from what that proof kept, which
makes this quick. An edit that isn't refused that way is checked once more in full. RT_JOBS edits are tried at a time (default
2). Goals are named after the code: if only their names are gone, the proofs in the copy follow them, and it is checked again
(verdict.py).
"""

import concurrent.futures
import glob
import hashlib
import os
import re
import shutil
import subprocess
import sys
import tempfile
import time

from verdict import fact, refitted

ROOT = os.path.dirname(os.path.dirname(os.path.dirname(os.path.abspath(__file__))))
os.chdir(ROOT)
sys.path.insert(0, os.path.join(ROOT, "tests"))
from checker import are_left, command, crates, said, statics  # noqa: E402

TRIED = "tests/edits/tried.txt"
PARTS = ("src", "specs", "proofs")
FOLLOWED = 4  # how often the proofs follow the names of an edit's goals


def digest(name):
    """A digest of everything that the trial of a crate's edits depends on: its sources and the edits, in whichever folder these are."""
    whole = hashlib.sha256()
    paths = [path for path in glob.glob(f"crates/{name}/**/*.*", recursive=True) if os.path.isfile(path) and not path.startswith(f"crates/{name}/out/")]
    for said, path in sorted((path.replace("/must-fail/", "/edits/"), path) for path in paths):
        with open(path, "rb") as file:
            whole.update(f"{said}\n".encode() + hashlib.sha256(file.read()).digest())
    return whole.hexdigest()[:16]


def tried():
    if not os.path.exists(TRIED):
        return {}
    with open(TRIED) as lines:
        return dict(line.split() for line in lines if not line.startswith("#"))


def labels(name, folders):
    paths = [p for folder in folders for p in glob.glob(f"crates/{name}/{folder}/*.edit")]
    return sorted(paths, key=os.path.basename)


def chosen(words):
    """The edits to try, as paths, and the crates whose whole list is among them."""
    both, before = ("must-fail", "edits"), tried()
    asked = [w for w in words if not w.startswith("--")]
    if "--all" in words or not asked:
        names = [name for name in crates() if "--all" in words or before.get(name) != digest(name)]
        return [p for name in names for p in labels(name, both)], names
    paths = []
    for word in asked:
        name, _, label = word.partition("/")
        found = [p for p in labels(name, both) if not label or os.path.basename(p) == label + ".edit"]
        if not found:
            sys.exit(f"edits: {word}: no such edit")
        paths += found
    return paths, [word for word in asked if "/" not in word]


def changed(edit, folder):
    """Makes an edit's changes in a copy of its crate; what is wrong with it, if anything."""
    file, old, pairs = None, None, 0
    for line in edit.split("\n"):
        if line.startswith("file: "):
            path = line[6:].strip()
            if os.path.normpath(path) != path or not path.startswith(("src/", "specs/", "proofs/")):
                return f"it names no file below src/, specs/ or proofs/: {path}"
            file = os.path.join(folder, path)
        elif line.startswith("old: "):
            old = line[5:]
        elif line.startswith("new:"):
            if not file or not old:
                return "a 'new:' line stands before any 'file:' or 'old:' line"
            if not os.path.isfile(file):
                return f"there is no {os.path.relpath(file, folder)}"
            with open(file) as text:
                before = text.read()
            if before.count(old) != 1:
                return f"its text stands {before.count(old)} times in {os.path.relpath(file, folder)}: {old.strip()}"
            with open(file, "w") as text:
                text.write(before.replace(old, line[5:]))
            old, pairs = None, pairs + 1
    return None if pairs else "it changes nothing"


def is_program(name):
    return os.path.exists(f"crates/{name}/src/main.rt")


def words_for(name):
    """The words that check a copy of a crate, over the proved crates that it is built on."""
    words = command(name, crates()[name], file="src/main.rt" if is_program(name) else "src/lib.rt")
    return words + ["--crate-type", "staticlib"] * (name in statics()) + ["--jobs", "1"]


def copy_of(name, scratch):
    """A new folder with a crate's sources."""
    folder = tempfile.mkdtemp(dir=scratch)
    for part in PARTS:
        if os.path.isdir(f"crates/{name}/{part}"):
            shutil.copytree(f"crates/{name}/{part}", os.path.join(folder, part))
    return folder


def prove(name, scratch):
    """Proves a crate. Returns the folder in which it kept its modules, as --incremental takes it, or ends the script."""
    if are_left(crates()[name]):
        modules = os.path.join(scratch, f"{name}.modules")
        good, told = checked(copy_of(name, scratch), words_for(name) + ["--incremental", modules])
    else:
        modules, verb = f"crates/{name}/out/incremental", "check" if is_program(name) else "lib"
        done = subprocess.run(["rt", verb], cwd=f"crates/{name}", capture_output=True, text=True)
        good, told = not done.returncode, done.stdout + done.stderr
    if not good:
        sys.exit(f"{told[-2000:]}\nedits: {name} is not proved")
    return modules


def prove_all(names, scratch):
    """Proves crates, and returns each one's folder of modules."""
    at_once = jobs() if all(are_left(crates()[name]) for name in names) else 1  # two rt in the same folders wait for each other
    with concurrent.futures.ThreadPoolExecutor(at_once) as pool:
        return dict(zip(names, pool.map(lambda name: prove(name, scratch), names)))


def jobs():
    return int(os.environ.get("RT_JOBS", "2"))


def kept(one, other):
    """A check replaces such a file and never writes into it."""
    try:
        if one.endswith(".oantt"):
            return os.link(one, other)
    except OSError:
        pass
    return shutil.copy2(one, other)


def copied_modules(modules, folder):
    """A copy of a proved crate's modules."""
    if not os.path.isdir(modules):
        return []
    shutil.copytree(modules, folder, copy_function=kept)
    return ["--incremental", folder]


def checked(folder, words):
    """Whether the check proved all, and its log."""
    status, lines = said(folder, words)
    return status == 0, "\n".join(lines)


def attempt(path, scratch, modules):
    """Whether an edit is refused because of a fact, and the message."""
    name, label = path.split("/")[1], os.path.basename(path)[: -len(".edit")]
    folder = copy_of(name, scratch)
    with open(path) as text:
        wrong = changed(text.read(), folder)
    if wrong:
        return False, f"{name}/{label}: BAD EDIT: {wrong}"
    began, words, follows = time.time(), words_for(name), 0
    modules = copied_modules(modules, folder + ".modules")
    while True:
        proved, log = checked(folder, words + modules)
        if proved or not log.endswith("logic=not-proved"):
            proved, log = checked(folder, words)
        what, good = fact(log) or ("no error is told: " + log[:300], False)
        if proved or good or follows == FOLLOWED or not refitted(log, folder):
            break
        follows += 1
    shutil.rmtree(folder, ignore_errors=True)
    shutil.rmtree(folder + ".modules", ignore_errors=True)
    if proved:
        return False, f"{name}/{label}: NOT REFUSED{' once the proofs follow the names of its goals' if follows else ''}"
    return good, f"{name}/{label}: {'' if good else 'UNFIT: '}{what[:160]} ({time.time() - began:.0f} s)"


def attempts(paths, scratch):
    """Proves the crates of some edits and tries these; for each whether it is refused because of a fact, and the message."""
    modules = prove_all(list(dict.fromkeys(path.split("/")[1] for path in paths)), scratch)
    with concurrent.futures.ThreadPoolExecutor(jobs()) as pool:
        yield from pool.map(lambda path: attempt(path, scratch, modules[path.split("/")[1]]), paths)


def write_tried(names):
    rows = {**tried(), **{name: digest(name) for name in names}}
    with open(TRIED, "w") as out:
        out.write("# Written by tests/edits/try.py --write: the crates as they were when every edit of their must-fail/ and edits/ was refused at a fact.\n")
        out.writelines(f"{name} {rows[name]}\n" for name in crates() if name in rows)


def main():
    words = sys.argv[1:]
    if "--help" in words:
        print(__doc__.strip())
        return 0
    paths, whole = chosen(words)
    began, good = time.time(), 0
    with tempfile.TemporaryDirectory() as scratch:
        for refused, line in attempts(paths, scratch):
            good += refused
            if not refused or "--quiet" not in words:
                print(line, flush=True)
    print(f"edits: {len(paths)} tried, {good} refused at a fact, in {time.time() - began:.0f} s")
    if good == len(paths) and "--write" in words:
        write_tried(whole)
    return 0 if good == len(paths) else 1


if __name__ == "__main__":
    sys.exit(main())
