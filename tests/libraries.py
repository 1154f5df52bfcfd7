#!/usr/bin/env python3
"""Has the tests use what `rt ci` proved and built. Without this rt would prove all of it once more.

    tests/libraries.py --before   before `rt ci`: notes the sources
    tests/libraries.py            after it: notes the libraries that it left, builds the C archives over them, and notes for the
                                  script ./halivomue that the program is of these sources

`rt ci` leaves no archives. If rt has kept libraries of its own in out/ (those of `rt check` and `rt lib`), `rt ci` puts them back,
and then `rt lib` builds the archives, which is quick.
"""

import os
import subprocess
import sys
from concurrent.futures import ThreadPoolExecutor

from checker import LEFT, ROOT, are_left, command, crates, kit, note_left, sources_of, statics

BEFORE = "build/sources.txt"


def script(text):
    """What the functions of the script ./halivomue print."""
    return subprocess.run(["bash", "-c", f". ./halivomue; {text}"], capture_output=True, text=True, check=True).stdout


def sources():
    """A row for each crate, and one for the program."""
    return [f"{name} {sources_of(name)}" for name in crates()] + [script("sources").strip()]


def built_over_left(name):
    """The words that build a crate's archive over the libraries that `rt ci` left."""
    words = command(name, crates()[name])
    words[words.index("check")] = "build"
    more = ["--crate-type", "staticlib", "--links", f"{name}=", "--jobs", "1"]
    return words + more + ["--toolchain", f"{kit()}/toolchain", "--backend", "llvm", "-o", f"out/lib{name}.a"]


def build(name):
    """Builds a crate's archive; what is said if that fails."""
    words = built_over_left(name) if are_left(crates()[name]) else ["rt", "lib"]
    told = subprocess.run(words, cwd=f"crates/{name}", stdin=subprocess.DEVNULL, capture_output=True, text=True, errors="replace")
    return (told.stdout + told.stderr)[-3000:] + f"\nno archive: {name}" if told.returncode else None


def note():
    """Notes what `rt ci` left; whether the sources are still those that it proved."""
    with open(BEFORE) as text:
        rows = text.read().splitlines()
    if rows != sources():
        return False
    note_left()
    script(f"seal '{rows[-1]}' >\"$stamp\"")
    return True


def main(words):
    os.chdir(ROOT)
    if "--before" in words:
        if os.path.exists(LEFT):
            os.remove(LEFT)
        with open(BEFORE, "w") as out:
            out.write("\n".join(sources()) + "\n")
        return 0
    if not note():
        print("the sources were changed while rt ci ran")
        return 1
    names = sorted(statics())
    at_once = 2 if all(are_left(crates()[name]) for name in names) else 1  # two rt in the same folders wait for each other
    with ThreadPoolExecutor(at_once) as pool:
        wrong = [why for why in pool.map(build, names) if why]
    print(*wrong or [f"the archives of {' and '.join(names)} are built"], sep="\n")
    return 1 if wrong else 0


if __name__ == "__main__":
    sys.exit(main(sys.argv[1:]))
