#!/usr/bin/env python3
"""Replays the stored runs of the program.

usage: replay.py [--write] TEXT..

A TEXT is a file of runs (.txt), or a page whose indented blocks are runs (.md). All runs of a TEXT
are made in one new folder, where `halivomue` is a symbolic link to the script of that name,
`program` one to the program itself, `tree`, `other`, `disk`, `stored` and `account` are the scripts here, and `samples` the
samples. There are three kinds of block:

  NAME.call:        makes a file: a record on each line, in decimal: class kind op statement p1 .. p6;
                    what is missing is 0, and a ; starts a comment
  $ COMMAND         is run by bash, and what it prints is compared with the lines that follow: standard output,
                    then standard error. In a .txt each line of standard error starts with '! ', and
                    '= N' follows if the exit status is not 0
  anything else     is ignored, and so are blocks of a page that use the package, which tests/fleet runs

--write puts what a .txt's commands printed in the place of what it has.
"""
import os
import struct
import subprocess
import sys
import tempfile

ROOT = os.path.dirname(os.path.dirname(os.path.dirname(os.path.abspath(__file__))))


def blocks_of(path):
    """The runs and files of a page: lists of lines, cut at lines that belong to none."""
    blocks, block = [], []
    with open(path, encoding="utf-8") as text:
        for line in text.read().split("\n"):
            if path.endswith(".md"):
                line = line[4:] if line.startswith("    ") else ""
            if line:
                block.append(line)
            elif block:
                blocks.append(block)
                block = []
    return blocks + ([block] if block else [])


def record(line):
    numbers = [int(word) for word in line.split(";")[0].split()]
    return struct.pack("<4B7I", *numbers[:3], 0, *numbers[3:], *[0] * (10 - len(numbers)))


def printed(done, path):
    """What a command printed, as the text has it."""
    out = done.stdout.decode(errors="backslashreplace").splitlines()
    err = done.stderr.decode(errors="backslashreplace").splitlines()
    if path.endswith(".md"):
        return out + err
    status = ["= %d" % done.returncode] if done.returncode else []
    return out + ["! " + line for line in err] + status


def run(command, folder):
    environment = dict(os.environ, PATH=folder + "/bin:" + os.environ["PATH"], LC_ALL="C")
    return subprocess.run(["timeout", "300", "bash", "-c", command], cwd=folder, env=environment,
                          stdin=subprocess.DEVNULL, capture_output=True, check=False)


def replay(path, write):
    """How many runs of a text passed, and how many failed."""
    passed = failed = at = 0
    with open(path, encoding="utf-8") as stored:
        text = stored.read()
    with tempfile.TemporaryDirectory() as folder:
        os.chmod(folder, 0o755)
        os.mkdir(folder + "/bin")
        for name, target in (("bin/halivomue", "halivomue"), ("halivomue", "halivomue"), ("samples", "samples"),
                             ("bin/program", "crates/halivomue/out/halivomue"), ("bin/tree", "tests/program/tree"),
                             ("bin/other", "tests/program/other"), ("bin/disk", "tests/program/disk"),
                             ("bin/stored", "tests/program/stored.py"), ("bin/account", "tests/program/account.py")):
            os.symlink(os.path.join(ROOT, target), os.path.join(folder, name))
        for block in blocks_of(path):
            if path.endswith(".md") and any(line.startswith("$ python3 -m halivomue") for line in block):
                continue
            if block[0].endswith(".call:"):
                with open(os.path.join(folder, block[0][:-1]), "wb") as made:
                    made.write(b"".join(record(line) for line in block[1:]))
            while block and block[0].startswith("$ "):
                ends = [n for n, line in enumerate(block) if n and line.startswith("$ ")] + [len(block)]
                due, block = block[:ends[0]], block[ends[0]:]
                found = due[:1] + printed(run(due[0][2:], folder), path)
                if found == due:
                    passed += 1
                elif not write:
                    failed += 1
                    print("%s: due:\n  %s\nfound:\n  %s" % (path, "\n  ".join(due), "\n  ".join(found)))
                if write:
                    at = text.index("\n".join(due), at)
                    text = text[:at] + "\n".join(found) + text[at + len("\n".join(due)):]
                    at += len("\n".join(found))
    if write:
        with open(path, "w", encoding="utf-8") as out:
            out.write(text)
    return passed, failed


def main():
    write = "--write" in sys.argv
    texts = [word for word in sys.argv[1:] if word != "--write"]
    if not texts:
        sys.exit(__doc__)
    counts = [replay(path, write and path.endswith(".txt")) for path in texts]
    passed, failed = (sum(column) for column in zip(*counts))
    print("program: %d stored runs passed, %d failed" % (passed, failed))
    sys.exit(failed > 0 or passed == 0)


main()
