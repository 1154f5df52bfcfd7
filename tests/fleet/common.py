"""What the tests of the fleet level share."""

import contextlib
import csv
import hashlib
import os
import pathlib
import re
import shutil
import struct
import subprocess
import sys
import tempfile
import unittest
import warnings

HERE = pathlib.Path(__file__).resolve().parent
ROOT = HERE.parent.parent
SAMPLES = ROOT / "samples"
PROGRAM = pathlib.Path(os.environ.get("HALIVOMUE_PROGRAM", ROOT / "crates/halivomue/out/halivomue"))
REFERENCE = ROOT / "build" / "reference" / "release" / "reference"
sys.dont_write_bytecode = True
sys.path[:0] = [str(HERE), str(ROOT / "python"), str(ROOT / "tests" / "vectors"), str(ROOT / "tests" / "reference")]

import halivomue  # noqa: E402
from halivomue import provisioning  # noqa: E402


def run(*words, status=0, **more):
    """A command of the package in a process of its own; its output and what it said on standard error."""
    environment = dict(os.environ, PYTHONPATH=str(ROOT / "python"), PYTHONDONTWRITEBYTECODE="1", LC_ALL="C.UTF-8")
    environment.update(more.pop("env", {}))
    more.setdefault("stdin", subprocess.DEVNULL)
    done = subprocess.run([sys.executable, "-m", "halivomue", *words], capture_output=True, env=environment,
                          timeout=120, check=False, **more)
    if done.returncode != status:
        raise AssertionError(f"{words}: status {done.returncode}, not {status}:\n{done.stdout.decode()}{done.stderr.decode()}")
    return done.stdout.decode("utf-8", "surrogateescape"), done.stderr.decode("utf-8", "surrogateescape")


def provision_here(sent, filed, **options):
    """A run in this process; its outcome and the lines that it told."""
    lines = []
    options.setdefault("flush", False)
    told = provisioning.Told(lines.append)
    outcome = provisioning.run(provisioning.Options(os.fsencode(sent), os.fsencode(filed), **options), told, sys.stdout)
    return outcome, lines


def tree(folder):
    """Every path under a folder, with its kind and a file's digest."""
    found = {}
    for here, folders, files in os.walk(os.fsencode(folder)):
        for name in folders:
            path = os.path.join(here, name)
            found[os.path.relpath(path, os.fsencode(folder))] = "link" if os.path.islink(path) else "folder"
        for name in files:
            path = os.path.join(here, name)
            at = os.path.relpath(path, os.fsencode(folder))
            if os.path.islink(path):
                found[at] = "link"
            else:
                with open(path, "rb") as file:
                    found[at] = hashlib.sha256(file.read()).hexdigest()
    return found


def unbilled(folder):
    """As `tree`, without what a run bills: the accounts, and what the reports say of it."""
    found = tree(folder)
    found.pop(b".halivomue/accounts", None)
    if b"report.csv" in found:
        rows = [[value for name, value in row.items() if name != "billed"] for row in rows_of(folder).values()]
        found[b"report.csv"] = hashlib.sha256(repr(rows).encode()).hexdigest()
    if b"report.jsonl" in found:
        found[b"report.jsonl"] = hashlib.sha256(re.sub(', "billed": [0-9]+', "", "\n".join(lines_of(folder, "report.jsonl"))).encode()).hexdigest()
    return found


def accounts_of(folder):
    """The accounts that a run keeps under FILED."""
    with open(os.path.join(folder, ".halivomue", "accounts"), "rb") as file:
        return halivomue.Accounts.load(file.read())


def accounts_with(tally):
    """Accounts with that tally, by their saved form as the documents say it."""
    form = (b"HALIVACC" + struct.pack("<III", 1, 0, tally)).ljust(208, b"\0")
    return halivomue.Accounts.load(form + bytes(255 - byte for byte in form))


def lines_of(folder, name="report.csv"):
    with open(os.path.join(folder, name), encoding="utf-8", newline="") as file:
        return file.read().splitlines()


def rows_of(folder):
    """The rows of a report by their names, the totals under none."""
    with open(os.path.join(folder, "report.csv"), encoding="utf-8", newline="") as file:
        return {row["name"]: row for row in csv.DictReader(file)}


class Case(unittest.TestCase):
    """A test with a folder of its own."""

    def setUp(self):
        self.folder = tempfile.mkdtemp(prefix="fleet-")
        self.addCleanup(self.clean)
        os.chmod(self.folder, 0o755)
        self.sent, self.filed = os.path.join(self.folder, "sent"), os.path.join(self.folder, "filed")
        os.mkdir(self.sent)

    def clean(self):
        shutil.rmtree(self.folder, ignore_errors=True)

    def put(self, name, data, top=None):
        path = os.path.join(os.fsencode(top or self.sent), os.fsencode(name))
        os.makedirs(os.path.dirname(path), exist_ok=True)
        with open(path, "wb") as file:
            file.write(data)
        return path

    def samples(self):
        for path in sorted(SAMPLES.glob("*.call")):
            shutil.copy(path, self.sent)


def sample(name):
    return (SAMPLES / f"{name}.call").read_bytes()


@contextlib.contextmanager
def replaced(owner, name, value):
    """An attribute replaced for a while."""
    before = getattr(owner, name)
    setattr(owner, name, value)
    try:
        yield before
    finally:
        setattr(owner, name, before)


def in_child(work):
    """The exit status of some work in a forked process; 70 if it raises."""
    child = os.fork()
    if child == 0:
        status = 70
        warnings.simplefilter("ignore")
        try:
            status = work() or 0
        except BaseException:
            import traceback

            traceback.print_exc()
        finally:
            os._exit(status)
    return os.waitpid(child, 0)[1]


__all__ = ["Case", "HERE", "PROGRAM", "REFERENCE", "ROOT", "SAMPLES", "accounts_of", "accounts_with", "halivomue", "in_child", "lines_of",
           "provision_here", "provisioning", "replaced", "rows_of", "run", "sample", "tree", "unbilled", "unittest"]
