"""Runs that are killed at a chosen system call, or after a time, and continued.

The calls of Python's `os` that change or read files are counted in a forked process; at the one chosen the process
kills itself by SIGKILL: before the call, after it, or with half of a write written.
"""

import contextlib
import fcntl
import os
import random
import signal
import time

from common import accounts_with, halivomue, in_child, provision_here, provisioning, rows_of, tree, unbilled

CALLS = ("open", "read", "write", "close", "fsync", "replace", "unlink", "mkdir", "fstat", "stat", "scandir", "ftruncate", "link")
MOMENTS = ("before", "after", "half")


class Killer:
    """Counts calls and kills this process at one of them; with 0 it only counts."""

    def __init__(self, at=0, moment="before"):
        self.at, self.moment, self.count, self.process = at, moment, 0, os.getpid()
        self.by_name = {}

    def wrap(self, name):
        call = getattr(os, name)

        def counted(*arguments, **more):
            if os.getpid() != self.process:
                return call(*arguments, **more)
            self.count += 1
            self.by_name[name] = self.by_name.get(name, 0) + 1
            if self.count != self.at:
                return call(*arguments, **more)
            if self.moment == "half" and name == "write":
                call(arguments[0], bytes(arguments[1])[: len(arguments[1]) // 2])
            elif self.moment == "after":
                call(*arguments, **more)
            os.kill(os.getpid(), signal.SIGKILL)

        setattr(os, name, counted)

    def install(self):
        self.process = os.getpid()
        for name in CALLS:
            self.wrap(name)
        return self


class Trial:
    """A tree to be filed, and the undisturbed run's result. The accounts have the tally `start` before; they are FILED's
    own, or with `beside` those of a file beside FILED."""

    def __init__(self, folder, sent, start=0, beside=False):
        self.folder, self.sent, self.start, self.beside = folder, sent, start, beside
        self.number = 0
        self.due_folder = self.fresh("due")
        provision_here(sent, self.due_folder, flush=True, json=True, **self.options(self.due_folder))
        self.due, self.due_unbilled = tree(self.due_folder), unbilled(self.due_folder)
        self.allowed = {digest for name, digest in self.due.items() if b".halivomue" not in name}
        self.after = self.tally(self.due_folder)
        self.billed = self.reported(self.due_folder)

    def path(self, filed):
        """The file of the accounts."""
        return filed + ".accounts" if self.beside else os.path.join(filed, ".halivomue", "accounts")

    def options(self, filed):
        return {"accounts": os.fsencode(self.path(filed))} if self.beside else {}

    def tally(self, filed):
        with open(self.path(filed), "rb") as file:
            return halivomue.Accounts.load(file.read()).tally

    @staticmethod
    def reported(filed):
        """The cents that the report's rows say were billed, and those that its totals say."""
        *rows, total = rows_of(filed).values()
        return sum(int(row["billed"] or 0) for row in rows), int(total["billed"])

    def fresh(self, name=None):
        """A new FILED, not there yet, or with nothing but the accounts."""
        self.number += 1
        filed = os.path.join(self.folder, name or f"filed{self.number}")
        if self.start or self.beside:
            os.makedirs(os.path.dirname(self.path(filed)), exist_ok=True)
            with open(self.path(filed), "wb") as out:
                out.write(bytes(accounts_with(self.start)))
        return filed

    def calls(self, **options):
        """How many calls an undisturbed run makes."""
        path, filed = os.path.join(self.folder, "count"), self.fresh()

        def work():
            killer = Killer().install()
            provision_here(self.sent, filed, json=True, flush=True, **options, **self.options(filed))
            with open(path, "w") as out:
                out.write(f"{killer.count}")

        if in_child(work):
            raise AssertionError("the run that is counted failed")
        with open(path) as file:
            return int(file.read())

    def kill_at(self, filed, at, moment, **options):
        """A run that kills itself; was it killed?"""

        def work():
            Killer(at, moment).install()
            provision_here(self.sent, filed, json=True, flush=True, **options, **self.options(filed))

        ended = in_child(work)
        self.wait(filed)
        return os.WIFSIGNALED(ended)

    def kill_after(self, filed, seconds, **options):
        """A run that is killed after a time; was it?"""
        child = os.fork()
        if child == 0:
            with contextlib.suppress(BaseException):
                provision_here(self.sent, filed, json=True, flush=False, **options, **self.options(filed))
            os._exit(0)
        time.sleep(seconds)
        os.kill(child, signal.SIGKILL)
        ended = os.waitpid(child, 0)[1]
        self.wait(filed)
        return os.WIFSIGNALED(ended)

    @staticmethod
    def wait(filed):
        """Until the processes of a killed run have ended too: they hold its lock."""
        lock = os.path.join(filed, ".halivomue", "lock")
        end = time.monotonic() + 10
        while os.path.exists(lock) and time.monotonic() < end:
            fd = os.open(lock, os.O_RDWR)
            try:
                fcntl.flock(fd, fcntl.LOCK_EX | fcntl.LOCK_NB)
                return
            except BlockingIOError:
                time.sleep(0.01)
            finally:
                os.close(fd)

    def half_written(self, filed):
        """What can be seen under FILED and isn't a complete file of the undisturbed run, or a tally of neither its start nor
        its end."""
        if not os.path.isdir(filed):
            return []
        found = [name for name, digest in tree(filed).items()
                 if b".halivomue" not in name and digest != "folder" and digest not in self.allowed]
        if os.path.exists(self.path(filed)) and self.tally(filed) not in (self.start, self.after):
            found.append(f"the tally {self.tally(filed)}")
        return found

    def taken_up(self, filed, **options):
        """The differences after the run was continued, and how many files were already filed."""
        over, json = (os.path.exists(os.path.join(filed, name)) for name in ("report.csv", "report.jsonl"))
        found = self.unlike(filed, json) if over else []
        kept = os.path.join(self.folder, "kept")

        def work():
            outcome, _ = provision_here(self.sent, filed, json=json, **options, **self.options(filed))
            with open(kept, "w") as out:
                out.write(f"{outcome.kept}")

        if in_child(work):
            return ["the run that was taken up failed"], 0
        if over:
            # The run was over but for its traces: this was one of its own, which billed nothing.
            found += [name for name, digest in unbilled(filed).items() if digest != self.due_unbilled.get(name)]
            found += [] if self.tally(filed) == self.after and self.reported(filed) == (0, 0) else ["billed twice"]
        else:
            found += self.unlike(filed, json)
        found += [name for name in (".lock", ".new") if os.path.exists(self.path(filed) + name)]
        with open(kept) as file:
            return found, int(file.read())

    def unlike(self, filed, json):
        """Where FILED isn't as after the undisturbed run, and the equation of bills: the cents of the rows, of the totals
        and of the tally are the same."""
        now, due = tree(filed), dict(self.due)
        if not json:
            del due[b"report.jsonl"]
        traces = {b".halivomue/" + name for name in (b"run", b"ledger", b"lock", b"accounts.lock")}
        found = [name for name in {*now, *due} if name not in traces and now.get(name) != due.get(name)]
        if self.reported(filed) != (self.tally(filed) - self.start,) * 2 or self.tally(filed) != self.after:
            found.append(f"billed {self.reported(filed)}, tally {self.start} to {self.tally(filed)}")
        return found


def campaign(trial, points, seed=1, say=lambda line: None):
    """Kills runs at that many points; returns a tally and the faults."""
    rng = random.Random(seed)
    tally = {"killed": 0, "ended before": 0, "killed twice": 0, "seen half-written": 0, "not as undisturbed": 0, "files not done again": 0}
    faults = []
    calls = {jobs: trial.calls(jobs=jobs) for jobs in (1, 2, 3)}
    say(f"an undisturbed run makes {calls[1]} calls in one process, the first of several {calls[2]} and {calls[3]}; "
        f"the tally goes from {trial.start} to {trial.after}")
    for point in range(points):
        filed = trial.fresh()
        jobs = (1, 1, 1, 2, 1, 3, 1, 2)[point % 8]
        if point % 8 == 7:
            what = f"after {(seconds := rng.random() * 0.15):.4f} s, {jobs} jobs"
            killed = trial.kill_after(filed, seconds, jobs=jobs)
        else:
            at, moment = 1 + (point * calls[jobs]) // points, MOMENTS[point % 3]
            what = f"call {at} ({moment}), {jobs} jobs"
            killed = trial.kill_at(filed, at, moment, jobs=jobs)
        tally["killed" if killed else "ended before"] += 1
        faults += [f"{what}: {name!r} is half-written" for name in trial.half_written(filed)]
        tally["seen half-written"] += bool(trial.half_written(filed))
        if point % 3 == 2 and not os.path.exists(os.path.join(filed, "report.csv")):
            again = rng.randrange(1, calls[1])
            tally["killed twice"] += trial.kill_at(filed, again, rng.choice(MOMENTS), jobs=1)
            faults += [f"{what}, then call {again}: {name!r} is half-written" for name in trial.half_written(filed)]
        differs, kept = trial.taken_up(filed, jobs=1 + point % 3)
        tally["files not done again"] += kept
        tally["not as undisturbed"] += bool(differs)
        faults += [f"{what}: {differs[:3]} differ"] if differs else []
    return tally, faults


__all__ = ["Killer", "MOMENTS", "Trial", "campaign", "halivomue", "provisioning"]
