"""Runs killed by SIGKILL and continued."""

import os

from common import Case, rows_of, sample, tree, unittest

import fleet
import killed
from halivomue.answers import CEILING_CENTS

POINTS = int(os.environ.get("FLEET_KILLS", "24"))
#: A small run is killed every so many calls, and at each of its last ones, where the accounts and the report are put.
STEP, END = int(os.environ.get("FLEET_STEP", "7")), 50


class Killed(Case):
    def make(self, count, **more):
        fleet.write(self.sent, count, 40)
        self.put("refused.call", sample("refused"))
        self.put(b"odd \xff\n name/x.call", sample("untidy"))
        os.symlink("refused.call", os.path.join(self.sent, "link.call"))
        return killed.Trial(self.folder, self.sent, **more)

    def tried(self, trial, points):
        tally, faults = killed.campaign(trial, points)
        self.assertEqual(faults, [])
        self.assertGreater(tally["killed"], points * 0.7)
        self.assertGreater(tally["killed twice"], 0)
        self.assertGreater(tally["files not done again"], points)

    def test_killed_and_taken_up_again(self):
        self.tried(self.make(60), POINTS)

    def test_near_the_ceiling(self):
        """The tally has room for half of the files: 10 is met in the middle."""
        trial = self.make(60, start=CEILING_CENTS - 500)
        numbers = [row["number"] for row in rows_of(trial.due_folder).values()]
        self.assertGreater(numbers.count("10"), 5)
        self.assertGreater(trial.after, CEILING_CENTS - 30)
        self.tried(trial, POINTS // 2)

    def test_at_every_call_of_a_small_run(self):
        """Its start and its end are killed between each two steps; the accounts stand beside FILED."""
        self.put("a.call", sample("printed"))
        self.put("b.call", sample("forwarding"))
        for beside in (False, True):
            folder = os.path.join(self.folder, f"trials{beside:d}")
            os.mkdir(folder)
            trial = killed.Trial(folder, self.sent, start=7, beside=beside)
            self.assertEqual((trial.after, trial.billed), (21, (14, 14)))
            calls = trial.calls()
            for at in sorted({*range(1 + beside, calls, STEP), *range(calls - (END if beside else 0), calls + 1)}):
                filed, moment = trial.fresh(), "half" if at % 2 else "before"
                self.assertTrue(trial.kill_at(filed, at, moment, jobs=1))
                self.assertEqual(trial.half_written(filed), [], (at, moment))
                self.assertEqual(trial.taken_up(filed)[0], [], (at, moment))

    def test_a_fault_would_be_noticed(self):
        """A run that writes files in place is seen half-written by the same trial."""
        trial = self.make(3)
        seen = 0
        for at in range(1, trial.calls(), 3):
            filed = trial.fresh()

            def in_place(files, flush, folder, *_):
                for name, _, data in files:
                    fd = os.open(name, os.O_WRONLY | os.O_CREAT | os.O_TRUNC, dir_fd=folder.fd)
                    os.write(fd, data)
                    os.close(fd)

            before = killed.provisioning.filing.write
            killed.provisioning.filing.write = in_place
            try:
                trial.kill_at(filed, at, "half", jobs=1)
            finally:
                killed.provisioning.filing.write = before
            seen += bool(trial.half_written(filed))
        self.assertGreater(seen, 2)

    def test_taken_up_three_times(self):
        """What each of several killed runs did is not done again."""
        trial = self.make(60)
        filed, calls = trial.fresh(), trial.calls()
        trial.kill_at(filed, calls * 3 // 4, "before", jobs=1)
        there = tree(filed)
        part = sum(name.endswith(b".short") and name[: -len(b".short")] in there for name in there)
        self.assertGreater(part, 20)
        for at in (40, 60, 100):
            trial.kill_at(filed, at, "before", jobs=1)
        differs, kept = trial.taken_up(filed)
        self.assertEqual(differs, [])
        self.assertGreaterEqual(kept, part)


if __name__ == "__main__":
    unittest.main()
