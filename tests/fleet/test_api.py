"""halivomue.provision(): the run from a script."""

import csv
import os
import pathlib
import subprocess
import sys

from common import ROOT, Case, halivomue, lines_of, provision_here, run, sample, tree, unittest

import fleet


class Provision(Case):
    def test_as_the_command(self):
        """The same tree and report, from paths of any type, and a row for each file in name order."""
        fleet.write(self.sent, 60, 40)
        self.put("refused.call", sample("refused"))
        self.put(b"odd,\xff\n.call", sample("untidy"))
        run("provision", "--json", self.sent, self.filed, status=1)
        for number, (sent, filed, jobs) in enumerate(((self.sent, self.filed + "0", 1), (pathlib.Path(self.sent), pathlib.Path(self.filed + "1"), 2),
                                                      (os.fsencode(self.sent) + b"/", os.fsencode(self.filed) + b"2//", 3))):
            rows = []
            outcome = halivomue.provision(sent, filed, jobs=jobs, json=True, each=rows.append)
            self.assertEqual(tree(self.filed + str(number)), tree(self.filed))
            self.assertEqual([tuple("" if value is None else str(value) for value in row) for row in rows],
                             [tuple(row) for row in csv.reader(lines_of(self.filed)[1:-1])])
            self.assertEqual((outcome.done, outcome.totals.files, outcome.kept), (sum(row.answer == "accepted" for row in rows), len(rows), 0))

    def test_options(self):
        self.samples()
        self.put("x.bin", sample("printed"))
        rows = []
        outcome = halivomue.provision(self.sent, self.filed, dry_run=True, strict=True, each=rows.append)
        self.assertFalse(os.path.exists(self.filed))
        self.assertEqual([row.answer for row in rows], ["accepted", "accepted", "refused", "refused"])
        self.assertEqual(outcome.passed_over, 1)
        outcome = halivomue.provision(self.sent, self.filed, pattern="*.bin", flush=False)
        self.assertEqual((outcome.done, os.path.exists(os.path.join(self.filed, "x.bin.short"))), (1, True))
        self.assertRaises(TypeError, halivomue.provision, self.sent, self.filed, "*.bin")
        self.assertRaises(TypeError, halivomue.provision, self.sent, None)

    def test_nothing_is_printed(self):
        self.samples()
        code = "import halivomue, sys; [halivomue.provision(*sys.argv[1:], dry_run=dry) for dry in (True, False)]"
        done = subprocess.run([sys.executable, "-c", code, self.sent, self.filed], env=dict(os.environ, PYTHONPATH=str(ROOT / "python")),
                              capture_output=True, check=True)
        self.assertEqual((done.stdout, done.stderr), (b"", b""))

    def test_failures(self):
        with self.assertRaises(halivomue.Failed) as caught:
            halivomue.provision(self.folder + "/none", self.filed)
        self.assertEqual(str(caught.exception), f"{self.folder}/none: No such file or directory")

    def test_a_callback_that_raises_ends_the_run(self):
        """Which is taken up again by the same call."""
        fleet.write(self.sent, 60, 40)
        provision_here(self.sent, self.filed + "2")
        for jobs in (1, 2):
            filed = self.filed + f"-{jobs}"
            seen = []

            def stop(row, seen=seen):
                seen.append(row)
                if len(seen) == 20:
                    raise KeyError(row.name)

            self.assertRaises(KeyError, halivomue.provision, self.sent, filed, jobs=jobs, each=stop)
            self.assertFalse(os.path.exists(os.path.join(filed, "report.csv")))
            outcome = halivomue.provision(self.sent, filed, jobs=jobs)
            self.assertGreater(outcome.kept, 10)
            self.assertEqual(tree(filed), tree(self.filed + "2"))


if __name__ == "__main__":
    unittest.main()
