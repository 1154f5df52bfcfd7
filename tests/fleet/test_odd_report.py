"""Odd reports, and pipes, links and folders in the place of the run's own files: reported in a line, without blocking."""

import csv
import io
import os
import resource
import shutil
import subprocess
import sys

from common import ROOT, Case, halivomue, lines_of, provision_here, run, sample, unbilled, unittest


class Odd(Case):
    def setUp(self):
        super().setUp()
        self.put("a.call", sample("printed"))
        self.put("b.call", sample("printed"))
        provision_here(self.sent, self.filed)
        self.before = unbilled(self.filed)
        self.out = os.path.join(self.folder, "page.html")

    def at(self, name):
        return os.path.join(self.filed, name)

    def commands(self):
        return (("audit", self.filed), ("page", self.filed, "--out", self.out), ("provision", self.sent, self.filed))

    def started(self, *words, seconds=20, **more):
        """Status, output and what was said, of a command that must not wait for anybody."""
        environment = dict(os.environ, PYTHONPATH=str(ROOT / "python"))
        done = subprocess.run([sys.executable, "-m", "halivomue", *words], capture_output=True, env=environment,
                              stdin=subprocess.DEVNULL, timeout=seconds, check=False, **more)
        self.assertNotIn(b"Traceback", done.stderr, done.stderr.decode())
        self.assertLessEqual(len(done.stderr.splitlines()), 1, done.stderr.decode())
        return done.returncode, done.stdout.decode(), done.stderr.decode()


class Names(Odd):
    """A name in the report that isn't that of a file below FILED."""

    def rename(self, name):
        with open(self.at("report.csv"), newline="") as file:
            lines = list(csv.reader(file))
        lines[2][0] = name
        out = io.StringIO()
        csv.writer(out, lineterminator="\n").writerows(lines)
        with open(self.at("report.csv"), "w") as file:
            file.write(out.getvalue())

    def test_names(self):
        """Before, a NUL was a traceback of all three, and the page drew files outside FILED."""
        outside = self.put("outside.call", sample("printed"), self.folder)
        self.put("outside.call.short", halivomue.shorten(sample("printed")).data, self.folder)
        for name in ("b\\x00.call", "../outside.call", os.fsdecode(outside), "a/../b.call", "a//b.call", "./b.call", "b.call/", "\\x62.call"):
            self.rename(name)
            status, out, _ = self.started("audit", self.filed)
            self.assertEqual(status, 1)
            self.assertIn("report.csv: report: line 3: no name of a file\n", out)
            status, out, said = self.started("page", self.filed, "--out", self.out)
            self.assertEqual((status, out, said), (2, "", f"halivomue page: {self.at('report.csv')}: line 3: no name of a file\n"))
            self.assertFalse(os.path.exists(self.out))
            status, _, said = self.started("provision", self.sent, self.filed)
            self.assertEqual((status, said), (0, ""))
            self.assertEqual(unbilled(self.filed), self.before)

    def test_control_characters_in_a_row(self):
        """They don't come into the next report, nor to a terminal."""
        with open(self.at("report.csv"), "rb") as file:
            text = file.read()
        with open(self.at("report.csv"), "wb") as file:
            file.write(text.replace(b"b.call,accepted,,,,", b"b.call,accepted,,,\x1b[31m,"))
        self.assertIn("line 3: no row of a report", self.started("audit", self.filed)[1])
        self.started("provision", self.sent, self.filed)
        self.assertEqual(unbilled(self.filed), self.before)

    def test_what_follows_a_damaged_line_is_still_known(self):
        """A file that isn't sent any more stays in the report."""
        os.unlink(os.path.join(self.sent, "b.call"))
        lines = lines_of(self.filed)
        with open(self.at("report.csv"), "w") as file:
            file.write("\n".join([lines[0], "hello", *lines[1:]]) + "\n")
        provision_here(self.sent, self.filed)
        self.assertIn("b.call,not sent", lines_of(self.filed)[2])
        run("audit", self.filed)


class Places(Odd):
    """Something else in the place of a file of the run's own."""

    def test_a_pipe(self):
        """Before, each of these hung."""
        for name in ("report.csv", "report.jsonl", ".halivomue/lock", ".halivomue/part.csv", ".halivomue/before.csv"):
            if os.path.exists(self.at(name)):
                os.unlink(self.at(name))
            os.mkfifo(self.at(name))
            for words in self.commands():
                status, out, said = self.started(*words)
                where = f"{self.at(name)}: not a regular file\n"
                if words[0] == "provision" or words[0] == "page" and name in ("report.csv", ".halivomue/lock"):
                    self.assertEqual((status, out, said), (2, "", f"halivomue {words[0]}: {where}"), name)
                elif words[0] == "audit" and name == ".halivomue/lock":
                    self.assertEqual((status, said), (2, f"halivomue audit: {where}"))
                elif words[0] == "audit":
                    self.assertEqual(status, 1)
                    self.assertTrue(out.startswith(f"{name}: "), out)
            os.unlink(self.at(name))
            provision_here(self.sent, self.filed)
            self.assertEqual(unbilled(self.filed), self.before)

    def test_a_link(self):
        """None is followed, to be read or to be written."""
        victim = os.fsdecode(self.put("victim", b"victim", self.folder))
        for name in ("report.csv", "report.jsonl", ".halivomue/lock", ".halivomue/part.csv", ".halivomue/before.csv"):
            kept = os.path.exists(self.at(name))
            if kept:
                shutil.move(self.at(name), os.path.join(self.folder, "kept"))
            os.symlink(os.path.join(self.folder, "kept") if kept else victim, self.at(name))
            status, out, said = self.started("provision", self.sent, self.filed)
            self.assertEqual((status, out, said), (2, "", f"halivomue provision: {self.at(name)}: a symbolic link, not followed\n"))
            os.unlink(self.at(name))
            provision_here(self.sent, self.filed)
            self.assertEqual(unbilled(self.filed), self.before)
        with open(victim) as file:
            self.assertEqual(file.read(), "victim")

    def test_the_runs_own_folder_is_a_link(self):
        os.rename(self.at(".halivomue"), os.path.join(self.folder, "own"))
        os.symlink(os.path.join(self.folder, "own"), self.at(".halivomue"))
        status, _, said = self.started("provision", self.sent, self.filed)
        self.assertEqual(status, 2)
        self.assertIn("a symbolic link, not followed", said)

    def test_a_temporary_file(self):
        """Whatever has its name is removed, and not opened."""
        victim = os.fsdecode(self.put("victim", b"victim", self.folder))
        self.put("a.call", sample("forwarding"))
        for make in (os.mkfifo, lambda path: os.symlink(victim, path)):
            for name in (".halivomue.0.sent.tmp", ".halivomue.0.short.tmp", ".halivomue/part.jsonl", ".halivomue/before.csv.tmp"):
                make(self.at(name))
            with open(self.at(".halivomue/part.csv"), "w") as file:
                file.write("name")
            status, _, said = self.started("provision", "--jobs", "1", "--json", self.sent, self.filed)
            self.assertEqual((status, said), (0, ""))
            os.unlink(self.at("report.jsonl"))
            self.put("a.call", sample("printed"))
        with open(victim) as file:
            self.assertEqual(file.read(), "victim")
        provision_here(self.sent, self.filed)
        self.assertEqual(unbilled(self.filed), self.before)


class Long(Odd):
    def test_a_line_of_three_gigabytes(self):
        """Before, it was read whole: here a process has less memory than that."""
        before = self.at("before.csv")
        os.rename(self.at("report.csv"), before)
        for name, due in (("report.csv", (1, 2, 0)), ("report.jsonl", (1, 0, 0))):
            shutil.copy(before, self.at("report.csv"))
            shutil.copy(before, self.at(name))
            os.truncate(self.at(name), 3 << 30)
            for words, status in zip(self.commands(), due):
                found, out, said = self.started(*words, preexec_fn=lambda: resource.setrlimit(resource.RLIMIT_AS, (1 << 30, 1 << 30)))
                self.assertEqual((name, words, found), (name, words, status), out + said)
                if (words[0], name) == ("audit", "report.csv"):
                    self.assertIn("report.csv: report: line 5: longer than a row can be\n", out)

    def test_many_wrong_lines(self):
        with open(self.at("report.csv"), "a") as file:
            file.write("x\n" * 200_000)
        _, out, _ = self.started("audit", self.filed)
        self.assertLess(len(out.splitlines()), 1100)
        self.assertIn("report.csv: report: what follows was not read", out)


if __name__ == "__main__":
    unittest.main()
