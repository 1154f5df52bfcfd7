"""The commands on a terminal, in a log, with no reader, and interrupted."""

import contextlib
import io
import os
import pty
import signal
import subprocess
import sys
import time

from common import ROOT, Case, accounts_of, provision_here, provisioning, replaced, run, sample, unbilled, unittest

import fleet
from halivomue import report
from halivomue.__main__ import main


def heed_interrupts():
    """A shell's background jobs, as a gate may be, are started with SIGINT ignored, and so are their children."""
    signal.signal(signal.SIGINT, signal.SIG_DFL)


class Terminal(Case):
    def on_terminal(self, *words):
        """What a run writes to a terminal on standard error, with the modules of this test's folder."""
        here, there = pty.openpty()
        path = self.folder + os.pathsep + str(ROOT / "python")
        process = subprocess.Popen([sys.executable, "-m", "halivomue", *words], stdout=subprocess.PIPE, stderr=there,
                                   env=dict(os.environ, PYTHONPATH=path, TERM="xterm"))
        os.close(there)
        shown = b""
        with contextlib.suppress(OSError):
            more = os.read(here, 4096)
            while more:
                shown += more
                more = os.read(here, 4096)
        os.close(here)
        process.communicate()
        return shown.decode()

    def test_a_line_without_tqdm(self):
        fleet.write(self.sent, 120, 40)
        self.put("tqdm.py", b"raise ImportError", self.folder)
        shown = self.on_terminal("provision", self.sent, self.filed)
        self.assertRegex(shown, r"\d+ of 120 files, \d+ a second, \d+:\d\d left")
        self.assertTrue(shown.endswith("\r\x1b[K"))

    def test_tqdm_where_it_is_installed(self):
        """A stand-in for tqdm is given the total, and an update for every file."""
        fleet.write(self.sent, 50, 40)
        self.put("tqdm.py", b"""class tqdm:
    def __init__(self, total, unit, file, dynamic_ncols, leave): self.file = file; self.n = 0; file.write('BAR %d' % total)
    def update(self, n): self.n += n
    def clear(self): pass
    def close(self): self.file.write('DONE %d' % self.n)
""", self.folder)
        shown = self.on_terminal("provision", self.sent, self.filed)
        self.assertIn("BAR 50", shown)
        self.assertIn("DONE 50", shown)
        shown = self.on_terminal("audit", self.filed)
        self.assertIn("DONE", shown)
        shown = self.on_terminal("page", self.filed, "--out", os.path.join(self.folder, "p.html"), "--most", "5")
        self.assertIn("BAR 5", shown)
        self.assertIn("DONE 5", shown)

    def test_none_in_a_log(self):
        fleet.write(self.sent, 30, 40)
        done = subprocess.run([sys.executable, "-m", "halivomue", "provision", self.sent, self.filed], capture_output=True,
                              env=dict(os.environ, PYTHONPATH=str(ROOT / "python")), check=False)
        self.assertEqual(done.stderr, b"")
        self.assertNotIn(b"\r", done.stdout)

    def test_nobody_reads_the_dry_run(self):
        fleet.write(self.sent, 40, 40)
        words = [sys.executable, "-m", "halivomue", "provision", "--dry-run", self.sent, self.filed]
        process = subprocess.Popen(words, stdout=subprocess.PIPE, stderr=subprocess.PIPE, env=dict(os.environ, PYTHONPATH=str(ROOT / "python")))
        process.stdout.close()
        said = process.stderr.read().decode()
        process.stderr.close()
        self.assertEqual((process.wait(), said.splitlines()[-1]), (2, "halivomue provision: Broken pipe"))

    def test_nobody_reads_the_output(self):
        """The run goes on if its output is closed."""
        fleet.write(self.sent, 40, 40)
        words = [sys.executable, "-m", "halivomue", "provision", self.sent, self.filed]
        process = subprocess.Popen(words, stdout=subprocess.PIPE, stderr=subprocess.PIPE, env=dict(os.environ, PYTHONPATH=str(ROOT / "python")))
        process.stdout.close()
        said = process.stderr.read()
        process.stderr.close()
        self.assertIn(process.wait(), (0, 1))
        self.assertEqual(said, b"")
        self.assertTrue(os.path.exists(os.path.join(self.filed, "report.csv")))

    def test_stopped_by_a_signal(self):
        for number in range(1500):
            self.put(f"{number % 10}/{number:04d}.call", sample("printed" if number % 500 else "refused"))
        run("provision", "--no-flush", self.sent, self.filed + "2", status=1)
        for number in (signal.SIGINT, signal.SIGTERM):
            filed = self.filed + str(int(number))
            words = [sys.executable, "-m", "halivomue", "provision", "--jobs", "2", self.sent, filed]
            process = subprocess.Popen(words, stdout=subprocess.PIPE, stderr=subprocess.PIPE, preexec_fn=heed_interrupts,
                                       env=dict(os.environ, PYTHONPATH=str(ROOT / "python")))
            part = os.path.join(filed, ".halivomue/part.csv")
            end = time.monotonic() + 20
            while not (os.path.exists(part) and os.path.getsize(part) > 4000) and time.monotonic() < end:
                time.sleep(0.005)
            process.send_signal(number)
            _, said = process.communicate()
            self.assertEqual(process.returncode, 2, said)
            self.assertEqual(said, b"halivomue provision: interrupted; the same command goes on where it stopped\n")
            out, _ = run("provision", "--no-flush", self.sent, filed, status=1)
            self.assertIn("were filed already", out)
            # Where the signal came at the very end, this was a run of its own, which billed nothing.
            self.assertEqual(unbilled(filed), unbilled(self.filed + "2"))
            self.assertEqual(accounts_of(filed), accounts_of(self.filed + "2"))


class Interrupted(Case):
    """What is said by a command that is interrupted: only the run goes on where it stopped."""

    def test_the_others(self):
        self.put("a.call", sample("printed"))
        provision_here(self.sent, self.filed)

        def interrupted(*_, **__):
            raise KeyboardInterrupt

        for owner, name, words, due in (
            (report, "Checked", ["audit", self.filed], "interrupted"),
            (report, "Checked", ["page", self.filed, "--out", self.folder + "/p.html"], "interrupted"),
            (provisioning, "Walk", ["provision", "--dry-run", self.sent, self.filed], "interrupted"),
            (provisioning, "Walk", ["provision", self.sent, self.filed], "interrupted; the same command goes on where it stopped"),
        ):
            out, said = io.StringIO(), io.StringIO()
            with replaced(owner, name, interrupted), contextlib.redirect_stdout(out), contextlib.redirect_stderr(said):
                self.assertEqual(main(words), 2)
            self.assertEqual(said.getvalue(), f"halivomue {words[0]}: {due}\n")


if __name__ == "__main__":
    unittest.main()
