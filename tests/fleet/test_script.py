"""The script `halivomue` in a small repository of its own: stopped while it builds, asked for help, and file modes."""

import os
import shutil
import signal
import stat
import subprocess
import time

from common import PROGRAM, ROOT, Case, sample, unittest

# A toolchain that works until the file `hold` is gone, with a process of its own; with `stubborn` both ignore SIGTERM.
TOOLCHAIN = """#!/bin/sh
cd "$(dirname "$0")/.." || exit
[ ! -e stubborn ] || trap '' TERM
echo start >>starts
sleep 30 &
echo $! >child
echo $$ >rt
for crate in a b c d e; do echo "logic=proved fns=1 ($crate)"; done
while [ -e hold ]; do sleep 0.05; done
kill -KILL $(cat child)
mkdir -p crates/halivomue/out
cp toolchain/program crates/halivomue/out/halivomue
"""


def until(condition, seconds=20):
    end = time.monotonic() + seconds
    while not condition():
        if time.monotonic() > end:
            raise AssertionError("nothing came of it")
        time.sleep(0.02)


def lives(pid):
    """Is there such a process that isn't a zombie?"""
    try:
        with open(f"/proc/{pid}/stat") as file:
            return file.read().rpartition(")")[2].split()[0] != "Z"
    except OSError:
        return False


class Script(Case):
    def setUp(self):
        super().setUp()
        subprocess.run([ROOT / "tests/program/tree"], cwd=self.folder, check=True)
        self.tree = os.path.join(self.folder, "t")
        self.put("toolchain/rt", TOOLCHAIN.encode(), self.tree)
        self.addCleanup(self.end_all)

    def end_all(self):
        for name in ("rt", "child"):
            if os.path.exists(self.at(name)) and lives(self.number(name)):
                os.kill(self.number(name), signal.SIGKILL)

    def at(self, name):
        return os.path.join(self.tree, name)

    def number(self, name):
        with open(self.at(name)) as file:
            return int(file.read())

    def start(self, *words):
        def not_ignored():
            # as they are where the tests run in the background or under nohup; the script can't trap a signal that is ignored
            for number in (signal.SIGINT, signal.SIGHUP):
                signal.signal(number, signal.SIG_DFL)

        return subprocess.Popen([self.at("start"), *words], stdout=subprocess.PIPE, stderr=subprocess.PIPE, stdin=subprocess.DEVNULL,
                                preexec_fn=not_ignored)

    def building(self, *marks):
        for name in ("rt", "child"):
            if os.path.exists(self.at(name)):
                os.unlink(self.at(name))
        for name in ("hold", *marks):
            self.put(name, b"", self.tree)
        started = self.start("--version")
        until(lambda: os.path.exists(self.at("rt")) and os.path.getsize(self.at("rt")))
        return started

    def locked(self):
        return subprocess.run(["flock", "-n", self.at("build/halivomue.lock"), "true"], check=False).returncode != 0

    def test_stopped_while_it_builds(self):
        """Before, rt went on, and the next start ran another in the same folders."""
        for number, status in ((signal.SIGTERM, 143), (signal.SIGINT, 130), (signal.SIGHUP, 129)):
            started = self.building()
            started.send_signal(number)
            out, said = started.communicate(timeout=20)
            self.assertEqual((started.returncode, out), (status, b""), said)
            self.assertEqual(said.splitlines()[-1], b"halivomue: stopped while it was proving and building the program")
            self.assertFalse(lives(self.number("rt")) or lives(self.number("child")))
            self.assertFalse(self.locked())
        os.unlink(self.at("hold"))
        self.assertEqual(self.start("--version").communicate(timeout=20)[0].split()[0], b"halivomue")

    def test_progress_is_told(self):
        script = self.building()
        time.sleep(2.5)
        os.unlink(self.at("hold"))
        said = script.communicate(timeout=20)[1].decode()
        self.assertRegex(said, r"(?m)^halivomue: 5 of [0-9]+ crates proved$")
        self.assertEqual(said.count("crates proved"), 1)

    def test_the_lock_is_held_until_rt_is_gone(self):
        started = self.building("stubborn")
        started.send_signal(signal.SIGTERM)
        held = []
        while lives(self.number("rt")):
            held.append(self.locked())
            self.assertLess(len(held), 150)
            time.sleep(0.1)
        self.assertGreater(len(held), 10)
        self.assertTrue(all(held[:-1]))
        started.communicate(timeout=20)
        self.assertEqual(started.returncode, 143)
        self.assertFalse(self.locked())

    def test_a_killed_script(self):
        """The next start waits until rt has ended, and then brings the build to its end."""
        started = self.building()
        started.kill()
        started.communicate()
        self.assertTrue(lives(self.number("rt")) and self.locked())
        again = self.start("--version")
        time.sleep(0.5)
        with open(self.at("starts")) as file:
            self.assertEqual(file.read(), "start\n")
        os.unlink(self.at("hold"))
        out, said = again.communicate(timeout=20)
        self.assertEqual(out.split()[0], b"halivomue")
        self.assertIn(b"waiting for another start", said)

    def test_help_before_anything_is_built(self):
        """It is the program's, word for word, and nothing is built for it."""
        due = subprocess.run([PROGRAM, "--help"], capture_output=True, check=True).stdout
        (source,) = (ROOT / "crates").glob("*/src/help.rt")
        shutil.copy(source, self.at("crates/two/src"))
        for words in (["--help"], ["read", "--help", "x"], ["--words", "--help", "--", "x"]):
            started = self.start(*words)
            out, said = started.communicate(timeout=20)
            self.assertEqual((started.returncode, out, said), (0, due, b""))
        self.assertFalse(os.path.exists(self.at("starts")))
        for words in (["--halp", "--help"], ["read", "--", "--help"]):
            self.start(*words).communicate(timeout=20)
        self.assertTrue(os.path.exists(self.at("starts")))


class Modes(Case):
    """`shorten` gives OUT the mode of IN, less what the umask takes away."""

    def shorten(self, *words, umask=0o022):
        done = subprocess.run([ROOT / "halivomue", *words], cwd=self.sent, capture_output=True, stdin=subprocess.DEVNULL,
                              preexec_fn=lambda: os.umask(umask), check=False)
        self.assertEqual(done.returncode, 0, done.stderr)

    def mode(self, name):
        return stat.S_IMODE(os.stat(os.path.join(self.sent, name)).st_mode)

    def test_modes(self):
        """Before, 0600 became 0644."""
        for mode, umask, due in ((0o600, 0o022, 0o600), (0o640, 0o022, 0o640), (0o644, 0o022, 0o644), (0o660, 0o007, 0o660),
                                 (0o644, 0o077, 0o600), (0o444, 0o022, 0o444)):
            os.chmod(self.put("in.call", sample("printed")), mode)
            self.shorten("shorten", "in.call", "out.call", umask=umask)
            self.assertEqual(self.mode("out.call"), due, oct(mode))
            os.unlink(os.path.join(self.sent, "out.call"))
            self.shorten("shorten", "in.call", "in.call", umask=umask)
            self.assertEqual(self.mode("in.call"), due, oct(mode))
            os.unlink(os.path.join(self.sent, "in.call"))

    def test_how_it_is_named(self):
        for words in (["--words", "shorten", "-in", "out"], ["shorten", "--words", "./-in", "out"], ["--", "shorten", "-in", "out"],
                      ["shorten", "--", "-in", "out"], ["shorten", "new\nline\n", "out"]):
            name = words[-2]
            if words[:2] == ["--words", "shorten"]:
                words.insert(2, "--")
            os.chmod(self.put(name, sample("printed")), 0o600)
            self.shorten(*words)
            self.assertEqual(self.mode("out"), 0o600, words)
            os.unlink(os.path.join(self.sent, "out"))

    def test_standard_input(self):
        with open(self.put("in.call", sample("printed"))) as file:
            subprocess.run([ROOT / "halivomue", "shorten", "-", "out"], cwd=self.sent, stdin=file, capture_output=True,
                           preexec_fn=lambda: os.umask(0o022), check=True)
        self.assertEqual(self.mode("out"), 0o644)


if __name__ == "__main__":
    unittest.main()
