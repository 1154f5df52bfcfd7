"""show, explain and diff as commands, and what docs/MENDING.md shows of them."""

import errno
import fcntl
import os
import pty
import re
import struct
import subprocess
import sys
import termios

from common import ROOT, Case, halivomue, run, sample, unittest

import fleet
from halivomue import Procedure, instruction, listing, roles, show, styled

ENVIRONMENT = dict(os.environ, PYTHONPATH=str(ROOT / "python"), PYTHONDONTWRITEBYTECODE="1", LC_ALL="C.UTF-8", TERM="xterm")


def on_a_terminal(folder, *words, **environment):
    """What a command writes to a terminal of 90 columns."""
    main, side = pty.openpty()
    fcntl.ioctl(side, termios.TIOCSWINSZ, struct.pack("HHHH", 24, 90, 0, 0))
    with subprocess.Popen([sys.executable, "-m", "halivomue", *words], stdin=subprocess.DEVNULL, stdout=side, stderr=side,
                          cwd=folder, env={**ENVIRONMENT, **environment}) as process:
        os.close(side)
        found = b""
        while True:
            try:
                more = os.read(main, 65536)
            except OSError as error:
                if error.errno != errno.EIO:
                    raise
                break
            if not more:
                break
            found += more
        process.wait()
    os.close(main)
    return found.decode().replace("\r\n", "\n")


class Commands(Case):
    def setUp(self):
        super().setUp()
        self.samples()

    def at(self, name):
        return os.path.join(self.sent, name)

    def test_show(self):
        said, _ = run("show", "forwarding.call", cwd=self.sent)
        self.assertIn("forwarding.call, as sent: 11 registers, 8 blocks, 28 instructions, 2 tables; tidy\n", said)
        self.assertIn("registers: r0 Ptr, r1 to r3 I64", said)
        self.assertIn("block 1 (body), from blocks 0 and 5\n", said)
        self.assertRegex(said, r"  21  r7 = Cmp r1 < r2 +r2 is 5\n")
        self.assertIn("  32  Case r5 by table 0\n        8..17 -> block 3\n        0..7 -> block 4\n", said)
        said, _ = run("show", "--short", "printed.call", cwd=self.sent)
        self.assertIn("block 2, not reached from block 0\n  14  Br block 3\n", said)

    def test_show_has_every_instruction(self):
        """In either form each line is there, in order, and constants are those of the file as sent."""
        for seed in range(12):
            p = fleet.procedure(seed, 30 + 30 * seed)
            form = Procedure.parse(halivomue.shorten(bytes(p)).data)
            for short, shown in ((False, p), (True, form)):
                lines = styled.plain(show.lines(bytes(p), "x", short, 200)).splitlines()
                found = [line for line in lines if re.match(r" +\d+  \S", line)]
                self.assertEqual(len(found), len(shown.code))
                for line, i in zip(found, shown.code):
                    self.assertTrue(line.split(None, 1)[1].startswith(listing.brief(shown, i)), line)
                    self.assertEqual(int(line.split()[0]), i.statement)
                self.assertEqual(bool(form.registers[len(p.registers) :]) and short, any("new registers" in line for line in lines))

    def test_constants_are_those_of_the_file_as_sent(self):
        """A register that two Consts write in the file isn't a constant, though only one of them may be left in the shortened form."""
        code = [[instruction("Const", dst=0, v=1), instruction("Const", dst=1, v=7), instruction("Br", to=2)],
                [instruction("Const", dst=0, v=2), instruction("Stmt"), instruction("Br", to=2)],
                [instruction("CondBr", c=0, t=2, f=3)], [instruction("Store", "B8", addr=1, src=0), instruction("Ret", v=0)]]
        p = Procedure(["I64", "I64"], code)
        self.assertEqual(show.constants(p), {1: "7"})
        form = Procedure.parse(halivomue.shorten(bytes(p)).data)
        self.assertEqual(sum(0 in roles.written(i) for i in form.code), 1)
        self.assertNotIn("r0 is", styled.plain(show.lines(bytes(p), "x", True)))

    def test_diff(self):
        said, _ = run("diff", "printed.call", cwd=self.sent)
        self.assertTrue(said.startswith("printed.call: moved 1 grown 2 fresh 0 rescued 0\n"))
        self.assertIn("+ 14  CondBr r0 ? block 1 : block 3  from block 2\n  * the Br to block 2 gives way to a copy of block 2\n", said)
        self.assertIn("block 2, emptied\n", said)
        self.assertIn("block 3: unchanged\n", said)
        self.assertNotIn("Ret", said)
        self.assertIn("Ret", run("diff", "--all", "printed.call", cwd=self.sent)[0])
        self.assertIn("nothing was done: no Br or CondBr leads to its own block", run("diff", "forwarding.call", cwd=self.sent)[0])

    def test_diff_says_which_value_decided(self):
        """A known word with the instructions that make it known; a copy; a constant left out; a new register; what is rescued."""
        code = [
            [instruction("Const", "", 10, dst=0, v=0), instruction("Move", "", 11, dst=1, src=0), instruction("CondBr", "", 12, c=1, t=1, f=2)],
            [instruction("Const", "", 20, dst=2, v=7), instruction("Stmt", "", 21), instruction("Stmt", "", 22), instruction("Br", "", 23, to=2)],
            [instruction("Cmp", "Eq", 30, dst=3, a=4, b=4), instruction("CondBr", "", 31, c=3, t=2, f=3)],
            [instruction("Ret", "", 40)],
        ]
        self.put("d.call", bytes(Procedure(["I64"] * 5, code)))
        said = " ".join(run("diff", "d.call", cwd=self.sent)[0].split())
        self.assertIn("r1 is a copy of r0 (r1 = Move r0, statement 11), and r0 is 0 (r0 = Const 0, statement 10): the CondBr becomes a Br to block 2", said)
        self.assertIn("the Br to block 2 gives way to a copy of block 2, with r5 in place of r3", said)
        self.assertIn("block 1, emptied", said)
        self.assertIn("no way from block 0 leads here any more: it becomes a Br; rescued to the front of block 0: r2 = Const 7, statement 20", said)
        self.assertIn("^ 20 r2 = Const 7 from block 1", said)

    def test_explain(self):
        said, _ = run("explain", "refused.call", "untidy.call", "printed.call", cwd=self.sent, status=1)
        self.assertIn("refused.call: refused 7 9\n  record 9: p1 (dst) names register 1, and there is 1 register\n"
                      "record 9, bytes 288 to 319, instruction 4 of the file\n", said)
        self.assertRegex(said, r"p1 +1  dst: a register  <- wanted: register 0 only\n")
        self.assertIn("untidy.call: accepted, not tidy: register 5 (I64)\n  written  record 30, block 2, statement 30: r5 = CallNative 1 ()\n", said)
        self.assertIn("  read     record 33, block 3, statement 39: r7 = Cmp r5 == r5\n           in another block\n", said)
        self.assertIn("printed.call: accepted, tidy\n", said)
        self.assertIn("line end", run("explain", os.fsdecode(self.put("n.call", sample("printed") + b"\n")), status=1)[0])

    def test_not_shortened(self):
        """What Read accepts and Shorten refuses."""
        path = os.fsdecode(self.put("many.call", bytes(Procedure(["I64"] * 481, [[instruction("Ret")]]))))
        said, _ = run("explain", path, status=1)
        self.assertIn("many.call: accepted, tidy\n", said)
        self.assertIn("many.call: shortening is refused 8 0\n  the file has 481 registers, and at most 480 are shortened\n", said)
        self.assertIn("as sent: 481 registers", run("show", path)[0])
        self.assertIn("refused 8 0 (the file has 481 registers", run("show", "--short", path, status=1)[1])

    def test_files_that_cannot_be_read(self):
        said, wrong = run("show", "none\n.call", "printed.call", self.sent, cwd=self.sent, status=1)
        self.assertIn("printed.call, as sent", said)
        self.assertIn("none\\x0a.call: cannot be read: No such file or directory\n", wrong)
        self.assertIn(f"{self.sent}: cannot be read: Is a directory\n", wrong)
        self.assertIn("refused 7 9 (record 9: p1 (dst) names register 1", run("diff", "refused.call", cwd=self.sent, status=1)[1])

    def test_links_and_standard_input(self):
        os.symlink("printed.call", self.at("link.call"))
        self.assertIn("link.call, as sent: 1 register", run("show", self.at("link.call"))[0])
        done = subprocess.run([sys.executable, "-m", "halivomue", "show", "-"], input=sample("printed"), capture_output=True,
                              env=ENVIRONMENT, check=True)
        self.assertIn(b"-, as sent: 1 register", done.stdout)

    def test_a_reader_that_goes_away(self):
        path = os.fsdecode(self.put("large.call", bytes(fleet.procedure(3, 470))))
        done = subprocess.run(["bash", "-c", f"{sys.executable} -m halivomue show {path} {path} {path} | head -1"], capture_output=True,
                              env=ENVIRONMENT, check=True)
        self.assertEqual((done.stdout.count(b"\n"), done.stderr), (1, b""))

    def test_colour(self):
        """On a terminal there is colour, and without it the text is the same; NO_COLOR and a pipe have none."""
        for words in (("show", "forwarding.call"), ("diff", "printed.call"), ("explain", "untidy.call", "refused.call")):
            coloured, plain = on_a_terminal(self.sent, *words), on_a_terminal(self.sent, *words, NO_COLOR="1")
            self.assertIn("\x1b[", coloured)
            self.assertNotIn("\x1b", plain)
            self.assertEqual(re.sub(r"\x1b\[[0-9;]*m", "", coloured), plain)
            self.assertLessEqual(max(map(len, plain.splitlines())), 90)
            self.assertNotIn("\x1b", on_a_terminal(self.sent, *words, TERM="dumb"))
        self.assertNotIn("\x1b", run("diff", self.at("printed.call"))[0])


class Mending(Case):
    def record(self, line):
        """A record of the page: class, kind, op, statement, p1 and so on."""
        numbers = [int(word) for word in line.split(";")[0].split()]
        return struct.pack("<4B7I", *numbers[:3], 0, *numbers[3:], *[0] * (10 - len(numbers)))

    def test_what_the_page_shows_of_explain(self):
        """docs/MENDING.md's files and its examples with the package."""
        text = (ROOT / "docs/MENDING.md").read_text()
        blocks = [[line[4:] for line in block.splitlines()] for block in re.findall(r"(?:^    .*\n)+", text, re.M)]
        for name, *lines in blocks:
            if name.endswith(".call:"):
                self.put(name[:-1], b"".join(self.record(line) for line in lines))
        tried = 0
        for block in blocks:
            due = []
            for line in reversed(block):
                if line.startswith("$ python3 -m halivomue "):
                    said, wrong = run(*line.split()[4:], cwd=self.sent, status=1 if "refused" in "".join(due) else 0)
                    self.assertEqual((said + wrong).splitlines(), due[::-1], line)
                    tried, due = tried + 1, []
                else:
                    due.append(line)
        self.assertGreater(tried, 1)


if __name__ == "__main__":
    unittest.main()
