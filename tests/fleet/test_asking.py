"""read, tidy, list and shorten of the package: the program's answers, in JSON too, and several files at once."""

import json
import os
import stat
import subprocess

from common import PROGRAM, SAMPLES, Case, halivomue, run, sample, tree, unittest

import fleet


class Asked(Case):
    def setUp(self):
        super().setUp()
        self.samples()
        make = halivomue.instruction
        early = [make("Load", "B8", dst=1, addr=0), make("AddrOf", "Frame", dst=0, off=1), make("Ret")]
        self.put("early.call", bytes(halivomue.Procedure(["Ptr", "I64"], [early])))
        for seed in range(20):
            self.put(f"{seed}.call", fleet.damaged(seed) if seed % 4 == 0 else bytes(fleet.procedure(seed, 20 * seed + 10, untidy=seed % 3 == 0)))
        self.put("large.call", bytes(halivomue.Procedure(["I64"] * 481, [[make("Ret")]])))
        self.names = sorted(os.listdir(self.sent))

    def program(self, *words, **more):
        return subprocess.run([PROGRAM, *words], cwd=self.sent, capture_output=True, check=True, **more).stdout.decode()

    def test_the_programs_lines(self):
        for command in ("read", "tidy", "list"):
            self.assertEqual(run(command, *self.names, status=1, cwd=self.sent)[0], self.program(command, *self.names))
            self.assertEqual(run(command, "printed.call", cwd=self.sent)[0], self.program(command, "printed.call"))
        self.assertEqual(run("read", "--words", *self.names, status=1, cwd=self.sent)[0], self.program("read", "--words", *self.names))

    def test_json(self):
        """The same answers, a line each."""
        for command in ("read", "tidy", "list"):
            told = [json.loads(line) for line in run(command, "--json", *self.names, status=1, cwd=self.sent)[0].splitlines()]
            self.assertEqual([one["name"] for one in told], self.names)
            for one in told:
                data = open_bytes(os.path.join(self.sent, one["name"]))
                try:
                    halivomue.shorten(data) if command == "list" else halivomue.Procedure.parse(data)
                except halivomue.Refused as refused:
                    self.assertEqual(one, {"name": one["name"], "answer": "refused", "number": refused.number, "record": refused.record,
                                           "reason": refused.reason})
                    continue
                self.assertEqual(one["answer"], "accepted")
                if command == "tidy":
                    answer = halivomue.tidy(data)
                    self.assertEqual((one["tidy"], one.get("reg", 0), one.get("reason", "")), (answer.tidy, answer.reg, answer.reason))
                if command == "list":
                    lines = [f"reg {n} {kind}" for n, kind in enumerate(one["registers"])]
                    lines += [f"block {n} {start} {end}" for n, (start, end) in enumerate(one["blocks"])]
                    lines += ["code " + " ".join(map(str, [n, *numbers])) for n, numbers in enumerate(one["code"])]
                    counts = " ".join(f"{name} {one[name]}" for name in ("moved", "grown", "fresh", "rescued"))
                    self.assertEqual("\n".join([counts, *lines]) + "\n", halivomue.shorten(data).listing())

    def test_files_that_cannot_be_read(self):
        out, said = run("read", "--json", "none", "printed.call", status=1, cwd=self.sent)
        self.assertEqual([json.loads(line) for line in out.splitlines()],
                         [{"name": "none", "answer": "unreadable", "reason": "No such file or directory"}, {"name": "printed.call", "answer": "accepted"}])
        self.assertEqual(said, "")
        self.assertEqual(run("tidy", "none", ".", status=1, cwd=self.sent)[0], "none: unreadable: No such file or directory\n.: unreadable: Is a directory\n")

    def test_standard_input(self):
        words = ["read", "--json"], ["tidy", "--json", "-"], ["list"]
        due = '{"answer": "accepted"}\n', '{"name": "-", "answer": "accepted", "tidy": true}\n', self.program("list", "printed.call")
        for more, out in zip(words, due):
            with open(os.path.join(self.sent, "printed.call"), "rb") as file:
                self.assertEqual(run(*more, stdin=file)[0], out)

    def test_long_files_and_odd_names(self):
        with open(self.put(b"long\n\xff", b""), "r+b") as file:
            file.truncate(1 << 40)
        out, _ = run("read", "--json", b"long\n\xff", status=1, cwd=self.sent)
        self.assertEqual(json.loads(out)["name"], "long\\x0a\\xff")
        self.assertEqual(json.loads(out)["number"], 1)


class Shortened(Case):
    def setUp(self):
        super().setUp()
        self.samples()
        self.out = os.path.join(self.folder, "out")
        os.mkdir(self.out)

    def test_several_into_a_folder(self):
        paths = [str(path) for path in sorted(SAMPLES.glob("*.call"))]
        out, _ = run("shorten", *paths, self.out + "/", status=1)
        self.assertEqual([line.rsplit("/", 1)[1] for line in out.splitlines()],
                         ["forwarding.call: moved 0 grown 0 fresh 0 rescued 0 price 11", "printed.call: moved 1 grown 2 fresh 0 rescued 0 price 3",
                          "refused.call: refused 7 9", "untidy.call: moved 0 grown 0 fresh 0 rescued 0 price 12"])
        self.assertEqual(sorted(os.listdir(self.out)), ["forwarding.call", "printed.call", "untidy.call"])
        for name in ("forwarding", "printed", "untidy"):
            self.assertEqual(open_bytes(os.path.join(self.out, name + ".call")), halivomue.shorten(sample(name)).data)

    def test_json(self):
        name, out = os.path.join(self.sent, "printed.call"), os.path.join(self.out, "x")
        told = json.loads(run("shorten", "--json", name, out)[0])
        self.assertEqual(told, {"name": name, "answer": "accepted", "moved": 1, "grown": 2, "fresh": 0, "rescued": 0, "price": 3, "out": out})

    def test_over_themselves(self):
        """IN's own folder may be OUT; modes stay."""
        names = [name for name in sorted(os.listdir(self.sent)) if name != "refused.call"]
        for name in names:
            os.chmod(os.path.join(self.sent, name), 0o600)
        run("shorten", *names, ".", cwd=self.sent)
        for name in names:
            self.assertEqual(open_bytes(os.path.join(self.sent, name)), halivomue.shorten(sample(name[:-5])).data)
            self.assertEqual(stat.S_IMODE(os.stat(os.path.join(self.sent, name)).st_mode), 0o600)

    def test_what_cannot_be(self):
        before = tree(self.folder)
        for words, why in (
            (["sent/printed.call", "sent/untidy.call", "none"], "none: several files are shortened into a folder, and this is none"),
            (["sent/printed.call", "none/"], "none/: several files are shortened into a folder, and this is none"),
            (["sent/printed.call", "./sent/printed.call", "out"], "./sent/printed.call: there is no name of its own for it in out"),
            (["-", "out"], "-: there is no name of its own for it in out"),
        ):
            out, said = run("shorten", *words, status=2, cwd=self.folder)
            self.assertEqual((out, said), ("", f"halivomue shorten: {why}\n"))
        os.symlink("printed.call", os.path.join(self.sent, "link"))
        out, _ = run("shorten", "sent/printed.call", "none", "sent/link", status=2, cwd=self.folder)
        out, _ = run("shorten", "sent/printed.call", "sent/link", status=1, cwd=self.folder)
        self.assertEqual(out, "sent/printed.call: failed: sent/link: cannot be written: a symbolic link\n")
        out, _ = run("shorten", "none", "out", status=1, cwd=self.folder)
        self.assertEqual(out, "none: unreadable: No such file or directory\n")
        os.unlink(os.path.join(self.sent, "link"))
        self.assertEqual(tree(self.folder), before)


def open_bytes(path):
    with open(path, "rb") as file:
        return file.read()


if __name__ == "__main__":
    unittest.main()
