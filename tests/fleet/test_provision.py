"""The provisioning run: what it files, reports and says; its options; continued; odd files and folders."""

import collections
import csv
import errno
import fcntl
import io
import json
import os
import resource
import stat
import subprocess
import sys
import time

from common import (
    Case, ROOT, accounts_of, halivomue, in_child, lines_of, provision_here, provisioning, replaced, rows_of, run, sample, tree, unbilled, unittest,
)  # fmt: skip

import fleet
from halivomue import filer, filing, names, report
from halivomue.__main__ import main, parser

NOBODY = 65534


class Samples(Case):
    def test_output_and_tree(self):
        self.samples()
        out, said = run("provision", self.sent, self.filed, status=1)
        self.assertEqual(said, "")
        self.assertEqual(out.splitlines(), [
            "refused.call: refused 7 9 (record 9 names a register, block, table or list that does not exist)",
            "untidy.call: filed without a shortened form (register 5 is written once, and read elsewhere than later in the same block)",
            "4 files: 3 accepted, 1 refused, 0 unreadable, 1 untidy, 1 without a shortened form",
            "instructions 34 to 34, bytes 2336 to 2336, moved 1, grown 2, fresh 0, rescued 0, price 14, billed 14",
            f"the tally is 14 cents: {self.filed}/.halivomue/accounts",
            f"3 filed; report: {self.filed}/report.csv",
        ])
        due = {".halivomue", ".halivomue/lock", ".halivomue/accounts", "report.csv"}
        for name in ("forwarding", "printed", "untidy"):
            due |= {f"{name}.call"}
            with open(os.path.join(self.filed, f"{name}.call"), "rb") as file:
                self.assertEqual(file.read(), sample(name))
            if name == "untidy":
                continue
            due |= {f"{name}.call.short"}
            with open(os.path.join(self.filed, f"{name}.call.short"), "rb") as file:
                self.assertEqual(file.read(), halivomue.shorten(sample(name)).data)
        self.assertEqual({os.fsdecode(name) for name in tree(self.filed)}, due)

    def test_report(self):
        self.samples()
        run("provision", "--json", self.sent, self.filed, status=1)
        rows = rows_of(self.filed)
        self.assertEqual(list(rows), ["forwarding.call", "printed.call", "refused.call", "untidy.call", ""])
        printed = rows["printed.call"]
        self.assertEqual([printed[k] for k in ("answer", "tidy", "reg", "instructions_sent", "instructions_short", "bytes_sent",
                                               "bytes_short", "moved", "grown", "fresh", "rescued", "price", "billed", "filed")],
                         ["accepted", "yes", "", "6", "6", "352", "352", "1", "2", "0", "0", "3", "3", "yes"])
        self.assertEqual(len(printed["sha256_sent"]), 64)
        self.assertNotEqual(printed["sha256_sent"], printed["sha256_short"])
        self.assertEqual((rows["untidy.call"]["tidy"], rows["untidy.call"]["reg"]), ("no", "5"))
        refused = rows["refused.call"]
        self.assertEqual((refused["answer"], refused["number"], refused["record"], refused["filed"]), ("refused", "7", "9", "no"))
        self.assertEqual((rows[""]["answer"], rows[""]["grown"]), ("total", "2"))
        of_json = [json.loads(line) for line in lines_of(self.filed, "report.jsonl")]
        for mine, row in zip(of_json, rows.values()):
            self.assertEqual({k: str(v) for k, v in mine.items()}, {k: v for k, v in row.items() if v != ""})
        self.assertEqual(len(of_json), 5)

    def test_json_stays_in_step(self):
        """An existing report in JSON is rewritten, asked for or not."""
        self.samples()
        run("provision", "--json", self.sent, self.filed, status=1)
        os.unlink(os.path.join(self.sent, "refused.call"))
        run("provision", self.sent, self.filed)
        self.assertEqual(len(lines_of(self.filed, "report.jsonl")), 4)
        run("audit", self.filed)

    def test_again_does_nothing_again(self):
        self.samples()
        run("provision", self.sent, self.filed, status=1)
        before = {name: os.stat(os.path.join(os.fsencode(self.filed), name)).st_mtime_ns for name in tree(self.filed) if b".call" in name}
        first = unbilled(self.filed)

        def not_filed_with_short(data, *words, before=provisioning._library.provisioned):
            """What is refused, or filed without a shortened form, is asked for the reason again."""
            self.assertIn(data, (sample("refused"), sample("untidy")))
            return before(data, *words)

        with replaced(provisioning._library, "provisioned", not_filed_with_short):
            outcome, _ = provision_here(self.sent, self.filed)
        self.assertEqual((outcome.done, outcome.kept), (0, 3))
        self.assertEqual(unbilled(self.filed), first)
        after = {name: os.stat(os.path.join(os.fsencode(self.filed), name)).st_mtime_ns for name in before}
        self.assertEqual(after, before)

    def test_statuses(self):
        self.put("a.call", sample("printed"))
        run("provision", self.sent, self.filed, status=0)
        self.put("b.call", sample("untidy"))
        run("provision", self.sent, self.filed, status=0)
        run("provision", "--strict", self.sent, self.filed, status=1)
        self.put("b.call", sample("refused"))
        run("provision", self.sent, self.filed, status=1)
        run("provision", os.path.join(self.folder, "nowhere"), self.filed, status=2)
        run("provision", self.sent, status=2)
        for wrong in ("0", "x", "-1", "257", "1.5", "\u0663", "9" * 5000):
            _, said = run("provision", "--jobs", wrong, self.sent, self.filed, status=2)
            self.assertIn(f"argument --jobs: a number from 1 to 256 expected, not {wrong!r}\n", said)
        for wrong in ("-1", "x"):
            _, said = run("page", self.filed, "--out", self.folder + "/p.html", "--most", wrong, status=2)
            self.assertIn(f"argument --most: a number from 0 to 100000 expected, not {wrong!r}\n", said)
        out, _ = run("provision", "--help")
        self.assertIn("examples:", out)
        for option in ("--jobs", "--dry-run", "--strict", "--json", "--pattern", "--no-flush"):
            self.assertIn(option, out)

    def test_nothing_sent(self):
        out, _ = run("provision", self.sent, self.filed)
        self.assertIn("0 files: 0 accepted, 0 refused, 0 unreadable", out)
        run("audit", self.filed)


class Options(Case):
    def test_jobs_make_no_difference(self):
        fleet.write(self.sent, 150, 40)
        trees = []
        for jobs in ("1", "2", "7"):
            filed = self.filed + jobs
            out, _ = run("provision", "--no-flush", "--jobs", jobs, self.sent, filed, status=1)
            trees.append((tree(filed), out.replace(filed, "")))
        self.assertEqual(trees[0], trees[1])
        self.assertEqual(trees[0], trees[2])

    def test_name_order(self):
        for name in ("a/x.call", "a-b/x.call", "a.call", "a/b/x.call", "B.call", "a b.call", "a/x-1.call"):
            self.put(name, sample("printed"))
        provision_here(self.sent, self.filed)
        found = [line.split(",")[0] for line in lines_of(self.filed)[1:-1]]
        self.assertEqual(found, sorted(found, key=lambda name: name.encode().split(b"/")))
        self.assertEqual(found, ["B.call", "a/b/x.call", "a/x-1.call", "a/x.call", "a b.call", "a-b/x.call", "a.call"])

    def test_strict(self):
        self.samples()
        out, _ = run("provision", "--strict", self.sent, self.filed, status=1)
        self.assertIn("untidy.call: refused (register 5 is written once, and read elsewhere than later in the same block (--strict))", out)
        self.assertFalse(os.path.exists(os.path.join(self.filed, "untidy.call")))
        row = rows_of(self.filed)["untidy.call"]
        self.assertEqual((row["answer"], row["number"], row["filed"]), ("refused", "", "no"))
        run("audit", self.filed)
        run("provision", self.sent, self.filed, status=1)
        self.assertTrue(os.path.exists(os.path.join(self.filed, "untidy.call")))
        run("provision", "--strict", self.sent, self.filed, status=1)
        row = rows_of(self.filed)["untidy.call"]
        self.assertEqual((row["answer"], row["filed"], row["tidy"]), ("refused", "earlier", "no"))
        run("audit", self.filed)

    def test_dry_run(self):
        self.samples()
        out, said = run("provision", "--dry-run", self.sent, self.filed, status=1)
        self.assertFalse(os.path.exists(self.filed))
        self.assertIn("nothing was filed", said)
        run("provision", self.sent, self.filed, status=1)
        self.assertEqual(out.splitlines(), lines_of(self.filed))
        before = tree(self.filed)
        self.put("new.call", sample("printed"))
        run("provision", "--dry-run", self.sent, self.filed, status=1)
        self.assertEqual(tree(self.filed), before)

    def test_pattern(self):
        self.put("a.call", sample("printed"))
        self.put("b.bin", sample("printed"))
        self.put("notes.txt", b"hello")
        outcome, _ = provision_here(self.sent, self.filed)
        self.assertEqual((outcome.done, outcome.passed_over), (1, 2))
        outcome, _ = provision_here(self.sent, self.filed + "2", pattern="*.bin")
        self.assertEqual(list(rows_of(self.filed + "2")), ["b.bin", ""])

    def test_names_that_are_kept_for_the_run(self):
        for name in ("report.csv", "x.call.short", ".halivomue/lock", "sub/.halivomue.0.tmp"):
            self.put(name, sample("printed"))
        self.put("sub/report.csv", sample("printed"))
        outcome, lines = provision_here(self.sent, self.filed, pattern="*")
        self.assertEqual((outcome.done, outcome.totals.answers["unreadable"]), (1, 4))
        self.assertIn("report.csv: unreadable: this name is kept for the report", lines)
        self.assertTrue(os.path.exists(os.path.join(self.filed, "sub/report.csv.short")))

    def test_a_folder_with_the_reports_name(self):
        """Before, the run failed at its end, and every run after it."""
        for name in ("report.csv/x.call", "report.csv/y/z.call", "report.jsonl/x.call", "a.call", "sub/report.csv/x.call"):
            self.put(name, sample("printed"))
        for _ in range(2):
            out, said = run("provision", "--json", self.sent, self.filed, status=1)
            self.assertEqual(said, "")
            self.assertEqual(out.splitlines()[:3], ["report.csv: unreadable: this name is kept for the report",
                                                    "report.jsonl: unreadable: this name is kept for the report",
                                                    "4 files: 2 accepted, 0 refused, 2 unreadable"])
            run("audit", self.filed)

    def test_memory_does_not_grow(self):
        """The largest process's memory with 300 and with 5,000 files."""
        data = sample("printed")
        used = []
        for count in (300, 5000):
            sent = os.path.join(self.folder, f"sent{count}")
            for number in range(count):
                if number % 2500 == 0:
                    os.makedirs(os.path.join(sent, str(number)))
                with open(os.path.join(sent, str(number - number % 2500), f"{number}.call"), "wb") as file:
                    file.write(data)

            def measured(sent=sent, count=count):
                run("provision", "--no-flush", "--jobs", "1", sent, self.filed + str(count))
                with open(os.path.join(self.folder, f"used{count}"), "w") as out:
                    out.write(str(resource.getrusage(resource.RUSAGE_CHILDREN).ru_maxrss))

            self.assertEqual(in_child(measured), 0)
            with open(os.path.join(self.folder, f"used{count}")) as file:
                used.append(int(file.read()))
        self.assertLess(used[1], used[0] + 2048, used)

    def test_large_folders_are_walked_in_batches(self):
        made = sorted(f"{number * 7919 % 10000}.call".encode() for number in range(500))
        for name in made:
            self.put(name, b"")
        for batch in (1, 2, 7, 250, 499, 500, 501):
            with replaced(names, "_BATCH", batch), filing.Folder.top(os.fsencode(self.sent)) as top:
                self.assertEqual([entry.name for entry in names.walk(top)], made)


class Odd(Case):
    """Odd names and files."""

    NAMES = (b"with space.call", b"new\nline.call", b"\xff\xfe bytes.call", b"quote\".call", b"comma,.call", b"back\\slash.call",
             b"tab\t.call", "größe-電話.call".encode(), b"esc\x1b[31m.call", b"-dash.call", b"c1\xc2\x85.call", b"folder \xff\n/x.call",
             b"'.call", b"=1+1.call", b"\\x0a.call")

    def test_names(self):
        for name in self.NAMES:
            self.put(name, sample("printed"))
        run("provision", "--json", self.sent, self.filed)
        rows = rows_of(self.filed)
        found = {names.unquote(name) for name in rows if name}
        self.assertEqual(found, set(self.NAMES))
        self.assertEqual(len(lines_of(self.filed)), len(self.NAMES) + 2)
        self.assertIn("new\\x0aline.call", rows)
        self.assertIn("\\xff\\xfe bytes.call", rows)
        self.assertIn("back\\\\slash.call", rows)
        self.assertIn("\\\\x0a.call", rows)
        self.assertIn("größe-電話.call", rows)
        for name in self.NAMES:
            with open(os.path.join(os.fsencode(self.filed), name + b".short"), "rb") as file:
                self.assertEqual(file.read(), halivomue.shorten(sample("printed")).data)
        run("audit", self.filed)
        outcome, _ = provision_here(self.sent, self.filed)
        self.assertEqual(outcome.kept, len(self.NAMES))
        plain = {"LC_ALL": "C", "PYTHONUTF8": "0", "PYTHONCOERCECLOCALE": "0"}
        run("provision", "--json", self.sent, self.filed + "C", env=plain)
        self.assertEqual(unbilled(self.filed + "C"), unbilled(self.filed))
        for name in self.NAMES:
            self.put(name, sample("refused"))
        out, _ = run("provision", self.sent, self.filed + "C", env=plain, status=1)
        self.assertEqual(len(out.splitlines()), len(self.NAMES) + 4)
        self.assertIn("größe-電話.call: refused 7 9", out)

    def test_quoting_can_be_undone(self):
        for name in (*self.NAMES, bytes(range(1, 256)).replace(b"/", b""), "\u0085\u00a0".encode(), b"\xed\xa0\x80", b"\\", b"\\x", b"\\\\x00"):
            quoted = names.quote(name)
            self.assertEqual(names.unquote(quoted), name)
            self.assertTrue(quoted.isprintable() or "\xa0" in quoted, quoted)
            quoted.encode("utf-8")

    def test_no_cell_of_a_name_is_a_formula(self):
        """Whatever a spreadsheet takes for the separator; and the names are undone when the report is read."""
        signs = "=+-@\uff1d\uff0b\uff0d\uff20"
        made = [f"{before}{sign}cmd|'!A0.call" for sign in signs for before in ("", " ", "\u3000", "a;", "a; ", "a,", '"', "a\t")]
        for name in made:
            self.put(name, sample("printed"))
        run("provision", "--json", self.sent, self.filed)
        for separator in ",;\t":
            for row in csv.reader(lines_of(self.filed), delimiter=separator):
                self.assertEqual([cell for cell in row if cell.strip()[:1] in set(signs)], [], separator)
        self.assertEqual({os.fsdecode(names.unquote(name)) for name in rows_of(self.filed) if name}, set(made))
        run("audit", self.filed)
        outcome, _ = provision_here(self.sent, self.filed)
        self.assertEqual(outcome.kept, len(made))

    def test_what_is_not_seen_is_quoted(self):
        """A name that would be read from right to left, or that has another's look."""
        hidden = "\u202e\u202a\u202c\u2066\u2069\u200e\u200f\u061c\u200b\u200d\u2060\ufeff\u00ad\u2028\u2029\u180e\u3164\U000e0041"
        for character in hidden:
            self.put(f"a{character}llac.call", sample("refused"))
        out, _ = run("provision", self.sent, self.filed, status=1)
        self.assertIn("a\\xe2\\x80\\xaellac.call: refused 7 9", out)
        self.assertEqual(len(out.splitlines()), len(hidden) + 4)
        with open(os.path.join(self.filed, "report.csv"), encoding="utf-8") as file:
            self.assertEqual(set(file.read()) & set(hidden), set())
        self.assertEqual({os.fsdecode(names.unquote(name)) for name in rows_of(self.filed) if name},
                         {f"a{character}llac.call" for character in hidden})

    def test_a_link_is_not_followed(self):
        outside = self.put("outside.call", sample("printed"), self.folder)
        self.put("real.call", sample("printed"))
        os.symlink(outside, os.path.join(os.fsencode(self.sent), b"link.call"))
        os.symlink("real.call", os.path.join(self.sent, "inner.call"))
        os.symlink(self.folder, os.path.join(self.sent, "folder"))
        os.symlink("nowhere", os.path.join(self.sent, "broken.call"))
        os.symlink("/etc/hostname", os.path.join(self.sent, "other.txt"))
        out, _ = run("provision", self.sent, self.filed, status=1)
        self.assertIn("link.call: unreadable: a symbolic link, not followed\n", out)
        self.assertIn("inner.call: unreadable: a symbolic link, not followed\n", out)
        self.assertIn("broken.call: unreadable: a symbolic link, not followed\n", out)
        self.assertIn("folder: unreadable: a symbolic link to a folder, not followed\n", out)
        self.assertEqual({name for name in tree(self.filed) if b"call" in name}, {b"real.call", b"real.call.short"})

    def test_a_link_that_takes_a_files_place_is_not_followed(self):
        """Also if the file turns into a link after its folder was listed."""
        outside = self.put("outside.call", sample("printed"), self.folder)
        path = self.put("a.call", sample("printed"))
        before = filing.read

        def late(name, folder=None):
            if folder is not None:
                os.unlink(path)
                os.symlink(outside, path)
            return before(name, folder)

        with replaced(filing, "read", late):
            _, lines = provision_here(self.sent, self.filed)
        self.assertEqual(lines[0], "a.call: unreadable: a symbolic link, not followed")

    def test_long_files(self):
        self.put("long.call", sample("printed") + bytes(65_536))
        self.put("limit.call", bytes(65_536))
        with open(self.put("huge.call", b""), "r+b") as file:
            file.truncate(1 << 40)
        asked = []
        before = os.read

        def counted(fd, length):
            data = before(fd, length)
            asked.append(len(data))
            return data

        with replaced(os, "read", counted):
            _, lines = provision_here(self.sent, self.filed)
        why = "(the file is not a multiple of 32 bytes long, or is longer than 65536)"
        self.assertEqual(lines[0], f"huge.call: refused 1 0 {why}")
        self.assertIn("limit.call: refused 2 0", lines[1])
        self.assertEqual(lines[2], f"long.call: refused 1 0 {why}")
        self.assertEqual(max(asked), 65_537)
        self.assertLess(sum(asked), 3 * 65_537 + 1000)

    def test_no_regular_files(self):
        os.mkfifo(os.path.join(self.sent, "pipe.call"))
        os.mkdir(os.path.join(self.sent, "folder.call"))
        out, _ = run("provision", self.sent, self.filed, status=1)
        self.assertIn("pipe.call: unreadable: not a regular file\n", out)
        self.assertIn("1 file: 0 accepted, 0 refused, 1 unreadable", out)

    def test_a_pipe_that_takes_a_files_place_does_not_block(self):
        os.mkfifo(os.path.join(self.sent, "pipe.call"))
        with self.assertRaises(filing.Unreadable) as caught:
            filing.read(os.fsencode(self.sent) + b"/pipe.call")
        self.assertEqual(str(caught.exception), "not a regular file")

    def test_long_names(self):
        """A name that leaves no room for .short is reported; the rest of its folder, and the others, go on."""
        self.put("x" * 250 + ".call", sample("printed"))
        self.put("y.call", sample("printed"))
        outcome, lines = provision_here(self.sent, self.filed)
        self.assertEqual(outcome.done, 1)
        self.assertTrue(lines[0].endswith("unreadable: cannot be filed: File name too long"))
        self.assertEqual(len([name for name in tree(self.filed) if b"call" in name]), 2)

    def test_deep_folders(self):
        deep = "/".join("d" * 3 for _ in range(400)) + "/x.call"
        at = self.sent
        here = os.open(at, os.O_RDONLY)
        try:
            for part in deep.split("/")[:-1]:
                os.mkdir(part, dir_fd=here)
                below = os.open(part, os.O_RDONLY, dir_fd=here)
                os.close(here)
                here = below
            fd = os.open("x.call", os.O_WRONLY | os.O_CREAT, dir_fd=here)
            os.write(fd, sample("printed"))
            os.close(fd)
        finally:
            os.close(here)
        outcome, lines = provision_here(self.sent, self.filed)
        self.assertEqual((outcome.done, lines), (1, []))


class Changing(Case):
    """Files that vanish or change."""

    def test_a_file_vanishes(self):
        for name in ("a.call", "b.call", "c.call"):
            self.put(name, sample("printed"))
        before = filing.read

        def late(name, folder=None):
            if name == b"b.call" and folder is not None:
                os.unlink(name, dir_fd=folder.fd)
            return before(name, folder)

        with replaced(filing, "read", late):
            outcome, lines = provision_here(self.sent, self.filed)
        self.assertEqual(lines, ["b.call: unreadable: No such file or directory"])
        self.assertEqual(outcome.done, 2)
        run("audit", self.filed)

    def test_a_file_changes_while_it_is_read(self):
        path = self.put("a.call", sample("forwarding"))
        before = filing._whole
        def written(mode, data):
            with open(path, mode) as file:
                file.write(data)

        for change in (lambda: os.truncate(path, 352), lambda: written("ab", b"#"), lambda: written("r+b", b"\1")):
            self.put("a.call", sample("forwarding"))
            os.utime(path, (1, 1))

            def late(fd, length, change=change):
                data = before(fd, length)
                change()
                return data

            with replaced(filing, "_whole", late):
                _, lines = provision_here(self.sent, self.filed)
            self.assertEqual(lines[0], "a.call: unreadable: changed while it was read")
            self.assertFalse(os.path.exists(os.path.join(self.filed, "a.call")))

    def test_a_file_that_is_written_all_the_time(self):
        """What is filed is never a mixture of two writings."""
        path = self.put("a.call", sample("forwarding"))
        good = {sample("forwarding"), sample("printed")}
        script = f"import os\nwhile True:\n for f in {[str(ROOT / 'samples' / n) for n in ('printed.call', 'forwarding.call')]!r}:\n" \
                 f"  data = open(f, 'rb').read()\n  with open({os.fsdecode(path)!r}, 'wb') as out: out.write(data)"
        writer = subprocess.Popen([sys.executable, "-c", script])
        try:
            time.sleep(0.2)
            for _ in range(60):
                provision_here(self.sent, self.filed)
                filed = os.path.join(self.filed, "a.call")
                if os.path.exists(filed):
                    with open(filed, "rb") as file:
                        data = file.read()
                    self.assertIn(data, good)
                    with open(filed + ".short", "rb") as file:
                        self.assertEqual(file.read(), halivomue.shorten(data).data)
        finally:
            writer.kill()
            writer.wait()

    def test_sent_again_with_other_bytes(self):
        self.put("a.call", sample("printed"))
        provision_here(self.sent, self.filed)
        self.put("a.call", sample("forwarding"))
        outcome, _ = provision_here(self.sent, self.filed)
        self.assertEqual(outcome.done, 1)
        provision_here(self.sent, self.filed + "2")
        self.assertEqual(unbilled(self.filed), unbilled(self.filed + "2"))

    def test_refused_later(self):
        """What an earlier run filed stays, is reported, and is audited."""
        self.put("a.call", sample("printed"))
        provision_here(self.sent, self.filed)
        before = tree(self.filed)
        self.put("a.call", sample("refused"))
        run("provision", self.sent, self.filed, status=1)
        row = rows_of(self.filed)["a.call"]
        self.assertEqual((row["answer"], row["number"], row["filed"], row["grown"]), ("refused", "7", "earlier", "2"))
        self.assertEqual({k: v for k, v in tree(self.filed).items() if b"call" in k}, {k: v for k, v in before.items() if b"call" in k})
        out, _ = run("audit", self.filed)
        self.assertEqual(out, "1 file compared: all as filed\n")
        os.unlink(os.path.join(self.sent, "a.call"))
        os.symlink("/etc/hostname", os.path.join(self.sent, "a.call"))
        run("provision", self.sent, self.filed, status=1)
        row = rows_of(self.filed)["a.call"]
        self.assertEqual((row["answer"], row["filed"]), ("unreadable", "earlier"))

    def test_not_sent_any_more(self):
        self.put("a/a.call", sample("printed"))
        self.put("b.call", sample("printed"))
        provision_here(self.sent, self.filed)
        os.unlink(os.path.join(self.sent, "a/a.call"))
        for _ in range(2):
            out, _ = run("provision", self.sent, self.filed)
            self.assertIn("1 file: 1 accepted, 0 refused, 0 unreadable, 1 not sent any more", out)
            row = rows_of(self.filed)["a/a.call"]
            self.assertEqual((row["answer"], row["filed"], row["moved"]), ("not sent", "earlier", "1"))
            run("audit", self.filed)

    def test_spoiled(self):
        self.put("a.call", sample("printed"))
        provision_here(self.sent, self.filed)
        self.put("a.call.short", b"#", self.filed)
        self.put("a.call", sample("refused"))
        out, _ = run("provision", self.sent, self.filed, status=1)
        self.assertIn("what is filed under this name is not as a run files it", out)
        out, _ = run("audit", self.filed, status=1)
        self.assertIn("a.call: altered: the run found there what no run had filed", out)

    def test_altered_forms_are_filed_again(self):
        self.put("a.call", sample("printed"))
        provision_here(self.sent, self.filed)
        before = unbilled(self.filed)
        for name in ("a.call", "a.call.short"):
            self.put(name, b"#", self.filed)
            outcome, _ = provision_here(self.sent, self.filed)
            self.assertEqual((outcome.done, unbilled(self.filed)), (1, before))
            os.unlink(os.path.join(self.filed, name))
            outcome, _ = provision_here(self.sent, self.filed)
            self.assertEqual((outcome.done, unbilled(self.filed)), (1, before))


class Folders(Case):
    def test_one_inside_the_other(self):
        self.put("a.call", sample("printed"))
        before = tree(self.folder)
        os.symlink(self.sent, os.path.join(self.folder, "link"))
        for filed in ("sent/filed", "sent", "sent/../sent/x/y", "link/filed"):
            _, said = run("provision", self.sent, os.path.join(self.folder, filed), status=2)
            self.assertIn("FILED stands inside SENT", said)
        _, said = run("provision", self.sent, self.folder, status=2)
        self.assertIn("SENT stands inside FILED", said)
        os.unlink(os.path.join(self.folder, "link"))
        self.assertEqual(tree(self.folder), before)

    def test_failures_are_told_in_a_line(self):
        self.put("a.call", sample("printed"))
        for sent, filed, why in ((self.folder + "/none", self.filed, "No such file or directory"),
                                 (self.sent + "/a.call", self.filed, "Not a directory"),
                                 (self.sent, self.put("file", b"", self.folder).decode(), "Not a directory")):
            out, said = run("provision", sent, filed, status=2)
            self.assertEqual((out, len(said.splitlines())), ("", 1), said)
            self.assertIn(why, said)

    def test_a_folder_where_a_file_is_due(self):
        """Nothing is filed of such a file, neither form."""
        self.put("a.call", sample("printed"))
        self.put("d.call", sample("printed"))
        os.makedirs(os.path.join(self.filed, "d.call.short"))
        self.put("b.call", sample("printed"))
        self.put("c/x.call", sample("printed"))
        os.makedirs(os.path.join(self.filed, "a.call"))
        self.put("c", b"", self.filed)
        outcome, lines = provision_here(self.sent, self.filed)
        self.assertEqual(outcome.done, 1)
        self.assertEqual(lines[0], "a.call: unreadable: cannot be filed: Is a directory")
        self.assertTrue(lines[1].startswith("c/x.call: unreadable: cannot be filed: "), lines)
        self.assertTrue(lines[2].startswith("d.call: unreadable: cannot be filed: Is a directory"), lines)
        self.assertEqual({name for name in tree(self.filed) if b".call" in name}, {b"a.call", b"b.call", b"b.call.short", b"d.call.short"})


class Rights(Case):
    """As a user without rights; skipped if this user can't become one."""

    def as_nobody(self, *words, status):
        """A command's output, in a forked process without rights."""
        read_end, write_end = os.pipe()

        def work():
            os.dup2(write_end, 1)
            os.dup2(write_end, 2)
            os.setgroups([])
            os.setgid(NOBODY)
            os.setuid(NOBODY)
            sys.stdout, sys.stderr = open(1, "w"), open(2, "w")
            try:
                return main(list(words))
            finally:
                sys.stdout.flush()
                sys.stderr.flush()

        ended = in_child(work)
        os.close(write_end)
        with os.fdopen(read_end) as told:
            text = told.read()
        self.assertEqual(os.WEXITSTATUS(ended), status, text)
        return text

    def setUp(self):
        super().setUp()
        if os.geteuid() != 0:
            self.skipTest("only root can become a user without rights")
        # Modules that are loaded late may stand where that user may not read. In Python 3.9 a first parser and a first
        # text file load some too.
        halivomue.read(b"")
        parser()
        open(os.devnull, "w").close()
        provision_here(self.sent, os.path.join(self.folder, "first"), jobs=2)

    def test_a_file_and_a_folder_without_rights(self):
        self.put("a.call", sample("printed"))
        os.chmod(self.put("b.call", sample("printed")), 0)
        self.put("c/c.call", sample("printed"))
        os.chmod(os.path.join(self.sent, "c"), 0)
        os.mkdir(self.filed)
        os.chown(self.filed, NOBODY, NOBODY)
        told = self.as_nobody("provision", self.sent, self.filed, status=1)
        self.assertIn("b.call: unreadable: Permission denied\n", told)
        self.assertIn("c: unreadable: Permission denied\n", told)
        self.assertIn("3 files: 1 accepted, 0 refused, 2 unreadable", told)

    def test_no_right_to_file(self):
        self.put("a.call", sample("printed"))
        told = self.as_nobody("provision", self.sent, self.filed, status=2)
        self.assertIn("Permission denied", told)
        self.assertFalse(os.path.exists(self.filed))
        run("provision", self.sent, self.filed)
        os.chmod(os.path.join(self.filed, ".halivomue/lock"), 0o666)
        told = self.as_nobody("provision", self.sent, self.filed, status=2)
        self.assertIn("Permission denied", told)
        self.assertEqual(self.as_nobody("audit", self.filed, status=0), "1 file compared: all as filed\n")

    def test_a_report_without_rights(self):
        """The system's reason, without its number."""
        self.put("a.call", sample("printed"))
        run("provision", self.sent, self.filed)
        os.chmod(os.path.join(self.filed, "report.csv"), 0)
        os.chmod(os.path.join(self.filed, ".halivomue/lock"), 0o666)
        where = f"{self.filed}/report.csv: Permission denied\n"
        self.assertEqual(self.as_nobody("provision", self.sent, self.filed, status=2), "halivomue provision: " + where)
        self.assertEqual(self.as_nobody("page", self.filed, "--out", self.folder + "/p.html", status=2)[-len(where):], where)
        self.assertIn("report.csv: altered: Permission denied\n", self.as_nobody("audit", self.filed, status=1))
        os.chmod(self.filed, 0o711)
        for words in (("audit", self.filed), ("provision", self.sent, self.filed)):
            self.assertEqual(self.as_nobody(*words, status=2), f"halivomue {words[0]}: {self.filed}: Permission denied\n")

    def test_a_folder_of_filed_without_rights(self):
        self.put("a/a.call", sample("printed"))
        self.put("b/b.call", sample("printed"))
        os.makedirs(os.path.join(self.filed, "b"))
        os.chown(self.filed, NOBODY, NOBODY)
        told = self.as_nobody("provision", self.sent, self.filed, status=2)
        self.assertIn("b/b.call.short: Permission denied", told)
        os.chown(os.path.join(self.filed, "b"), NOBODY, NOBODY)
        self.as_nobody("provision", self.sent, self.filed, status=0)
        provision_here(self.sent, self.filed + "2")
        self.assertEqual(tree(self.filed), tree(self.filed + "2"))


class Full(Case):
    """A disk that is full, and a limit on file sizes."""

    def whole(self, allowed):
        """Every file to be seen under FILED is whole."""
        for name in tree(self.filed):
            path = os.path.join(os.fsencode(self.filed), name)
            if os.path.isfile(path) and b".halivomue" not in name:
                with open(path, "rb") as file:
                    self.assertIn(file.read(), allowed)

    def make(self):
        allowed = set()
        for number in range(12):
            data = bytes(fleet.procedure(number, 20 + 30 * number))
            self.put(f"{number % 3}/{number:02d}.call", data)
            allowed |= {data, halivomue.shorten(data).data}
        return allowed

    def test_limit_on_file_size(self):
        allowed = self.make()

        def limited():
            resource.setrlimit(resource.RLIMIT_FSIZE, (9000, 9000))

        for jobs in ("1", "2"):
            _, said = run("provision", "--jobs", jobs, self.sent, self.filed, status=2, preexec_fn=limited)
            self.assertIn(os.strerror(errno.EFBIG), said)
            self.assertEqual(len(said.splitlines()), 1)
            self.whole(allowed)
            self.assertEqual([name for name in tree(self.filed) if name.endswith(b".tmp")], [])
        run("provision", self.sent, self.filed)
        run("provision", self.sent, self.filed + "2")
        self.assertEqual(tree(self.filed), tree(self.filed + "2"))

    def test_full_disk(self):
        allowed = self.make()
        os.mkdir(self.filed)
        mount = subprocess.run(["mount", "-t", "tmpfs", "-o", "size=96k", "none", self.filed], capture_output=True, check=False)
        if mount.returncode:
            self.skipTest("no file system can be mounted here")
        try:
            _, said = run("provision", "--jobs", "2", self.sent, self.filed, status=2)
            self.assertIn(os.strerror(errno.ENOSPC), said)
            self.assertEqual(len(said.splitlines()), 1)
            self.whole(allowed)
            subprocess.run(["mount", "-o", "remount,size=4m", self.filed], check=True)
            run("provision", self.sent, self.filed)
            run("provision", self.sent, self.filed + "2")
            self.assertEqual(tree(self.filed), tree(self.filed + "2"))
        finally:
            subprocess.run(["umount", "-l", self.filed], check=True)


class Together(Case):
    """Two runs over one FILED."""

    def test_the_second_says_so(self):
        self.samples()
        run("provision", self.sent, self.filed, status=1)
        before = tree(self.filed)
        held = os.open(os.path.join(self.filed, ".halivomue/lock"), os.O_RDWR)
        try:
            fcntl.flock(held, fcntl.LOCK_EX)
            os.write(held, b"4711")
            for words in (("provision", self.sent, self.filed), ("audit", self.filed), ("page", self.filed, "--out", self.folder + "/p.html")):
                out, said = run(*words, status=2)
                self.assertEqual(out, "")
                self.assertIn("another run, process 4711, works on", said)
            os.ftruncate(held, 0)
        finally:
            os.close(held)
        self.assertEqual(tree(self.filed), before)
        run("provision", self.sent, self.filed, status=1)

    def test_several_at_once(self):
        fleet.write(self.sent, 60, 40)
        run("provision", "--no-flush", self.sent, self.filed + "2", status=1)
        words = [sys.executable, "-m", "halivomue", "provision", "--no-flush", self.sent, self.filed]
        environment = dict(os.environ, PYTHONPATH=str(ROOT / "python"))
        runs = [subprocess.Popen(words, stdout=subprocess.DEVNULL, stderr=subprocess.PIPE, env=environment) for _ in range(5)]
        ended = [(each.communicate()[1], each.returncode) for each in runs]
        self.assertIn(1, [status for _, status in ended])
        for said, status in ended:
            self.assertIn(status, (1, 2))
            self.assertEqual(b"another run" in said, status == 2, said)
        # A run that began when another was over billed nothing.
        self.assertEqual(unbilled(self.filed), unbilled(self.filed + "2"))
        self.assertEqual(accounts_of(self.filed), accounts_of(self.filed + "2"))


class Parts(Case):
    """Smaller things."""

    def test_lines_are_those_of_the_csv_module(self):
        texts = ("", "plain", "a,b", 'a"b', '"', ",", " a ", "größe", "\\x0a", "None", "'", "=1")
        for number, text in enumerate(texts):
            for row in (report.Row(text, "accepted", None, 0, text, bytes_sent=number), report.Row(text, text, *[text] * 18)):
                out = io.StringIO()
                csv.writer(out, lineterminator="\n").writerow(row)
                self.assertEqual(report.csv_line(row), out.getvalue())

    def test_reports_are_read_as_far_as_they_are_whole(self):
        self.samples()
        run("provision", self.sent, self.filed, status=1)
        with open(os.path.join(self.filed, "report.csv"), "rb") as file:
            whole = file.read()
        path = os.path.join(self.folder, "cut.csv")
        top = filing.Folder.top(os.fsencode(self.folder))
        self.addCleanup(top.close)
        cut = filing.File(top, b"cut.csv")
        ends = [at + 1 for at, byte in enumerate(whole) if byte == 10]
        for length in range(0, len(whole), 11):
            with open(path, "wb") as file:
                file.write(whole[:length])
            self.assertEqual(len(list(report.entries(cut))), min(max(sum(end <= length for end in ends) - 1, 0), 4))
            with open(path, "wb") as file:
                file.write(whole[:length] + bytes(4096))
            list(report.entries(cut))

    def test_rows_are_made_by_the_columns_names(self):
        """One more column, wherever it is, shifts none of the others."""
        defaults = [report.Row._field_defaults.get(name) for name in report.COLUMNS]
        columns = [*report.COLUMNS[:2], "more", *report.COLUMNS[2:]]
        wider = collections.namedtuple("wider", columns, defaults=[*defaults[:2], "more", *defaults[2:]])
        for name in ("printed", "untidy"):
            both = filer.asked(sample(name))
            for short in (both.short, None):
                both = both._replace(short=short)
                due = filer.described("name", "accepted", "yes", both)._asdict()
                with replaced(filer, "Row", wider):
                    row = filer.described("name", "accepted", "yes", both)._asdict()
                self.assertEqual(row.pop("more"), "more")
                self.assertEqual(row, due)

    def test_a_report_with_other_columns(self):
        """The audit reports it, and a run files everything again and replaces it."""
        self.samples()
        provision_here(self.sent, self.filed)
        due = unbilled(self.filed)
        path = os.path.join(self.filed, "report.csv")
        with open(path) as file:
            lines = file.read().splitlines()
        for other in ([line.rpartition(",")[0] for line in lines], [line + ("," if number else ",more") for number, line in enumerate(lines)]):
            with open(path, "w") as file:
                file.write("\n".join(other) + "\n")
            self.assertIn("line 1: not the columns of a report", run("audit", self.filed, status=1)[0])
            outcome, _ = provision_here(self.sent, self.filed)
            self.assertEqual((outcome.done, outcome.kept), (3, 0))
            self.assertEqual(unbilled(self.filed), due)

    def modes(self, name, umask):
        before = os.umask(umask)
        try:
            provision_here(self.sent, self.filed)
        finally:
            os.umask(before)
        return {stat.S_IMODE(os.stat(os.path.join(self.filed, name + end)).st_mode) for end in ("", ".short")}

    def test_modes(self):
        """Both forms have the mode of the sent file, less what the umask takes away. Before, 0600 became 0644."""
        for number, (mode, umask, due) in enumerate(((0o644, 0o027, 0o640), (0o600, 0o022, 0o600), (0o640, 0, 0o640), (0o666, 0, 0o666),
                                                     (0o444, 0o022, 0o444), (0o4755, 0o022, 0o755))):
            path = self.put(f"{number}.call", sample("printed"))
            os.chmod(path, mode)
            self.assertEqual(self.modes(f"{number}.call", umask), {due}, oct(mode))


if __name__ == "__main__":
    unittest.main()
