"""The audit names every kind of tampering."""

import csv
import io
import os
import shutil

from common import Case, halivomue, provision_here, run, sample, unbilled, unittest

import fleet
from halivomue import names, report


class Tampered(Case):
    """Each test tampers with what was filed in one way, and looks at what the audit says."""

    def setUp(self):
        super().setUp()
        for name in ("a/one.call", "a/two.call", "b.call"):
            self.put(name, sample("printed"))
        self.put("a/three.call", bytes(fleet.procedure(1, 60)))
        self.put("a/four.call", bytes(fleet.procedure(2, 60)))
        self.put("refused.call", sample("refused"))
        self.put("untidy.call", sample("untidy"))
        provision_here(self.sent, self.filed, json=False)
        self.before = unbilled(self.filed)
        self.assertEqual(self.audit(0), ["6 files compared: all as filed"])

    def audit(self, status=1, jobs="1"):
        out, said = run("audit", "--jobs", jobs, self.filed, status=status)
        self.assertEqual(said, "")
        return out.splitlines()

    def at(self, name):
        return os.path.join(self.filed, name)

    def read(self, name):
        with open(self.at(name), "rb") as file:
            return file.read()

    def write(self, name, data):
        with open(self.at(name), "wb") as file:
            file.write(data)

    def report(self, change, text=None):
        """Changes the report's lines as lists of fields."""
        with open(self.at("report.csv"), newline="") as file:
            lines = list(csv.reader(file))
        lines = change(lines) or lines
        out = io.StringIO()
        csv.writer(out, lineterminator="\n").writerows(lines)
        self.write("report.csv", out.getvalue().encode())

    def column(self, name, column, value):
        def change(lines):
            at = lines[0].index(column)
            for line in lines:
                if line[0] == name:
                    line[at] = value

        self.report(change)

    def named(self, *due):
        found = self.audit()
        self.assertEqual(found, self.audit(jobs="2"))
        for line in due:
            self.assertIn(line, found)
        self.assertEqual(len(found), len(due) + 1, found)
        self.assertTrue(found[-1].endswith(("altered", "missing", "foreign", "report")), found[-1])

    def test_1_a_byte_of_a_shortened_form(self):
        data = bytearray(self.read("b.call.short"))
        data[-28] ^= 1
        self.write("b.call.short", bytes(data))
        self.named("b.call: altered: the shortened form is not what the sent form is shortened to",
                   "b.call: altered: the shortened form is not the one that was filed (its digest is not the report's)")

    def test_2_a_byte_of_a_sent_form(self):
        """A statement's number: the file is still accepted, but its shortened form is another's."""
        data = bytearray(self.read("b.call"))
        data[-28] ^= 1
        self.write("b.call", bytes(data))
        self.named("b.call: altered: the shortened form is not what the sent form is shortened to",
                   "b.call: altered: the sent form is not the one that was filed (its digest is not the report's)")

    def test_3_a_sent_form_that_is_refused(self):
        self.write("b.call", sample("refused"))
        self.named("b.call: altered: the sent form is refused 7 9 (record 9: p1 (dst) names register 1, and there is 1 register)")

    def test_4_both_forms_exchanged_for_others_that_belong_together(self):
        self.write("b.call", self.read("a/three.call"))
        self.write("b.call.short", self.read("a/three.call.short"))
        self.named("b.call: altered: the sent form is not the one that was filed (its digest is not the report's)",
                   "b.call: altered: the shortened form is not the one that was filed (its digest is not the report's)")

    def test_5_the_sent_form_in_the_shortened_ones_place(self):
        self.write("b.call.short", self.read("b.call"))
        self.named("b.call: altered: the shortened form is not what the sent form is shortened to",
                   "b.call: altered: the shortened form is not the one that was filed (its digest is not the report's)")

    def test_6_a_form_is_missing(self):
        os.unlink(self.at("b.call.short"))
        os.unlink(self.at("a/one.call"))
        os.unlink(self.at("a/two.call"))
        os.unlink(self.at("a/two.call.short"))
        os.unlink(self.at("untidy.call"))
        self.named("a/one.call: missing: the sent form", "a/two.call: missing: the sent form", "a/two.call: missing: the shortened form",
                   "b.call: missing: the shortened form", "untidy.call: missing: the sent form")

    def test_7_a_foreign_file(self):
        self.write("a/five.call", sample("printed"))
        self.write("a/five.call.short", halivomue.shorten(sample("printed")).data)
        self.write("notes.txt", b"hello")
        self.write("refused.call", sample("refused"))
        self.write("stray.call.short", b"")
        os.makedirs(self.at("empty/folder"))
        self.named("a/five.call: foreign: no report has it", "a/five.call.short: foreign: no report has it",
                   "empty/folder: foreign: an empty folder", "notes.txt: foreign: no report has it",
                   "refused.call: foreign: no report has it", "stray.call.short: foreign: no report has it")

    def test_8_a_count_in_the_report(self):
        self.column("b.call", "grown", "3")
        found = self.audit()
        self.assertEqual(found[0], "b.call: report: grown is 3 in the report and 2 by the library")
        self.assertIn("report.csv: report: line 9: the totals are not those of the rows", found)
        for column, value in (("moved", "0"), ("rescued", "7"), ("instructions_short", "5"), ("bytes_sent", "1"), ("tidy", "no"), ("reg", "3")):
            provision_here(self.sent, self.filed)
            self.column("b.call", column, value)
            self.assertIn(f"b.call: report: {column} is {value} in the report", self.audit()[0])

    def test_9_a_row_taken_out_or_put_in(self):
        self.report(lambda lines: [line for line in lines if line[0] != "b.call"])
        found = self.audit()
        self.assertEqual(found[:2], ["b.call: foreign: no report has it", "b.call.short: foreign: no report has it"])
        os.unlink(self.at("report.csv"))
        provision_here(self.sent, self.filed)
        self.assertEqual(unbilled(self.filed), self.before)
        self.report(lambda lines: [*lines[:-1], ["z.call", *lines[1][1:]], lines[-1]])
        self.assertIn("z.call: missing: the sent form", self.audit())

    def test_10_a_digest_in_the_report(self):
        self.column("b.call", "sha256_short", "0" * 64)
        self.named("b.call: altered: the shortened form is not the one that was filed (its digest is not the report's)")

    def test_11_shortened_forms_of_two_files_exchanged(self):
        one, two = self.read("a/three.call.short"), self.read("a/four.call.short")
        self.write("a/three.call.short", two)
        self.write("a/four.call.short", one)
        found = self.audit()
        for name in ("a/three.call", "a/four.call"):
            self.assertIn(f"{name}: altered: the shortened form is not what the sent form is shortened to", found)

    def test_12_a_link_or_a_folder_in_a_files_place(self):
        os.rename(self.at("b.call"), os.path.join(self.folder, "kept"))
        os.symlink(os.path.join(self.folder, "kept"), self.at("b.call"))
        os.unlink(self.at("a/one.call.short"))
        os.mkdir(self.at("a/one.call.short"))
        self.named("a/one.call: altered: the shortened form: not a regular file",
                   "a/one.call.short: foreign: an empty folder",
                   "b.call: altered: the sent form: a symbolic link, not followed")

    def test_13_a_form_cut_or_lengthened(self):
        self.write("b.call.short", self.read("b.call.short")[:-32])
        self.write("a/one.call", b"")
        self.write("a/two.call", self.read("a/two.call") + bytes(70_000))
        found = self.audit()
        self.assertIn("a/one.call: altered: the sent form is refused 3 0 (the file has no block)", found)
        self.assertIn("b.call: altered: the shortened form is not what the sent form is shortened to", found)
        self.assertTrue(any(line.startswith("a/two.call: altered: the sent form is refused 1 0") for line in found), found)

    def test_14_the_totals(self):
        self.column("", "grown", "5")
        self.named("report.csv: report: line 9: the totals are not those of the rows")
        self.report(lambda lines: lines[:-1])
        self.named("report.csv: report: the totals are missing")

    def test_15_a_damaged_report(self):
        data = self.read("report.csv")
        self.write("report.csv", data.replace(b"b.call,accepted", b"b.call,\xff\"accepted"))
        self.assertIn("report.csv: report: line 6: no row of a report", self.audit())
        self.write("report.csv", b"hello\n" + data)
        self.assertIn("report.csv: report: line 1: not the columns of a report", self.audit())
        lines = data.splitlines(keepends=True)
        self.write("report.csv", b"".join([*lines[:2], lines[3], lines[2], *lines[4:]]))
        self.assertTrue(any("out of order, or a name twice" in line for line in self.audit()))
        self.write("report.csv", data + b"x.call" + b"," * 19 + b"\n")
        self.assertIn("report.csv: report: line 10: after the totals", self.audit())
        os.unlink(self.at("report.csv"))
        self.assertEqual(self.audit()[0], "report.csv: missing: the report; start the run again")

    def test_16_an_answer_in_the_report(self):
        self.column("refused.call", "answer", "accepted")
        self.assertIn("refused.call: report: accepted and filed 'no' don't go together", self.audit())
        provision_here(self.sent, self.filed)
        self.column("refused.call", "number", "6")
        self.assertIn("refused.call: report: number, record and reason of the refusal don't go together", self.audit())
        provision_here(self.sent, self.filed)
        self.column("b.call", "filed", "no")
        self.assertTrue(any(line.startswith("b.call: report:") for line in self.audit()))

    def test_19_a_name_that_leads_out_of_the_folder(self):
        outside = self.put("outside.call", sample("printed"), self.folder)
        self.put("outside.call.short", halivomue.shorten(sample("printed")).data, self.folder)
        before = unbilled(self.filed)
        for name in ("../outside.call", os.fsdecode(outside), "a/../b.call", "\\x41"):
            self.column("b.call", "name", name)
            told = [line for line in self.audit() if "no name of a file" in line or "out of order" in line]
            self.assertEqual(len(told), 1, name)
            provision_here(self.sent, self.filed)
            self.assertEqual(unbilled(self.filed), before)

    def test_20_a_file_that_is_filed_without_a_shortened_form(self):
        short = halivomue.shorten(sample("untidy")).data
        self.write("untidy.call.short", short)
        self.named("untidy.call: altered: a shortened form stands there, and by the report there is none")
        os.unlink(self.at("untidy.call.short"))
        self.column("untidy.call", "reason", "")
        self.assertEqual(self.audit()[0], "untidy.call: report: reason is nothing in the report and register 5 is written once, "
                         "and read elsewhere than later in the same block by the library")
        provision_here(self.sent, self.filed)
        self.write("untidy.call", sample("printed"))
        self.named("untidy.call: report: it has no shortened form in the report and has one by the library")

    def test_21_a_row_without_its_shortened_form(self):
        """A shortened form taken away, and out of the report too."""
        os.unlink(self.at("b.call.short"))
        for column in ("instructions_short", "bytes_short", "moved", "grown", "fresh", "rescued", "sha256_short"):
            self.column("b.call", column, "")
        self.column("b.call", "filed", "as sent")
        self.assertIn("b.call: report: it has no shortened form in the report and has one by the library", self.audit())
        provision_here(self.sent, self.filed)
        self.assertEqual(unbilled(self.filed), self.before)

    def test_17_the_report_in_json(self):
        provision_here(self.sent, self.filed, json=True)
        self.audit(0)
        self.write("report.jsonl", self.read("report.jsonl").replace(b'"grown": 2', b'"grown": 1'))
        self.named("report.jsonl: report: it differs from report.csv")

    def test_18_left_over_by_an_interrupted_run(self):
        self.write("a/.halivomue.0.sent.tmp", b"half")
        self.write(".halivomue/part.csv", b"name")
        self.named(".halivomue/part.csv: foreign: left over by a run that was interrupted; start it again",
                   "a/.halivomue.0.sent.tmp: foreign: left over by a run that was interrupted; start it again")
        provision_here(self.sent, self.filed)
        self.assertEqual(unbilled(self.filed), self.before)

    def test_the_run_mends_it(self):
        for name in ("b.call", "a/one.call.short"):
            self.write(name, b"")
        os.unlink(self.at("a/two.call"))
        provision_here(self.sent, self.filed)
        self.assertEqual(unbilled(self.filed), self.before)

    def test_any_change_is_noticed(self):
        """Of every file under FILED, some bytes changed one by one."""
        for name in sorted(self.before):
            name = os.fsdecode(name)
            if not os.path.isfile(self.at(name)) or name.startswith(".halivomue"):
                continue
            data = self.read(name)
            for at in range(3, len(data), max(len(data) // 4, 1)):
                changed = bytearray(data)
                changed[at] ^= 0x10
                self.write(name, bytes(changed))
                self.audit(1)
            self.write(name, data)
        self.audit(0)

    def test_order_with_names_around_short(self):
        """Names that come between a sent form's and its shortened form's don't disturb the audit."""
        for name in ("n.call", "n.call-x.call", "n.call.a.call", "n.call.t.call", "n.call0.call", "n.call.short.d/x.call"):
            self.put(name, sample("printed"))
        provision_here(self.sent, self.filed)
        self.assertEqual(self.audit(0), ["12 files compared: all as filed"])

    def test_failures(self):
        run("audit", os.path.join(self.folder, "none"), status=2)
        run("audit", self.at("b.call"), status=2)
        empty = os.path.join(self.folder, "empty")
        os.mkdir(empty)
        out, _ = run("audit", empty, status=1)
        self.assertIn("report.csv: missing", out)

    def test_on_a_copy(self):
        """A copy without the run's own folder can be audited."""
        copy = os.path.join(self.folder, "copy")
        shutil.copytree(self.filed, copy, ignore=shutil.ignore_patterns(".halivomue"))
        out, _ = run("audit", copy)
        self.assertEqual(out, "6 files compared: all as filed\n")


class Rows(unittest.TestCase):
    def test_lines_there_and_back(self):
        row = report.Row(names.quote(b'a,"b"\n\xff'), "refused", 7, 9, "why, so", "no")
        self.assertEqual(report.parse_line(report.csv_line(row)), row)
        for wrong in ("", "a,b\n", report.csv_line(row)[:-1], report.csv_line(row).replace("9", "nine", 1), '"' * 17 + "\n"):
            self.assertRaises(report.Damaged, report.parse_line, wrong)


if __name__ == "__main__":
    unittest.main()
