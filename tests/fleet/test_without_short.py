"""Files that are filed only as sent: too large to be shortened, or untidy."""

import os

from common import Case, halivomue, provision_here, rows_of, run, sample, tree, unbilled, unittest


class WithoutShort(Case):
    def setUp(self):
        super().setUp()
        make = halivomue.instruction
        move, store, ret = make("Move", dst=0, src=1), make("Store", "B8", addr=0, src=0), make("Ret")
        self.large = bytes(halivomue.Procedure(["I64"], [[make("Stmt")] * 480 + [ret]]))
        self.wide = bytes(halivomue.Procedure(["I64"] * 481, [[move, ret], [store, ret]]))
        self.assertEqual([halivomue.tidy(data).tidy for data in (self.large, self.wide)], [True, False])

    def at(self, name):
        return os.path.join(self.filed, name)

    def test_too_large_to_be_shortened(self):
        """Before, such a file was refused and not filed at all."""
        self.put("large.call", self.large)
        self.put("wide.call", self.wide)
        self.put("a.call", sample("printed"))
        out, _ = run("provision", "--json", self.sent, self.filed)
        why = "the file has more than 480 registers or 480 instructions, the most that are shortened"
        self.assertEqual(out.splitlines()[:3], [f"{name}.call: filed without a shortened form, refused 8 0 ({why})" for name in ("large", "wide")]
                         + ["3 files: 3 accepted, 0 refused, 0 unreadable, 1 untidy, 2 without a shortened form"])
        rows = rows_of(self.filed)
        for name, data, tidy, count in (("large.call", self.large, "yes", "481"), ("wide.call", self.wide, "no", "4")):
            with open(self.at(name), "rb") as file:
                self.assertEqual(file.read(), data)
            self.assertFalse(os.path.exists(self.at(name + ".short")))
            row = rows[name]
            self.assertEqual((row["answer"], row["number"], row["record"], row["reason"], row["filed"], row["tidy"], row["instructions_sent"]),
                             ("accepted", "8", "0", why, "as sent", tidy, count))
            self.assertEqual([row[column] for column in ("instructions_short", "bytes_short", "moved", "grown", "sha256_short")], [""] * 5)
        self.assertEqual(rows[""]["instructions_sent"], "6")
        run("audit", self.filed)
        before = unbilled(self.filed)
        outcome, _ = provision_here(self.sent, self.filed)
        self.assertEqual((outcome.done, outcome.kept, unbilled(self.filed)), (0, 3, before))
        _, lines = provision_here(self.sent, self.filed + "2", strict=True)
        self.assertEqual([line.split(" (")[0] for line in lines], ["large.call: filed without a shortened form, refused 8 0", "wide.call: refused"])

    def test_untidy(self):
        """As sent alone; with --untidy a shortened form too; with --strict not at all. Each turns what another left."""
        self.put("a.call", sample("untidy"))
        pair, alone = {b"a.call", b"a.call.short"}, {b"a.call"}
        for words, filed, status, due in (
            ([], "as sent", 0, alone), (["--untidy"], "yes", 0, pair), ([], "as sent", 0, alone), (["--untidy"], "yes", 0, pair),
            (["--strict"], "earlier", 1, pair), ([], "as sent", 0, alone), (["--strict"], "earlier", 1, alone),
        ):
            out, _ = run("provision", *words, self.sent, self.filed, status=status)
            self.assertEqual({name for name in tree(self.filed) if b"call" in name}, due, words)
            row = rows_of(self.filed)["a.call"]
            self.assertEqual((row["filed"], row["tidy"], row["reg"]), (filed, "no", "5"))
            self.assertEqual("filed without a shortened form" in out, filed == "as sent")
            run("audit", self.filed)
            again, _ = run("provision", *words, self.sent, self.filed, status=status)
            self.assertIn("0 filed", again)
        run("provision", "--strict", "--untidy", self.sent, self.filed, status=2)
        self.assertRaises(ValueError, halivomue.provision, self.sent, self.filed, strict=True, untidy=True)

    def test_a_file_that_becomes_large_or_small(self):
        """The shortened form of an earlier run goes, and comes again."""
        for _ in range(2):
            for data, short in ((sample("printed"), True), (self.large, False)):
                self.put("a.call", data)
                provision_here(self.sent, self.filed)
                self.assertEqual(os.path.exists(self.at("a.call.short")), short)
                run("audit", self.filed)

    def test_what_is_filed_so_and_refused_later(self):
        self.put("a.call", self.large)
        provision_here(self.sent, self.filed)
        self.put("a.call", sample("refused"))
        provision_here(self.sent, self.filed)
        row = rows_of(self.filed)["a.call"]
        self.assertEqual([row[column] for column in ("answer", "number", "filed", "instructions_sent", "sha256_short")],
                         ["refused", "7", "earlier", "481", ""])
        run("audit", self.filed)
        os.unlink(os.path.join(self.sent, "a.call"))
        provision_here(self.sent, self.filed)
        self.assertEqual(rows_of(self.filed)["a.call"]["filed"], "earlier")
        run("audit", self.filed)

    def test_a_lost_shortened_form_is_no_such_file(self):
        self.put("a.call", sample("printed"))
        provision_here(self.sent, self.filed)
        os.unlink(self.at("a.call.short"))
        self.put("a.call", sample("refused"))
        provision_here(self.sent, self.filed)
        self.assertEqual(rows_of(self.filed)["a.call"]["filed"], "spoiled")

    def test_on_the_page(self):
        self.put("a.call", sample("untidy"))
        self.put("b.call", self.large)
        provision_here(self.sent, self.filed)
        run("page", self.filed, "--out", os.path.join(self.folder, "p.html"))
        with open(os.path.join(self.folder, "p.html"), encoding="utf-8") as file:
            self.assertIn('"as sent"', file.read())


if __name__ == "__main__":
    unittest.main()
