"""What a run bills: each shortening that is filed now, once; also interrupted, near the ceiling, over a tree of a version before."""

import csv
import io
import json
import os
import shutil

from common import (
    Case, accounts_of, accounts_with, halivomue, in_child, lines_of, provision_here, replaced, rows_of, run, sample, tree, unbilled, unittest,
)  # fmt: skip

import fleet
from halivomue import books, filing, provisioning, report
from halivomue.answers import CEILING_CENTS
from halivomue.state import State

PRINTED, FORWARDING, UNTIDY = sample("printed"), sample("forwarding"), sample("untidy")
_RET = halivomue.instruction("Ret")
FREE = bytes(halivomue.Procedure(["I64"], [[_RET]]))


class Bills(Case):
    def run_here(self, sent=None, filed=None, **options):
        """A run; its tally, what it billed by its totals, and its lines. The rows and the totals tell the same."""
        filed = filed or self.filed
        outcome, lines = provision_here(sent or self.sent, filed, **options)
        if not options.get("dry_run"):
            *rows, total = rows_of(filed).values()
            self.assertEqual(sum(int(row["billed"] or 0) for row in rows), int(total["billed"]))
        return outcome.tally, outcome.totals.sums["billed"], lines

    def bills(self, filed=None):
        """Price and billed of each file."""
        return {name: (row["price"], row["billed"]) for name, row in rows_of(filed or self.filed).items() if name}

    def start(self, tally, filed=None):
        self.put(".halivomue/accounts", bytes(accounts_with(tally)), filed or self.filed)

    def stopped(self, rows, filed=None, **options):
        """A run that is interrupted after so many rows, each of which was a chunk of its own."""
        seen = []

        def stop(row):
            seen.append(row)
            if len(seen) == rows:
                raise KeyError

        with replaced(provisioning, "_FLUSHED", 1), self.assertRaises(KeyError):
            halivomue.provision(self.sent, filed or self.filed, each=stop, **options)


class Rules(Bills):
    def test_what_is_filed_now_is_billed_once(self):
        self.put("a.call", PRINTED)
        self.put("b.call", FORWARDING)
        self.assertEqual(self.run_here()[:2], (14, 14))
        self.assertEqual(self.bills(), {"a.call": ("3", "3"), "b.call": ("11", "11")})
        self.assertEqual(self.run_here()[:2], (14, 0))
        self.assertEqual(self.bills(), {"a.call": ("3", "0"), "b.call": ("11", "0")})
        self.put("a.call", FORWARDING)
        self.assertEqual(self.run_here()[:2], (25, 11))
        self.put("a.call.short", b"", self.filed)
        self.put("c.call", FREE)
        self.assertEqual(self.run_here()[:2], (36, 11))
        self.assertEqual(self.bills(), {"a.call": ("11", "11"), "b.call": ("11", "0"), "c.call": ("0", "0")})
        self.assertEqual(accounts_of(self.filed).tally, 36)

    def test_what_is_not_filed_or_not_shortened_is_not_billed(self):
        make = halivomue.instruction
        self.put("large.call", bytes(halivomue.Procedure(["I64"], [[make("Stmt")] * 480 + [_RET]])))
        self.put("refused.call", sample("refused"))
        self.put("untidy.call", UNTIDY)
        os.symlink("untidy.call", os.path.join(self.sent, "link.call"))
        for strict in (False, True):
            self.assertEqual(self.run_here(strict=strict)[:2], (0, 0))
            self.assertEqual(set(self.bills().values()), {("", "")})
        self.assertEqual(self.run_here(untidy=True)[:2], (12, 12))
        self.assertEqual(self.run_here(untidy=True)[:2], (12, 0))
        self.assertEqual(self.run_here(strict=True)[:2], (12, 0))
        self.assertEqual(self.bills()["untidy.call"], ("12", "0"))
        os.unlink(os.path.join(self.sent, "untidy.call"))
        self.assertEqual(self.run_here()[:2], (12, 0))
        self.assertEqual(self.bills()["untidy.call"], ("12", "0"))

    def test_looking_bills_nothing(self):
        self.samples()
        provision_here(self.sent, self.filed)
        before = tree(self.filed)
        self.put("new.call", PRINTED)
        run("audit", self.filed)
        run("page", self.filed, "--out", os.path.join(self.folder, "page.html"), "--seconds", "0")
        out, said = run("provision", "--dry-run", self.sent, self.filed, status=1)
        self.assertIn(f"the tally would be 17 cents: {self.filed}/.halivomue/accounts\n", said)
        self.assertEqual(tree(self.filed), before)
        run("provision", self.sent, self.filed, status=1)
        self.assertEqual(out.splitlines(), lines_of(self.filed))

    def test_what_cannot_be_filed_is_not_billed(self):
        """Also if what comes after it was refused because of it."""
        self.put("a.call", FORWARDING)
        self.put("b.call", PRINTED)
        self.put("c.call", PRINTED)
        for name in ("a.call", "c.call"):
            os.makedirs(os.path.join(self.filed, name, "x"))
        self.start(CEILING_CENTS - 11)
        tally, billed, lines = self.run_here()
        self.assertEqual((tally, billed), (CEILING_CENTS - 8, 3))
        self.assertEqual(lines, [f"{name}.call: unreadable: cannot be filed: Is a directory" for name in "ac"])
        self.assertEqual(self.bills(), {"a.call": ("", ""), "b.call": ("3", "3"), "c.call": ("", "")})

    def test_ceiling(self):
        """A row like any refusal; what costs less may still fit; an untidy file is filed as sent."""
        for name, data in (("a", PRINTED), ("b", FORWARDING), ("c", UNTIDY), ("d", PRINTED), ("e", PRINTED), ("f", FREE)):
            self.put(f"{name}.call", data)
        self.start(CEILING_CENTS - 6)
        tally, billed, lines = self.run_here()
        why = "refused 10 0 (the tally would pass 9999999 cents)"
        self.assertEqual((tally, billed), (CEILING_CENTS, 6))
        self.assertEqual([line for line in lines if "10" in line], [f"b.call: {why}", f"e.call: {why}"])
        self.assertEqual(lines_of(self.filed)[2], "b.call,refused,10,0,the tally would pass 9999999 cents,no" + "," * 14)
        self.assertEqual([row["filed"] for row in rows_of(self.filed).values()], ["yes", "no", "as sent", "yes", "no", "yes", ""])
        run("audit", self.filed)
        self.assertEqual(self.run_here(strict=True)[:2], (CEILING_CENTS, 0))
        self.assertIn("--strict", rows_of(self.filed)["c.call"]["reason"])
        self.assertEqual(self.run_here(untidy=True)[:2], (CEILING_CENTS, 0))
        self.assertEqual(rows_of(self.filed)["c.call"]["number"], "10")

    def test_jobs_make_no_difference_near_the_ceiling(self):
        fleet.write(self.sent, 120, 400)
        provision_here(self.sent, self.filed)
        whole = accounts_of(self.filed).tally
        for number, room in enumerate((0, 20, whole // 3, 2 * whole // 3, whole - 1, whole, whole + 1, 233 * 60)):
            made = []
            for jobs in (1, 2, 3):
                filed = f"{self.filed}-{number}-{jobs}"
                self.start(CEILING_CENTS - room, filed)
                for more in ({}, {}):
                    made.append((jobs, self.run_here(filed=filed, jobs=jobs, **more), tree(filed)))
            for at in (0, 1):
                self.assertEqual({repr(one[1:]) for one in made[at::2]}, {repr(made[at][1:])}, room)
            self.assertEqual(CEILING_CENTS - made[0][1][0], max(room - whole, CEILING_CENTS - made[0][1][0]) if room < whole else room - whole)

    def test_each_price_is_audited(self):
        self.samples()
        provision_here(self.sent, self.filed)
        path = os.path.join(self.filed, "report.csv")
        lines = lines_of(self.filed)
        at = lines[0].split(",").index("price")

        def changed(column, value, total):
            made = [line.split(",") for line in lines]
            made[2][column], made[-1][-20 + column] = value, total
            with open(path, "w") as file:
                file.write("\n".join([*lines[:2], ",".join(made[2]), *lines[3:-1], ",".join(made[-1])]) + "\n")
            return run("audit", self.filed, status=1)[0]

        self.assertIn("printed.call: report: price is 2 in the report and 3 by the library\n", changed(at, "2", "13"))
        for billed, total in (("2", "13"), ("", "11")):
            self.assertIn("printed.call: report: billed is neither 0 nor at least the price\n", changed(at + 1, billed, total))
        for billed, total in (("0", "11"), ("6", "17")):
            with self.assertRaises(AssertionError):
                changed(at + 1, billed, total)
        accounts = os.path.join(self.filed, ".halivomue/accounts")
        with open(path, "w") as file:
            file.write("\n".join(lines) + "\n")
        with open(accounts, "r+b") as file:
            file.seek(100)
            file.write(b"\1")
        self.assertIn(".halivomue/accounts: altered: damaged: not the saved form of accounts\n", run("audit", self.filed, status=1)[0])
        os.unlink(accounts)
        run("audit", self.filed)
        os.symlink("lock", accounts)
        self.assertIn(".halivomue/accounts: altered: a symbolic link, not followed\n", run("audit", self.filed, status=1)[0])


class Files(Bills):
    """The file of the accounts, its lock, and the record of the run."""

    def setUp(self):
        super().setUp()
        self.put("a.call", PRINTED)
        self.put("b.call", FORWARDING)
        self.shop = os.path.join(self.folder, "shop")

    def failed(self, *words, filed=None, status=2):
        out, said = run("provision", *words, self.sent, filed or self.filed, status=status)
        self.assertEqual((out, said.count("\n")), ("", 1), said)
        return said.partition(": ")[2].rstrip("\n")

    def test_two_trees_with_one_file(self):
        run("accounts", "make", self.shop)
        out, _ = run("provision", "--accounts", self.shop, self.sent, self.filed)
        self.assertIn("price 14, billed 14\n", out)
        self.assertIn(f"the tally is 14 cents: {self.shop}\n", out)
        run("provision", "--accounts", self.shop, self.sent, self.filed + "2")
        self.assertEqual(run("accounts", "show", self.shop)[0], "tally 28\n")
        self.assertFalse(os.path.exists(os.path.join(self.filed, ".halivomue/accounts")))
        self.assertEqual(sorted(os.listdir(self.folder)), ["filed", "filed2", "sent", "shop"])
        run("audit", self.filed)
        self.assertEqual(halivomue.provision(self.sent, self.filed + "3", accounts=self.shop).tally, 42)

    def test_an_interrupted_run_keeps_the_others_out(self):
        """Until it is taken up again; with other accounts it isn't."""
        for shop in (self.shop, self.shop + "2"):
            run("accounts", "make", shop)
        self.stopped(1, accounts=self.shop)
        said = self.failed("--accounts", self.shop, filed=self.filed + "2")
        self.assertRegex(said, f"^{self.shop}.lock is there \\(run [0-9a-f]+ process {os.getpid()}\\): ")
        self.assertEqual(set(tree(self.filed + "2")), {b".halivomue", b".halivomue/lock"})
        for words in ((), ("--accounts", self.shop + "2")):
            for more in ((), ("--dry-run",)):
                self.assertEqual(self.failed(*words, *more), f"the run that was interrupted here bills --accounts {self.shop}: take it up with these")
        self.assertEqual(sorted(os.listdir(self.folder)), ["filed", "filed2", "sent", "shop", "shop.lock", "shop2"])
        self.assertIn("is there", run("shorten", "--accounts", self.shop, os.path.join(self.sent, "a.call"), self.shop + "3", status=2)[1])
        self.assertEqual(self.run_here(accounts=os.fsencode(self.shop))[:2], (14, 14))
        self.assertFalse(os.path.exists(self.shop + ".lock"))

    def test_a_lock_of_somebody_else(self):
        self.put("shop", bytes(accounts_with(1)), self.folder)
        for text in ("process 4711\n", "", "run 0123456789abcdef process 1\n"):
            self.put("shop.lock", text.encode(), self.folder)
            before = tree(self.folder)
            whose = text.strip() and f" ({text.strip()})"
            self.assertEqual(self.failed("--accounts", self.shop), f"{self.shop}.lock is there{whose}: somebody else works with these accounts, "
                             "or was stopped and left it")
            now = tree(self.folder)
            self.assertEqual({name: now[name] for name in now if not name.startswith(b"filed")},
                             {name: before[name] for name in before if not name.startswith(b"filed")})
            self.assertEqual({name for name in now if b".call" in name and name.startswith(b"filed")}, set())
        os.unlink(self.shop + ".lock")
        self.assertEqual(self.run_here(accounts=os.fsencode(self.shop))[:2], (15, 14))

    def test_without_links(self):
        """A file system may have none."""
        def none(*_, **more):
            raise PermissionError(1, "Operation not permitted")

        with replaced(books.os, "link", none):
            self.assertEqual(self.run_here()[:2], (14, 14))
            self.put(".halivomue/accounts.lock", b"process 1\n", self.filed)
            with self.assertRaises(halivomue.Failed):
                self.run_here()

    def test_the_accounts_are_missing(self):
        why = f"{self.shop}: there is no such file (`python3 -m halivomue accounts make FILE` makes one)"
        self.assertEqual(self.failed("--accounts", self.shop), why)
        self.assertFalse(os.path.exists(os.path.join(self.filed, "a.call")))
        self.run_here()
        before = unbilled(self.filed)
        own = os.path.join(self.filed, ".halivomue/accounts")
        os.rename(own, self.shop)
        for words in ((), ("--dry-run",)):
            self.assertTrue(self.failed(*words).startswith(f"{own} isn't there, and what is filed here was billed: "))
        os.rename(self.shop, own)
        run("provision", "--accounts", own, self.sent, self.filed)
        self.assertEqual(unbilled(self.filed), before)
        self.assertEqual(accounts_of(self.filed).tally, 14)
        self.assertIn("it stands inside FILED", self.failed("--accounts", os.path.join(self.filed, "accounts")))
        self.assertIn("not a file's name", self.failed("--accounts", self.sent + "/"))

    def test_damaged_accounts(self):
        """Cut at any byte, or with a byte changed: the run fails, names them, and does nothing."""
        self.run_here()
        form = bytes(accounts_of(self.filed))
        before = unbilled(self.filed)
        del before[b".halivomue/lock"]
        path = os.path.join(self.filed, ".halivomue/accounts")
        self.put("c.call", PRINTED)
        forms = [form[:length] for length in range(416)] + [form[:at] + bytes([form[at] ^ 64]) + form[at + 1 :] for at in range(416)]
        for other in (*forms, form + b"\n"):
            self.put(".halivomue/accounts", other, self.filed)
            with self.assertRaises(halivomue.Failed) as caught:
                provision_here(self.sent, self.filed)
            self.assertEqual(str(caught.exception), f"{path}: damaged: not the saved form of accounts")
        now = unbilled(self.filed)
        del now[b".halivomue/lock"]
        self.assertEqual(now, before)

    def test_odd_things_in_their_place(self):
        for make in (os.mkfifo, os.mkdir, lambda path: os.symlink("a.call", path)):
            for name in ("accounts", "run", "ledger"):
                filed = f"{self.filed}-{name}"
                shutil.rmtree(filed, ignore_errors=True)
                os.makedirs(os.path.join(filed, ".halivomue"))
                make(os.path.join(filed, ".halivomue", name))
                self.assertTrue(self.failed(filed=filed).startswith(f"{filed}/.halivomue/{name}: "))

    def test_somebody_else_changed_them(self):
        for rows, name in ((1, None), (2, self.shop)):
            filed = f"{self.filed}-{rows}"
            more = {}
            if name:
                run("accounts", "make", self.shop)
                more = {"accounts": name}
            self.stopped(rows, filed=filed, **more)
            path = name or os.path.join(filed, ".halivomue/accounts")
            with open(path, "rb") as file:
                form = file.read()
            for other in (bytes(accounts_with(1)), None):
                os.unlink(path)
                if other:
                    self.put(path, other)
                with self.assertRaises(halivomue.Failed) as caught:
                    halivomue.provision(self.sent, filed, **more)
                self.assertEqual(str(caught.exception), f"{path}: somebody else changed it since the run that was interrupted here began")
                self.put(path, form)
            self.assertEqual(halivomue.provision(self.sent, filed, **more).tally, 14)

    def test_a_record_that_is_damaged_or_lost(self):
        self.stopped(1)
        path = os.path.join(self.filed, ".halivomue/run")
        with open(path, "rb") as file:
            data = file.read()
        for other in (b"", data[:100], b"{}", b"[]", b"null", data.replace(b"found", b"f"), data.replace(b'"found": "4', b'"found": "5'), b"\xff"):
            self.put(".halivomue/run", other, self.filed)
            self.assertEqual(self.failed(), f"{path}: damaged: not what a run records of itself")
        os.unlink(path)
        self.assertTrue(self.failed().startswith(f"{path} isn't there: without it "))
        self.put(".halivomue/run", data, self.filed)
        self.assertEqual(self.run_here()[:2], (14, 14))


class Interrupted(Bills):
    """Each filed shortening is in the tally once, whatever happened meanwhile; `billed` adds up over one run's takes."""

    def setUp(self):
        super().setUp()
        for number in range(6):
            self.put(f"{number}.call", PRINTED if number % 2 else FORWARDING)

    def test_taken_up(self):
        for rows in range(1, 7):
            filed = f"{self.filed}-{rows}"
            self.stopped(rows, filed)
            self.assertEqual(accounts_of(filed).tally, 0)
            self.assertEqual(self.run_here(filed=filed)[:2], (42, 42))
            self.assertEqual(self.run_here(filed=filed)[:2], (42, 0))

    def test_a_dry_run_meanwhile(self):
        self.stopped(3)
        before = tree(self.filed)
        out, said = run("provision", "--dry-run", self.sent, self.filed)
        self.assertIn("the tally would be 42 cents", said)
        self.assertEqual(tree(self.filed), before)
        self.run_here()
        self.assertEqual(lines_of(self.filed), out.splitlines())

    def test_files_that_change_meanwhile(self):
        """One that was billed and changes is billed again, and its row has the sum; one that is gone keeps what was billed."""
        self.stopped(4)
        self.put("0.call", PRINTED)
        os.unlink(os.path.join(self.sent, "1.call"))
        self.put("2.call", sample("refused"))
        self.put("3.call", UNTIDY)
        self.put("5.call", FREE)
        self.assertEqual(self.run_here()[:2], (28 + 3 + 11, 28 + 3 + 11))
        self.assertEqual(self.bills(), {"0.call": ("3", "14"), "1.call": ("3", "3"), "2.call": ("11", "11"), "3.call": ("", "3"),
                                        "4.call": ("11", "11"), "5.call": ("0", "0")})
        run("audit", self.filed)
        self.assertEqual(self.run_here()[:2], (42, 0))
        self.assertEqual(self.bills()["3.call"], ("", ""))

    def test_what_was_billed_and_is_nowhere_any_more(self):
        """Its row stays, so that the bills add up."""
        self.stopped(2)
        os.unlink(os.path.join(self.sent, "0.call"))
        for name in ("0.call", "0.call.short"):
            os.unlink(os.path.join(self.filed, name))
        self.assertEqual(self.run_here()[:2], (42, 42))
        self.assertEqual((rows_of(self.filed)["0.call"]["answer"], self.bills()["0.call"]), ("not sent", ("", "11")))
        run("audit", self.filed)
        self.assertEqual(self.run_here()[:2], (42, 0))
        self.assertNotIn("0.call", rows_of(self.filed))

    def test_after_a_finished_run(self):
        """What stands since then isn't billed, neither in the first take nor in the second."""
        self.run_here()
        self.put("1.call", FORWARDING)
        self.put("5.call", FORWARDING)
        for rows in (1, 2, 4):
            self.stopped(rows)
        self.assertEqual(self.run_here()[:2], (64, 22))
        self.assertEqual([billed for _, billed in self.bills().values()], ["0", "11", "0", "0", "0", "11"])

    def test_the_ledger_cut_or_damaged(self):
        """Believed as far as it is whole, and the rows with it; never one without the other."""
        self.stopped(4)
        own = os.path.join(self.filed, ".halivomue")
        with open(os.path.join(own, "ledger"), "rb") as file:
            ledger = file.read()
        entry = len(ledger) // 5
        self.assertEqual(len(ledger), 5 * entry)
        with filing.Folder.top(os.fsencode(self.filed)) as top:
            state = State(top)
            with open(os.path.join(own, "part.csv"), "rb") as file:
                part = file.read()
            ends = [0] + [at + 1 for at, byte in enumerate(part) if byte == 10]
            tallies = (0, 11, 14, 25, 28)

            def last(data, length=len(part)):
                """The tally and the rows that the ledger vouches for."""
                self.put(".halivomue/ledger", data, self.filed)
                found = state.ledger.last(length)
                return found and (halivomue.Accounts.load(found.saved).tally, ends.index(found.length) - 1)

            due = [None, *zip(tallies, range(5))]
            for at in range(len(ledger)):
                self.assertEqual(last(ledger[:at]), due[at // entry], at)
                self.assertEqual(last(ledger[:at] + bytes([ledger[at] ^ (1 << at % 8)]) + ledger[at + 1 :]), due[at // entry], at)
            for at in range(len(part) + 1):
                self.put(".halivomue/part.csv", part[:at], self.filed)
                whole = max(number for number, end in enumerate(ends) if end <= at)
                self.assertEqual(report.sound_length(state.part), ends[whole], at)
                self.assertEqual(last(ledger, ends[whole]), due[whole], at)
            self.put(".halivomue/part.csv", part, self.filed)
            for number in range(5):
                self.put(".halivomue/ledger", ledger[: (number + 1) * entry + 100], self.filed)
                saved, rows = state.believed(bytes(accounts_with(0)))
                self.assertEqual([row.name for _, row in rows], [f"{at}.call" for at in range(number)])
                self.assertEqual(halivomue.Accounts.load(saved).tally, tallies[number])
        shutil.copytree(self.filed, self.filed + "-kept")
        for length in (*range(0, len(ledger), entry // 3), len(ledger) - 1):
            shutil.rmtree(self.filed)
            shutil.copytree(self.filed + "-kept", self.filed)
            self.put(".halivomue/ledger", ledger[:length], self.filed)
            self.assertEqual(self.run_here()[:2], (42, 42), length)

    def test_the_ledger_cut_when_the_accounts_are_saved(self):
        """Killed between the accounts and the report, and the ledger is lost: nothing is billed twice."""
        def work():
            with replaced(filing.File, "becomes", lambda *_: os._exit(9)):
                provision_here(self.sent, self.filed)

        self.assertEqual(os.WEXITSTATUS(in_child(work)), 9)
        self.assertEqual(accounts_of(self.filed).tally, 42)
        self.put(".halivomue/ledger", b"", self.filed)
        self.assertEqual(self.run_here()[:2], (42, 42))

    def test_before_is_damaged(self):
        """Its rows aren't believed without its accounts."""
        self.stopped(3)
        self.stopped(1)
        path = os.path.join(self.filed, ".halivomue/before.csv")
        with open(path, "rb") as file:
            data = file.read()
        at = data.index(b"\n") + 100
        self.put(".halivomue/before.csv", data[:at] + (b"1" if data[at] == 48 else b"0") + data[at + 1 :], self.filed)
        self.put(".halivomue/ledger", b"", self.filed)
        with self.assertRaises(halivomue.Failed) as caught:
            self.run_here()
        self.assertIn(f"{path}: damaged", str(caught.exception))
        self.put(".halivomue/before.csv", data, self.filed)
        self.assertEqual(self.run_here()[:2], (42, 42))


class VersionBefore(Bills):
    """A tree that version 0.5 filed isn't billed when it is first run again."""

    OLD = [name for name in report.COLUMNS if name not in ("price", "billed")]

    def setUp(self):
        super().setUp()
        for number in range(6):
            self.put(f"{number}.call", (PRINTED, FORWARDING, UNTIDY)[number % 3])
        self.put("x.call", sample("refused"))
        provision_here(self.sent, self.filed, json=True)
        self.due = unbilled(self.filed)
        with open(os.path.join(self.filed, "report.csv"), "rb") as file:
            self.lines = file.read().decode().splitlines()
        os.unlink(os.path.join(self.filed, ".halivomue/accounts"))

    def old(self, name, lines):
        """Writes lines of a report with the columns that 0.5 had."""
        at = [report.COLUMNS.index(column) for column in self.OLD]
        out = io.StringIO()
        csv.writer(out, lineterminator="\n").writerows([row[column] for column in at] for row in csv.reader(lines))
        self.put(name, out.getvalue().encode(), self.filed)

    def finished(self):
        self.old("report.csv", self.lines)
        told = [json.loads(line) for line in lines_of(self.filed, "report.jsonl")]
        text = "".join(json.dumps({k: v for k, v in row.items() if k in self.OLD}) + "\n" for row in told)
        self.put("report.jsonl", text.encode(), self.filed)

    def test_finished(self):
        self.finished()
        self.assertEqual(report.HEADER.split(","), list(report.COLUMNS))
        out, _ = run("audit", self.filed, status=1)
        self.assertIn("report.csv: report: line 1: the columns of version 0.5 or earlier; start the run again\n", out)
        said = run("page", self.filed, "--out", os.path.join(self.folder, "p.html"), status=2)[1]
        self.assertIn("line 1: the columns of version 0.5 or earlier; start the run again\n", said)
        dry, said = run("provision", "--dry-run", self.sent, self.filed, status=1)
        self.assertIn("the tally would be 0 cents", said)
        outcome, _ = provision_here(self.sent, self.filed)
        self.assertEqual((outcome.done, outcome.kept, outcome.tally, outcome.totals.sums["billed"]), (0, 6, 0, 0))
        self.assertEqual(lines_of(self.filed), dry.splitlines())
        self.assertEqual(unbilled(self.filed), self.due)
        self.assertEqual(self.bills()["0.call"], ("3", "0"))
        run("audit", self.filed)
        self.put("0.call", FORWARDING)
        self.assertEqual(self.run_here()[:2], (11, 11))

    def test_interrupted(self):
        """What it had filed behind its rows isn't billed either; nor is it when this run is interrupted too."""
        for rows in range(6):
            for again in (0, 1, 3):
                shutil.rmtree(self.filed)
                provision_here(self.sent, self.filed, json=True)
                for name in (".halivomue/accounts", "report.csv", "report.jsonl"):
                    os.unlink(os.path.join(self.filed, name))
                if again == 1:
                    for name in ("4.call", "4.call.short"):
                        os.unlink(os.path.join(self.filed, name))
                self.old(".halivomue/part.csv", self.lines[: rows + 1])
                if rows == 0:
                    self.put(".halivomue/part.csv", b"", self.filed)
                if rows > 2:
                    self.old(".halivomue/before.csv", self.lines[:4])
                if again:
                    self.stopped(again)
                due = 11 if again == 1 else 0
                self.assertEqual(self.run_here(json=True)[:2], (due, due), (rows, again))
                self.assertEqual(unbilled(self.filed), self.due)

    def test_interrupted_over_a_finished_one(self):
        self.finished()
        self.put("4.call", PRINTED)
        self.old(".halivomue/part.csv", self.lines[:2])
        self.assertEqual(self.run_here()[:2], (3, 3))
        self.assertEqual([billed for _, billed in self.bills().values()], ["0", "0", "", "0", "3", "", ""])

    def test_it_was_stopped_while_it_was_taken_up(self):
        self.old(".halivomue/part.csv", self.lines[:3])
        for name in ("report.csv", "report.jsonl"):
            os.unlink(os.path.join(self.filed, name))

        def work():
            with replaced(State, "_flush_own", lambda *_: os._exit(9)):
                provision_here(self.sent, self.filed, flush=True)

        self.assertEqual(os.WEXITSTATUS(in_child(work)), 9)
        self.assertTrue(os.path.exists(os.path.join(self.filed, ".halivomue/before.csv")))
        self.assertEqual(self.run_here(json=True)[:2], (0, 0))
        self.assertEqual(unbilled(self.filed), self.due)


if __name__ == "__main__":
    unittest.main()
