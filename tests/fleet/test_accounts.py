"""Accounts in Python, in a file, and the commands `accounts` and `shorten --accounts`."""

import contextlib
import copy
import io
import json
import os
import pickle
import stat
import threading

from common import Case, accounts_with, halivomue, replaced, run, sample, tree, unittest

import fleet
from halivomue import accounts as module
from halivomue import asking, files
from halivomue.answers import CEILING_CENTS, DEAREST

#: Files that cost 3, 11, 0 and 1 cents.
PRINTED, FORWARDING = sample("printed"), sample("forwarding")
_RET = halivomue.instruction("Ret")
FREE = bytes(halivomue.Procedure(["I64"], [[_RET]]))
CENT = bytes(halivomue.Procedure(["I64"], [[halivomue.instruction("Stmt"), _RET]]))


def saved(tally):
    """The saved form, as the documents say it."""
    form = b"HALIVACC" + (1).to_bytes(4, "little") + bytes(4) + tally.to_bytes(4, "little") + bytes(188)
    return form + bytes(255 - byte for byte in form)


class Accounts(Case):
    def test_tally(self):
        accounts, due = halivomue.Accounts(), 0
        self.assertEqual(accounts.tally, 0)
        for data, price in ((PRINTED, 3), (FORWARDING, 11), (FREE, 0), (CENT, 1), (PRINTED, 3), (bytearray(PRINTED), 3), (memoryview(CENT), 1)):
            short = accounts.shorten(data)
            due += price
            self.assertEqual((short, short.price, accounts.tally), (halivomue.shorten(data), price, due))

    def test_refused(self):
        accounts = accounts_with(7)
        for data in (sample("refused"), b"", bytes(31), bytes(65_568)):
            with self.assertRaises(halivomue.Refused) as caught:
                accounts.shorten(data)
            self.assertEqual((caught.exception.number, caught.exception.record), (halivomue.read(data).number, halivomue.read(data).record))
            self.assertEqual(bytes(accounts), saved(7))
        self.assertRaises(TypeError, accounts.shorten, "text")
        self.assertEqual(accounts.tally, 7)

    def test_ceiling(self):
        """Equality passes, one cent more is refused with 10; a file that costs nothing is never refused."""
        for data, price in ((PRINTED, 3), (FORWARDING, 11), (CENT, 1)):
            accounts = accounts_with(CEILING_CENTS - price + 1)
            before = bytes(accounts)
            with self.assertRaises(halivomue.Refused) as caught:
                accounts.shorten(data)
            self.assertEqual((caught.exception.number, caught.exception.record), (10, 0))
            self.assertEqual(str(caught.exception), "refused 10 0 (the tally would pass 9999999 cents)")
            self.assertEqual(bytes(accounts), before)
            accounts = accounts_with(CEILING_CENTS - price)
            self.assertEqual(accounts.shorten(data), halivomue.shorten(data))
            self.assertEqual(accounts.tally, CEILING_CENTS)
            self.assertEqual(accounts.shorten(FREE).price, 0)
            self.assertEqual(accounts.tally, CEILING_CENTS)
        with self.assertRaises(halivomue.Refused) as caught:
            accounts.shorten(sample("refused"))
        self.assertEqual(caught.exception.number, 7)

    def test_prices(self):
        for seed in range(40):
            data = bytes(fleet.procedure(seed, 10 + 11 * seed))
            short = halivomue.shorten(data)
            hundredths = 40 * data[::32].count(4) + 15 * short.grown
            self.assertEqual(short.price, hundredths // 100 + (hundredths % 100 >= 50))
            self.assertLessEqual(short.price, DEAREST)

    def test_shorten_alone_bills_nobody(self):
        """However much the same thread shortened before."""
        with replaced(halivomue._library.functions(), "made", accounts_with(CEILING_CENTS - 3)._words.bytes.tobytes()):
            for _ in range(3):
                self.assertEqual(halivomue.shorten(PRINTED).price, 3)

    def test_saved_form(self):
        for tally in (0, 1, 255, 256, 65_536, 1_234_567, CEILING_CENTS):
            accounts = halivomue.Accounts.load(saved(tally))
            self.assertEqual((accounts.tally, bytes(accounts)), (tally, saved(tally)))
            self.assertEqual(halivomue.Accounts.load(memoryview(bytearray(saved(tally)))), accounts)
        self.assertEqual(bytes(halivomue.Accounts()), saved(0))
        for tally in (CEILING_CENTS + 1, 1 << 24, (1 << 32) - 1):
            self.assertRaises(halivomue.DamagedAccounts, halivomue.Accounts.load, saved(tally))
        self.assertTrue(issubclass(halivomue.DamagedAccounts, ValueError))
        self.assertRaises(TypeError, halivomue.Accounts.load, "text")

    def test_any_damage_is_noticed(self):
        for tally in (0, 4711, CEILING_CENTS):
            form = saved(tally)
            for length in (*range(416), 417, 832):
                self.assertRaises(halivomue.DamagedAccounts, halivomue.Accounts.load, (form + form)[:length])
            for at in range(416):
                for by in (1, 128, 255):
                    other = bytearray(form)
                    other[at] ^= by
                    self.assertRaises(halivomue.DamagedAccounts, halivomue.Accounts.load, other)

    def test_join(self):
        whole, parts = halivomue.Accounts(), [halivomue.Accounts() for _ in range(3)]
        for number, data in enumerate((PRINTED, FORWARDING, CENT, PRINTED)):
            whole.shorten(data)
            parts[number % 3].shorten(data)
        joined = halivomue.Accounts()
        self.assertEqual([joined.join(part) for part in parts], [True] * 3)
        self.assertEqual(joined, whole)
        full = accounts_with(CEILING_CENTS - 17)
        self.assertIs(full.join(whole), False)
        self.assertEqual(full.tally, CEILING_CENTS - 17)
        full = accounts_with(CEILING_CENTS - 18)
        self.assertIs(full.join(whole), True)
        self.assertEqual((full.tally, whole.tally), (CEILING_CENTS, 18))
        self.assertIs(whole.join(whole), True)
        self.assertEqual(whole.tally, 36)

    def test_pickled_copied_and_compared(self):
        accounts = accounts_with(42)
        made = (pickle.loads(pickle.dumps(accounts)), copy.copy(accounts), copy.deepcopy(accounts),
                *(pickle.loads(pickle.dumps(accounts, protocol)) for protocol in range(pickle.HIGHEST_PROTOCOL + 1)))
        for other in made:
            self.assertEqual(other, accounts)
            self.assertIsNot(other, accounts)
            other.shorten(PRINTED)
            self.assertNotEqual(other, accounts)
            self.assertEqual((other.tally, accounts.tally), (45, 42))
        self.assertRaises(TypeError, hash, accounts)
        self.assertNotEqual(accounts, bytes(accounts))
        self.assertEqual(repr(accounts), "<Accounts with a tally of 42 cents>")

    def test_from_eight_threads_at_once(self):
        """Each call is one step."""
        accounts, other = halivomue.Accounts(), halivomue.Accounts()
        part = accounts_with(1)

        def work(start):
            for number in range(300):
                accounts.shorten((PRINTED, FORWARDING, CENT)[(start + number) % 3])
                if number % 3 == 0:
                    other.join(part)
                    halivomue.Accounts.load(bytes(accounts))

        threads = [threading.Thread(target=work, args=(start,)) for start in range(8)]
        for thread in threads:
            thread.start()
        for thread in threads:
            thread.join()
        self.assertEqual((accounts.tally, other.tally), (800 * (3 + 11 + 1), 800))


class File(Case):
    def setUp(self):
        super().setUp()
        self.path = os.path.join(self.folder, "shop")
        self.lock = self.path + ".lock"
        self.put("shop", saved(5), self.folder)

    def kept(self):
        with open(self.path, "rb") as file:
            return file.read()

    def test_saved_at_the_end_of_the_block(self):
        os.chmod(self.path, 0o600)
        with halivomue.AccountsFile(self.path) as accounts:
            accounts.shorten(PRINTED)
            with open(self.lock) as lock:
                self.assertEqual(lock.read(), f"process {os.getpid()}\n")
            self.assertEqual(self.kept(), saved(5))
        self.assertEqual(self.kept(), saved(8))
        self.assertEqual(stat.S_IMODE(os.stat(self.path).st_mode), 0o600)
        self.assertEqual(set(tree(self.folder)), {b"sent", b"shop"})

    def test_not_saved_after_an_exception(self):
        with self.assertRaises(KeyError):
            with halivomue.AccountsFile(self.path) as accounts:
                accounts.shorten(PRINTED)
                raise KeyError
        self.assertEqual((self.kept(), os.path.exists(self.lock)), (saved(5), False))

    def test_locked(self):
        for text in ("process 4711\n", "run 00ff process 12\n", "", "\x1b[31m", "x" * 10_000):
            self.put("shop.lock", text.encode(), self.folder)
            with self.assertRaises(halivomue.Failed) as caught:
                halivomue.AccountsFile(self.path).__enter__()
            told = str(caught.exception)
            self.assertTrue(told.startswith(f"{self.lock} is there"), told)
            self.assertTrue(told.isprintable(), told)
            self.assertEqual(f"({text.strip()})" in told, 0 < len(text) < 100 and text.isascii() and text.strip().isprintable(), told)
            self.assertEqual(self.kept(), saved(5))
            self.assertTrue(os.path.exists(self.lock))

    def test_what_cannot_be(self):
        def told():
            with self.assertRaises(halivomue.Failed) as caught:
                with halivomue.AccountsFile(self.path):
                    pass
            self.assertFalse(os.path.exists(self.lock))
            return str(caught.exception).replace(self.folder, "")

        for form in [saved(5)[:length] for length in range(416)] + [saved(5) + b"\0", saved(CEILING_CENTS + 1)]:
            self.put("shop", form, self.folder)
            self.assertEqual(told(), "/shop: damaged: not the saved form of accounts")
            self.assertEqual(self.kept(), form)
        os.unlink(self.path)
        self.assertTrue(told().startswith("/shop: there is no such file (`python3 -m halivomue accounts make"))
        os.symlink("other", self.path)
        self.put("other", saved(1), self.folder)
        self.assertEqual(told(), "/shop: a symbolic link, not followed")
        os.unlink(self.path)
        os.mkfifo(self.path)
        self.assertEqual(told(), "/shop: not a plain file")
        os.unlink(self.path)
        os.mkdir(self.path)
        self.assertEqual(told(), "/shop: not a plain file")
        self.path = self.lock = os.path.join(self.folder, "none/shop")
        self.assertEqual(told(), "/none/shop.lock: No such file or directory")


class Commands(Case):
    def setUp(self):
        super().setUp()
        self.samples()
        self.shop, self.out = os.path.join(self.folder, "shop"), os.path.join(self.folder, "out")

    def at(self, name):
        return os.path.join(self.sent, name + ".call")

    def bill(self, *words, status=0, **more):
        return run("shorten", "--accounts", self.shop, *words, status=status, **more)

    def test_make_and_show(self):
        self.assertEqual(run("accounts", "make", self.shop), (f"{self.shop}: made\n", ""))
        self.assertEqual(run("accounts", "show", self.shop), ("tally 0\n", ""))
        for there in (self.shop, self.sent):
            out, said = run("accounts", "make", there, status=2)
            self.assertEqual((out, said), ("", f"halivomue accounts: {there}: there is something of that name already\n"))
        os.symlink("nowhere", self.out)
        self.assertIn("there is something of that name already", run("accounts", "make", self.out, status=2)[1])
        self.assertFalse(os.path.exists(os.path.join(self.folder, "nowhere")))
        self.put("shop", saved(1234), self.folder)
        self.assertEqual(run("accounts", "show", self.shop)[0], "tally 1234\n")
        self.put("shop", saved(1234)[:-1], self.folder)
        why = f"halivomue accounts: {self.shop}: damaged: not the saved form of accounts\n"
        self.assertEqual(run("accounts", "show", self.shop, status=2), ("", why))
        run("accounts", "show", status=2)
        run("accounts", "mend", self.shop, status=2)

    def test_shorten(self):
        run("accounts", "make", self.shop)
        out, said = self.bill(self.at("printed"), self.out)
        self.assertEqual((out, said), (f"{self.at('printed')}: moved 1 grown 2 fresh 0 rescued 0 price 3\n", ""))
        self.assertEqual(run("accounts", "show", self.shop)[0], "tally 3\n")
        os.unlink(self.out)
        os.mkdir(self.out)
        self.bill(*(self.at(name) for name in ("forwarding", "printed", "refused", "untidy")), self.out, status=1)
        self.assertEqual(run("accounts", "show", self.shop)[0], f"tally {3 + 11 + 3 + 12}\n")
        told = json.loads(run("shorten", "--json", "--accounts", self.shop, self.at("printed"), self.out)[0])
        self.assertEqual((told["price"], told["moved"]), (3, 1))
        run("shorten", self.at("printed"), self.out)
        self.assertEqual(run("accounts", "show", self.shop)[0], "tally 32\n")
        self.assertFalse(os.path.exists(self.shop + ".lock"))

    def test_ceiling(self):
        self.put("shop", saved(CEILING_CENTS - 3), self.folder)
        self.bill(self.at("printed"), self.out)
        before = tree(self.folder)
        out, _ = self.bill("--words", self.at("printed"), self.out, status=1)
        self.assertEqual(out, f"{self.at('printed')}: refused 10 0 (the tally would pass 9999999 cents)\n")
        self.assertEqual(tree(self.folder), before)

    def test_what_cannot_be(self):
        """Nothing is written, neither OUT nor FILE."""
        before = tree(self.folder)
        self.assertIn("there is no such file", self.bill(self.at("printed"), self.out, status=2)[1])
        self.assertEqual(tree(self.folder), before)
        self.put("shop", saved(1)[:200], self.folder)
        before = tree(self.folder)
        self.assertEqual(self.bill(self.at("printed"), self.out, status=2),
                         ("", f"halivomue shorten: {self.shop}: damaged: not the saved form of accounts\n"))
        self.put("shop", saved(1), self.folder)
        before = tree(self.folder)
        for name in (self.shop, os.path.join(self.sent, "../shop"), self.shop + ".lock"):
            self.assertIn("the accounts are there", self.bill(self.at("printed"), name, status=2)[1])
        self.bill(self.at("printed"), os.path.join(self.folder, "none/out"), status=1)
        self.bill(self.at("printed"), "/dev/null", status=1)
        self.assertEqual(tree(self.folder), before)
        self.put("shop.lock", b"process 1\n", self.folder)
        _, said = self.bill(self.at("printed"), self.out, status=2)
        self.assertTrue(said.startswith(f"halivomue shorten: {self.shop}.lock is there (process 1): "), said)
        self.assertFalse(os.path.exists(self.out))

    def test_the_order(self):
        """OUT's new file, then the accounts, then OUT; if OUT can't take its name, the accounts are put back."""
        self.put("shop", saved(1), self.folder)
        before, seen = os.replace, []

        def watched(source, target, **more):
            seen.append((os.fsdecode(target), len(os.listdir(self.folder))))
            if fails and target == b"out":
                raise PermissionError(1, "not permitted")
            return before(source, target, **more)

        for fails, tally, due in ((False, 4, ["shop", "out"]), (True, 4, ["shop", "out", "shop"])):
            seen.clear()
            with replaced(files.os, "replace", watched), contextlib.redirect_stdout(io.StringIO()):
                status = asking.shorten(asking.Asked("shorten"), [self.at("printed"), self.out], self.shop)
            self.assertEqual((status, [name for name, _ in seen]), (int(fails), due))
            self.assertEqual(module.read_file(self.shop).tally, tally)
        self.assertEqual(set(os.listdir(self.folder)), {"sent", "shop", "out"})


if __name__ == "__main__":
    unittest.main()
