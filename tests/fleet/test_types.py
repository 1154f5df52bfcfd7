"""The type annotations that the package ships (py.typed) are right, if mypy is installed to check them."""

import os
import shutil
import subprocess
import tempfile

from common import ROOT, unittest

MYPY = shutil.which("mypy")

SCRIPT = """
import pathlib
import halivomue

def each(row: halivomue.Row) -> None:
    print(row.name, row.moved)

data = pathlib.Path("x").read_bytes()
if halivomue.tidy(data):
    short: bytes = halivomue.shorten(data).data
    cents: int = halivomue.shorten(data).price
accounts: halivomue.Accounts = halivomue.Accounts.load(bytes(halivomue.Accounts()))
joined: bool = accounts.join(halivomue.Accounts())
print(accounts.shorten(data).price, accounts.tally, joined)
with halivomue.AccountsFile("shop") as kept:
    kept.shorten(memoryview(data))
p: halivomue.Procedure = halivomue.Procedure.parse(memoryview(data))
print(p.code[0].shape.number, [i.targets for i in p.code])
outcome: halivomue.Outcome = halivomue.provision("sent", pathlib.Path("filed"), jobs=2, accounts="shop", each=each)
print(outcome.totals.answers["accepted"] + outcome.done)
"""


@unittest.skipUnless(MYPY, "mypy isn't installed: the types weren't checked")
class Types(unittest.TestCase):
    def check(self, *words, **more):
        with tempfile.TemporaryDirectory() as cache:
            words = [MYPY, "--strict", "--config-file=", "--cache-dir", cache, *words]
            return subprocess.run(words, capture_output=True, check=False, encoding="utf-8", **more)

    def test_the_package(self):
        """Before, mypy found 11 errors."""
        done = self.check("--python-version", "3.9", str(ROOT / "python/halivomue"))
        self.assertEqual((done.returncode, [line for line in done.stdout.splitlines() if "error" in line]), (0, []))

    def test_a_script_that_uses_it(self):
        with tempfile.TemporaryDirectory() as folder:
            path = os.path.join(folder, "script.py")
            for more, status in (("", 0), ("halivomue.read('text')", 1), ("short = 5", 1)):
                with open(path, "w") as out:
                    out.write(SCRIPT + more)
                done = self.check(path, env=dict(os.environ, MYPYPATH=str(ROOT / "python")))
                self.assertEqual(done.returncode, status, done.stdout)


if __name__ == "__main__":
    unittest.main()
