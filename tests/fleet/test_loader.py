"""examples/loader.c: compiled, tried on files, and its sizes."""

import os
import re
import socket
import subprocess

from common import Case, ROOT, halivomue, sample, unittest

import fleet

ARCHIVE = os.path.join(os.environ.get("HALIVOMUE_ARCHIVE_DIR", str(ROOT / "crates/halivomue_c/out")), "libhalivomue_c.a")


class Loader(Case):
    def compile(self, *more):
        out = os.path.join(self.folder, "loader")
        subprocess.run(["gcc", "-std=c99", "-D_POSIX_C_SOURCE=200809L", "-Wall", "-Wextra", "-Werror", "-pedantic", "-Os", *more,
                        "-I", str(ROOT / "include"), "-o", out, str(ROOT / "examples/loader.c"), ARCHIVE], check=True)
        return out

    def load(self, program, data):
        done = subprocess.run([program], input=data, capture_output=True, check=False)
        return done.returncode, done.stdout

    def test_files(self):
        program = self.compile("-Wl,--gc-sections")
        self.assertEqual(self.load(program, sample("printed")), (0, halivomue.shorten(sample("printed")).data))
        self.assertEqual(self.load(program, sample("untidy")), (1, sample("untidy")))
        self.assertEqual(self.load(program, sample("refused")), (2, b""))
        self.assertEqual(self.load(program, b""), (2, b""))
        self.assertEqual(self.load(program, sample("printed") + bytes(100_000)), (2, b""))
        for seed in range(20):
            data = bytes(fleet.procedure(seed, 20 + 20 * seed))
            due = (0, halivomue.shorten(data).data) if halivomue.tidy(data).tidy else (1, data)
            self.assertEqual(self.load(program, data), due)

    def test_a_wire_that_fails(self):
        """Before, a read error was taken for the procedure's end, and what had come so far was loaded."""
        program = self.compile()
        here, there = socket.socketpair()
        there.send(b"never read: closing then is a reset")
        here.sendall(sample("printed"))
        here.close()
        done = subprocess.run([program], stdin=there, capture_output=True, check=False)
        there.close()
        self.assertEqual((done.returncode, done.stdout), (3, b""))
        with open("/dev/full", "wb") as full:
            done = subprocess.run([program], input=sample("printed"), stdout=full, check=False)
        self.assertEqual(done.returncode, 3)

    def test_no_heap_and_no_files(self):
        """Of the C library it calls nothing that allocates or opens."""
        symbols = subprocess.run(["nm", "-u", self.compile()], capture_output=True, check=True).stdout.decode()
        called = {name.split("@")[0] for name in re.findall(r"U (\S+)", symbols)}
        allowed = {"__libc_start_main", "read", "write", "memcpy", "memmove", "memset", "memcmp"}
        allowed |= {name for name in called if name.startswith("__") and name.endswith("_chk")}
        self.assertLessEqual(called, allowed)

    def test_it_is_short(self):
        lines = (ROOT / "examples/loader.c").read_text().splitlines()
        self.assertLessEqual(len(lines), 80)


if __name__ == "__main__":
    unittest.main()
