"""The C header: its version, constants, words and structs, halivomue_version and halivomue_provision, and a library of another version."""

import os
import re
import shutil
import struct
import subprocess

from common import Case, ROOT, halivomue, run, unittest

import answers
import fleet
import replay
from halivomue import _library
from halivomue import answers as words

ARCHIVE = os.path.join(os.environ.get("HALIVOMUE_ARCHIVE_DIR", str(ROOT / "crates/halivomue_c/out")), "libhalivomue_c.a")
STRICT = ["-Wall", "-Wextra", "-Werror", "-pedantic", "-I", str(ROOT / "include")]

CONSTANTS = """
#include <halivomue.h>
#include <stdio.h>

int main(void)
{
    uint32_t number;

    printf("%s\\n%d %d\\n%lu\\n", HALIVOMUE_VERSION, HALIVOMUE_VERSION_MAJOR, HALIVOMUE_VERSION_MINOR, (unsigned long)halivomue_version());
    printf("%d %d\\n", HALIVOMUE_LONGEST, HALIVOMUE_ROOM);
    printf("%d %d\\n", HALIVOMUE_CEILING_CENTS, HALIVOMUE_DEAREST);
    printf("%lu %d\\n", (unsigned long)sizeof(struct halivomue_accounts), HALIVOMUE_ACCOUNTS_SAVED);
    for (number = 0; number < 12; number++) {
        const char *reason = halivomue_reason(number);

        printf("%s\\n", reason ? reason : "none");
    }
    return 0;
}
"""


def as_in_c(reason):
    """A reason of the package without its record's number."""
    return re.sub(r"record \{\}(: )?", lambda found: "" if found[1] else "the record", reason)


class Header(Case):
    def compiled(self, name, *compiler):
        path, out = self.put(name, CONSTANTS.encode()), os.path.join(self.folder, "out")
        subprocess.run([*compiler, *STRICT, path, ARCHIVE, "-o", out], check=True)
        return subprocess.run([out], capture_output=True, check=True).stdout.decode().splitlines()

    def test_constants_and_words(self):
        lines = self.compiled("source.c", "gcc", "-std=c99")
        major, minor = map(int, lines[1].split())
        self.assertEqual(lines[0], halivomue.__version__)
        self.assertEqual(f"{major}.{minor}", lines[0])
        self.assertEqual(int(lines[2]), 65536 * major + minor)
        self.assertEqual(lines[3], f"{halivomue.LONGEST} {halivomue.ROOM}")
        self.assertEqual(lines[4:6], [f"{words.CEILING_CENTS} {words.DEAREST}", f"512 {words.ACCOUNTS_SAVED}"])
        due = [as_in_c(words._REASONS[number]) for number in range(1, 11)]
        self.assertEqual(lines[6:], ["", *due, "none"])
        for reason in due:
            self.assertNotIn("{", reason)

    @unittest.skipUnless(shutil.which("g++"), "g++ isn't installed: the header wasn't tried in C++")
    def test_in_cpp(self):
        self.assertEqual(self.compiled("source.cc", "g++", "-std=c++11"), self.compiled("source.c", "gcc", "-std=c99"))


class OtherLibrary(Case):
    """A library of another version is reported in one line, before it is used."""

    def library(self, source):
        path, out = self.put("other.c", source.encode()), os.path.join(self.folder, "libother.so")
        subprocess.run(["gcc", "-shared", "-fPIC", "-o", out, path], check=True)
        return out

    def told(self, library):
        self.put("a.call", b"")
        _, said = run("read", os.path.join(self.sent, "a.call"), status=2, env={"HALIVOMUE_LIBRARY": library})
        self.assertEqual(said.count("\n"), 1)
        return said

    def test_another_version(self):
        for number, due in ((3, "0.3"), (65536 + 2, "1.2")):
            library = self.library(f"unsigned halivomue_version(void) {{ return {number}; }}")
            self.assertEqual(self.told(library), f"halivomue read: {library} is of version {due}, and the package of "
                             f"{halivomue.__version__} (python/build makes libhalivomue.so anew)\n")

    def test_no_version(self):
        library = self.library("int halivomue_read;")
        self.assertIn("is of version 0.3 or earlier, and the package of", self.told(library))

    def test_a_function_is_missing(self):
        major, minor = map(int, halivomue.__version__.split("."))
        library = self.library(f"unsigned halivomue_version(void) {{ return {65536 * major + minor}; }}")
        self.assertIn("halivomue_read", self.told(library))


def large(registers, tidy):
    """A procedure that Read accepts and that is too large to be shortened."""
    make = halivomue.instruction
    blocks = [[make("Br", to=1)], [make("Ret")]]
    if not tidy:
        blocks[0].insert(0, make("Move", dst=1, src=0))
        blocks[1].insert(0, make("Move", dst=2, src=1))
    return bytes(halivomue.Procedure(["I64"] * registers, blocks))


def files():
    """Files, each with a room, of every answer."""
    for due in answers.answers(str(ROOT / "tests/reference/answers.txt")):
        yield due.input, due.room
        yield due.input, max(due.length - 1, 0)
        yield due.input, due.length
    for _, data, _ in replay.vectors(ROOT / "tests/vectors/tidy.txt"):
        yield data, halivomue.ROOM
        yield data, 0
    for _, data, _ in replay.vectors(ROOT / "tests/vectors/read.txt"):
        yield data, 100
    for tidy in (True, False):
        yield large(481, tidy), halivomue.ROOM
        yield large(5, tidy), 0


class Provision(Case):
    """halivomue_provision is halivomue_tidy and halivomue_shorten at once."""

    def test_from_c(self):
        stream = b"".join(struct.pack("<2I", len(data), room) + data for data, room in files())
        done = subprocess.run([ROOT / "tests/c/run", "provision", ARCHIVE], input=stream, capture_output=True, check=False)
        self.assertEqual(done.returncode, 0, done.stdout.decode()[-2000:] + done.stderr.decode()[-2000:])
        self.assertRegex(done.stdout.decode(), r"provision.c: \d{4} passed, 0 failed")

    def test_from_python(self):
        for seed in range(20):
            self.hold(bytes(fleet.procedure(seed, 20 + 20 * seed)))
        for data in (large(481, True), large(481, False), large(5, False), b"", bytes(31), bytes(32)):
            self.hold(data)

    def hold(self, data):
        answer, short = _library.provisioned(data)
        tidiness = halivomue.tidy(data)
        self.assertEqual((answer.tidy == 1, answer.reg), (tidiness.tidy, tidiness.reg))
        try:
            due = halivomue.shorten(data)
        except halivomue.Refused as refused:
            self.assertEqual((answer.number, answer.record, short), (refused.number, refused.record, b""))
        else:
            self.assertEqual((short, answer.moved, answer.grown, answer.fresh, answer.rescued),
                             (due.data, due.moved, due.grown, due.fresh, due.rescued))


if __name__ == "__main__":
    unittest.main()
