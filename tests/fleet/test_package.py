"""read, tidy and shorten: samples, damaged files, every type of bytes, wrong types, threads."""

import array
import ctypes
import mmap
import os
import pickle
import random
import re
import shutil
import subprocess
import sys
import tempfile
import threading
import time

from common import Case, PROGRAM, ROOT, halivomue, in_child, run, sample, unittest

import answers
import fleet
import replay
from halivomue import Reading, Refused, Shortening, Tidiness, _library


class Samples(unittest.TestCase):
    def test_read(self):
        for name, due in (("printed", (0, 0)), ("forwarding", (0, 0)), ("untidy", (0, 0)), ("refused", (7, 9))):
            self.assertEqual(halivomue.read(sample(name)), Reading(*due))
        self.assertTrue(halivomue.read(sample("printed")).accepted)
        self.assertEqual(halivomue.read(sample("printed")).reason, "")
        self.assertIn("record 9 names a register", halivomue.read(sample("refused")).reason)

    def test_tidy(self):
        self.assertEqual(halivomue.tidy(sample("printed")), Tidiness(0, 0, True, 0))
        self.assertEqual(halivomue.tidy(sample("untidy")), Tidiness(0, 0, False, 5))
        self.assertEqual(halivomue.tidy(sample("refused")), Tidiness(7, 9, False, 0))
        self.assertIn("register 5 is written once", halivomue.tidy(sample("untidy")).reason)
        self.assertEqual(halivomue.tidy(sample("printed")).reason, "")

    def test_shorten(self):
        short = halivomue.shorten(sample("printed"))
        self.assertEqual((short.moved, short.grown, short.fresh, short.rescued), (1, 2, 0, 0))
        self.assertEqual((short.length, len(short.data)), (352, 352))
        self.assertNotEqual(short.data, sample("printed"))
        self.assertEqual(short.counts, "moved 1 grown 2 fresh 0 rescued 0")
        unmoved = halivomue.shorten(sample("forwarding"))
        self.assertEqual((unmoved.moved, unmoved.data), (0, sample("forwarding")))
        with self.assertRaises(Refused) as caught:
            halivomue.shorten(sample("refused"))
        told = caught.exception
        self.assertEqual((told.number, told.record), (7, 9))
        self.assertEqual(str(told), "refused 7 9 (record 9 names a register, block, table or list that does not exist)")
        self.assertIsInstance(told, ValueError)

    def test_listing_is_document_01s(self):
        due = ["moved 1 grown 2 fresh 0 rescued 0", "reg 0 0", "block 0 0 2", "block 1 2 4", "block 2 4 5", "block 3 5 6",
               "code 0 23 0 10 0 0 0 0 0 0", "code 1 19 0 14 0 1 3 0 0 0", "code 2 23 0 12 0 0 0 0 0 0",
               "code 3 19 0 14 0 1 3 0 0 0", "code 4 18 0 14 3 0 0 0 0 0", "code 5 21 0 15 0 0 0 0 0 0"]
        self.assertEqual(halivomue.shorten(sample("printed")).listing(), "\n".join(due) + "\n")

    def test_limits(self):
        made = fleet.procedure(5, 470)
        more = [halivomue.instruction("Stmt")] * (481 - len(made.code))
        large = halivomue.Procedure(made.registers, [[*more, *made.blocks[0]], *made.blocks[1:]], made.body, made.operands, made.tables)
        self.assertTrue(halivomue.read(bytes(large)).accepted)
        with self.assertRaises(Refused) as caught:
            halivomue.shorten(bytes(large))
        self.assertEqual((caught.exception.number, caught.exception.record), (8, 0))
        self.assertIn("480", caught.exception.reason)

    def test_empty(self):
        for nothing in (b"", bytearray(), memoryview(b"")):
            self.assertEqual(halivomue.read(nothing), Reading(3, 0))
            self.assertEqual(halivomue.tidy(nothing), Tidiness(3, 0, False, 0))
            self.assertRaises(Refused, halivomue.shorten, nothing)

    def test_too_long(self):
        for length in (33, 65_536, 65_537, 65_568, 1 << 20):
            self.assertEqual(halivomue.read(bytes(length)).number, 2 if length == 65_536 else 1)


def price(data, grown):
    """What a file costs: 40 hundredths of a cent for each instruction and 15 for each appended one, half a cent up."""
    hundredths = 40 * data[::32].count(4) + 15 * grown
    return hundredths // 100 + (hundredths % 100 >= 50)


class Stored(unittest.TestCase):
    """The vectors and the stored answers of the published Rust, through the package."""

    def test_vectors_of_read(self):
        for name, data, due in replay.vectors(ROOT / "tests/vectors/read.txt"):
            self.assertEqual(halivomue.read(data), Reading(*due), name)

    def test_vectors_of_tidy(self):
        for name, data, (number, record, tidy, reg) in replay.vectors(ROOT / "tests/vectors/tidy.txt"):
            self.assertEqual(halivomue.tidy(data), Tidiness(number, record, tidy == 1, reg), name)

    def test_answers_of_shorten(self):
        tried = 0
        for due in answers.answers(str(ROOT / "tests/reference/answers.txt")):
            if due.number == 9:
                continue
            tried += 1
            try:
                got = halivomue.shorten(due.input)
            except Refused as refused:
                self.assertEqual((refused.number, refused.record), (due.number, due.record), due.name)
            else:
                self.assertEqual(got, Shortening(due.output, due.moved, due.grown, due.fresh, due.rescued, price(due.input, due.grown)), due.name)
                self.assertEqual(due.number, 0)
        self.assertGreater(tried, 700)

    def test_words_are_the_programs(self):
        told = set()
        with tempfile.TemporaryDirectory() as folder:
            for name, data, (number, record) in replay.vectors(ROOT / "tests/vectors/read.txt"):
                if number == 0 or (number, min(record, 2)) in told:
                    continue
                told.add((number, min(record, 2)))
                path = os.path.join(folder, "file")
                with open(path, "wb") as out:
                    out.write(data)
                said = subprocess.run([PROGRAM, "read", "--words", path], capture_output=True, check=True).stdout.decode()
                self.assertEqual(re.search(r"\((.*)\)", said)[1], halivomue.read(data).reason)
        self.assertEqual({number for number, _ in told}, set(range(1, 8)))

    def test_words_of_8_are_the_programs(self):
        """Where the program lists."""
        data = bytes(halivomue.Procedure(["I64"] * 481, [[halivomue.instruction("Ret")]]))
        said = subprocess.run([PROGRAM, "list", "--words"], input=data, capture_output=True, check=False).stdout.decode()
        if not said.startswith("refused"):
            self.skipTest("the program has no list yet")
        self.assertEqual(said, f"{Refused(8)}\n")


class Words(unittest.TestCase):
    """The reason of an untidy register, by what writes it."""

    def untidy(self, *first):
        make = halivomue.instruction
        return bytes(halivomue.Procedure(["Ptr", "I64"], [[*first, make("Br", to=1)], [make("Load", "B8", dst=1, addr=0), make("Ret")]]))

    def test_written_by_an_addr_of(self):
        """If it is read in a block that doesn't lead to the write, it is tidy; before, it was reported as if it weren't."""
        make = halivomue.instruction
        self.assertTrue(halivomue.tidy(self.untidy(make("AddrOf", "Frame", dst=0, off=1))))
        early = self.untidy(make("Load", "B8", dst=1, addr=0), make("AddrOf", "Frame", dst=0, off=1))
        due = "register 0 is written once, by an AddrOf, and read before it in its block or in a block that leads there"
        for data in (early, bytearray(early), memoryview(early), memoryview(array.array("I", early))):
            answer = halivomue.tidy(data)
            self.assertEqual((answer, answer.reason), (Tidiness(0, 0, False, 0), due))
            self.assertEqual(pickle.loads(pickle.dumps(answer)).reason, due)

    def test_written_by_another(self):
        due = "register 0 is written once, and read elsewhere than later in the same block"
        self.assertEqual(halivomue.tidy(self.untidy(halivomue.instruction("Alloc", dst=0, size=1))).reason, due)


class Types(Case):
    """Every type of bytes, without a copy; other types are refused."""

    def all_types(self, data):
        path = self.put("file", b"#" + data)
        yield bytearray(data)
        yield memoryview(data)
        yield memoryview(bytearray(b"#" + data))[1:]
        yield memoryview(array.array("I", data)).cast("B") if len(data) % 4 == 0 else memoryview(data)
        with open(path, "r+b") as file:
            with mmap.mmap(file.fileno(), 0, access=mmap.ACCESS_READ) as mapped:
                with memoryview(mapped)[1:] as view:
                    yield view
            os.truncate(path, 0)
            file.write(data)
            file.flush()
            for access in (mmap.ACCESS_READ, mmap.ACCESS_WRITE, mmap.ACCESS_COPY):
                with mmap.mmap(file.fileno(), 0, access=access) as mapped:
                    yield mapped

    def test_answers_are_those_of_bytes(self):
        for name in ("printed", "untidy", "forwarding"):
            data = sample(name)
            seen = 0
            for other in self.all_types(data):
                self.assertEqual(halivomue.read(other), halivomue.read(data))
                self.assertEqual(halivomue.tidy(other), halivomue.tidy(data))
                self.assertEqual(halivomue.shorten(other), halivomue.shorten(data))
                seen += 1
            self.assertEqual(seen, 8)

    def test_memory_is_not_copied(self):
        asked = []

        class Spy:
            number = record = tidy = reg = length = moved = grown = fresh = rescued = price = 0

            def __call__(self, *words):
                data, length = words[-4:-2] if len(words) == 5 else words
                asked.append((data if isinstance(data, int) else id(data), length))
                return self

        data = bytearray(sample("printed"))
        address = ctypes.addressof(ctypes.c_char.from_buffer(data))
        functions = _library.functions()
        for name, call in (("read", halivomue.read), ("tidy", halivomue.tidy), ("shorten_for", halivomue.shorten)):
            before = getattr(functions, name)
            setattr(functions, name, Spy())
            try:
                call(data)
                call(memoryview(data)[32:])
                same = bytes(data)
                call(same)
            finally:
                setattr(functions, name, before)
            self.assertEqual(asked, [(address, 352), (address + 32, 320), (id(same), 352)])
            asked.clear()

    def test_memory_is_let_go(self):
        data = bytearray(sample("printed"))
        halivomue.shorten(data)
        data += b"#"
        with open(self.put("file", sample("printed")), "rb") as file:
            mapped = mmap.mmap(file.fileno(), 0, access=mmap.ACCESS_READ)
            halivomue.tidy(mapped)
            mapped.close()

    def test_references_are_kept_even(self):
        data = bytearray(sample("printed"))
        before = sys.getrefcount(data)
        for _ in range(200):
            halivomue.shorten(data)
        self.assertEqual(sys.getrefcount(data), before)

    def test_wrong_types(self):
        for wrong in ("text", None, 5, 5.0, [1, 2], (b"a",), {}, object(), array.array("I", [1]), io_like()):
            for call in (halivomue.read, halivomue.tidy, halivomue.shorten, halivomue.Procedure.parse):
                self.assertRaises(TypeError, call, wrong)
        self.assertRaises(TypeError, halivomue.read)
        self.assertRaises(TypeError, halivomue.read, memoryview(bytes(64))[::2])
        released = memoryview(bytes(64))
        released.release()
        self.assertRaises(ValueError, halivomue.read, released)
        with open(self.put("file", sample("printed")), "rb") as file:
            closed = mmap.mmap(file.fileno(), 0, access=mmap.ACCESS_READ)
            closed.close()
        self.assertRaises(ValueError, halivomue.read, closed)

    def test_the_input_stays_as_it_is(self):
        data = bytearray(sample("printed"))
        halivomue.read(data), halivomue.tidy(data), halivomue.shorten(data)
        self.assertEqual(data, sample("printed"))


def io_like():
    import io

    return io.BytesIO(b"")


class Answers(unittest.TestCase):
    def test_true_where_a_reader_expects_it(self):
        """Before, every answer was true."""
        self.assertEqual([bool(halivomue.read(sample(name))) for name in ("printed", "untidy", "refused")], [True, True, False])
        self.assertEqual([bool(halivomue.tidy(sample(name))) for name in ("printed", "untidy", "refused")], [True, False, False])
        self.assertTrue(halivomue.shorten(sample("forwarding")))

    def test_frozen(self):
        made = (Reading(0, 0), Tidiness(0, 0, True, 0), Shortening(b"", 0, 0, 0, 0, 0))
        for answer in made:
            with self.assertRaises(AttributeError):
                answer.number = 1
            with self.assertRaises((AttributeError, TypeError)):
                answer.other = 1
            self.assertFalse(hasattr(answer, "__dict__"))
            self.assertEqual(pickle.loads(pickle.dumps(answer)), answer)
            self.assertEqual(len({answer, answer}), 1)
        self.assertEqual(repr(made[1]), "Tidiness(number=0, record=0, tidy=True, reg=0)")

    def test_every_refusal_has_words(self):
        for number in range(1, 11):
            self.assertGreater(len(Refused(number, 3).reason), 20)
            self.assertEqual("record 3" in Refused(number, 3).reason, number in (2, 4, 5, 6, 7))
            self.assertEqual(pickle.loads(pickle.dumps(Refused(number, 3))).reason, Refused(number, 3).reason)


class Damaged(unittest.TestCase):
    def test_any_byte_changed(self):
        """No damage makes a call fail: it is accepted, and then shortened, or refused."""
        rng = random.Random(7)
        tally = {True: 0, False: 0}
        for name in ("printed", "forwarding", "untidy"):
            for _ in range(1500):
                data = bytearray(sample(name))
                for _ in range(rng.randint(1, 3)):
                    data[rng.randrange(len(data))] = rng.choice((0, 1, 2, 3, 4, 255, rng.randrange(256)))
                if rng.random() < 0.2:
                    del data[rng.randrange(len(data)) :]
                reading = halivomue.read(data)
                self.assertEqual(halivomue.tidy(data).number, reading.number)
                tally[reading.accepted] += 1
                if reading.accepted:
                    self.assertTrue(halivomue.read(halivomue.shorten(data).data).accepted)
                else:
                    self.assertRaises(Refused, halivomue.shorten, data)
        self.assertTrue(all(tally.values()), tally)


class Threads(unittest.TestCase):
    def test_from_eight_threads_at_once(self):
        files = [bytes(fleet.procedure(seed, 10 + seed * 4)) for seed in range(60)] + [sample("printed"), sample("untidy")]
        due = [(halivomue.read(data), halivomue.tidy(data), halivomue.shorten(data)) for data in files]
        wrong = []

        def work(start):
            for turn in range(6):
                for number in range(len(files)):
                    at = (number * 7 + start + turn) % len(files)
                    data = files[at] if turn % 2 else memoryview(bytearray(files[at]))
                    if (halivomue.read(data), halivomue.tidy(data), halivomue.shorten(data)) != due[at]:
                        wrong.append(at)

        threads = [threading.Thread(target=work, args=(start,)) for start in range(8)]
        for thread in threads:
            thread.start()
        for thread in threads:
            thread.join()
        self.assertEqual(wrong, [])

    def test_a_call_within_a_call_keeps_its_bytes(self):
        """A call that a signal handler makes, in the same thread, takes another buffer."""
        functions = _library.functions()
        before, other = functions.shorten_for, bytes(fleet.procedure(3, 100))
        due = halivomue.shorten(sample("printed"))
        within = []

        def interrupted(*arguments):
            answer = before(*arguments)
            functions.shorten_for = before
            within.append(halivomue.shorten(other))
            return answer

        functions.shorten_for = interrupted
        try:
            self.assertEqual(halivomue.shorten(sample("printed")), due)
        finally:
            functions.shorten_for = before
        self.assertEqual(within, [halivomue.shorten(other)])

    def test_the_interpreters_lock_is_let_go(self):
        """Four calls that each sleep a fifth of a second end within less than two of them."""
        source = """#include <unistd.h>
            struct reading { unsigned number, record; };
            struct reading halivomue_read(const void *b, unsigned long n) { usleep(200000); return (struct reading){0, 0}; }
            unsigned halivomue_version(void) { return 65536 * %d + %d; }
            void halivomue_tidy(void) {} void halivomue_shorten_for(void) {} void halivomue_provision_for(void) {}
            void halivomue_tally(void) {} void halivomue_accounts_make(void) {} void halivomue_accounts_save(void) {}
            void halivomue_accounts_load(void) {} void halivomue_accounts_join(void) {}"""
        source %= tuple(map(int, halivomue.__version__.split(".")))
        with tempfile.TemporaryDirectory() as folder:
            stub = os.path.join(folder, "libstub.so")
            subprocess.run(["gcc", "-shared", "-fPIC", "-x", "c", "-", "-o", stub], input=source.encode(), check=True)

            def work():
                os.environ["HALIVOMUE_LIBRARY"] = stub
                _library._functions = None
                halivomue.read(b"")
                threads = [threading.Thread(target=halivomue.read, args=(b"",)) for _ in range(4)]
                started = time.monotonic()
                for thread in threads:
                    thread.start()
                for thread in threads:
                    thread.join()
                return 0 if time.monotonic() - started < 0.39 else 1

            self.assertEqual(in_child(work), 0)


class Library(unittest.TestCase):
    def test_a_missing_library_is_told(self):
        _, said = run("audit", ".", status=2, env={"HALIVOMUE_LIBRARY": "/nonexistent/lib.so"})
        self.assertIn("/nonexistent/lib.so", said)
        self.assertIn("python/build", said)

    def test_the_folder_alone(self):
        """The package's folder with the shared object in it works anywhere, without gcc and toolchain."""
        with tempfile.TemporaryDirectory() as folder:
            shutil.copytree(ROOT / "python/halivomue", os.path.join(folder, "halivomue"), ignore=shutil.ignore_patterns("*.so"))
            built = subprocess.run([ROOT / "python/build", os.path.join(folder, "halivomue/libhalivomue.so")], capture_output=True, check=True)
            self.assertEqual(built.stdout.decode().strip(), os.path.join(folder, "halivomue/libhalivomue.so"))
            done = subprocess.run([sys.executable, "-m", "halivomue", "provision", str(ROOT / "samples"), "filed"], cwd=folder,
                                  env={"PYTHONPATH": folder, "PATH": "/nonexistent"}, capture_output=True, check=False)
            self.assertEqual((done.returncode, done.stderr), (1, b""))
            self.assertIn(b"3 filed; report: filed/report.csv", done.stdout)

    def test_importing_needs_no_library(self):
        code = "import halivomue\ntry:\n    halivomue.read(b'')\nexcept halivomue.LibraryError as e:\n    print('told')"
        environment = dict(os.environ, PYTHONPATH=str(ROOT / "python"), HALIVOMUE_LIBRARY="/nonexistent/lib.so")
        done = subprocess.run([sys.executable, "-c", code], env=environment, capture_output=True, check=True)
        self.assertEqual(done.stdout, b"told\n")


if __name__ == "__main__":
    unittest.main()
