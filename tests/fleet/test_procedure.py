"""Procedure: parsed, built, listed."""

import copy
import math
import multiprocessing
import pickle
import re
import struct
from concurrent.futures import ProcessPoolExecutor

from common import ROOT, halivomue, sample, unittest

import fleet
import replay
from halivomue import Arm, Instruction, Procedure, Refused, Table, instruction
from halivomue.kinds import KINDS


class Parsed(unittest.TestCase):
    def test_there_and_back(self):
        files = [sample(name) for name in ("printed", "forwarding", "untidy")]
        files += [data for _, data, due in replay.vectors(ROOT / "tests/vectors/read.txt") if due == (0, 0)]
        files += [bytes(fleet.procedure(seed)) for seed in range(60)]
        for data in files:
            p = Procedure.parse(data)
            self.assertEqual(bytes(p), data)
            self.assertEqual(Procedure.parse(bytes(p)), p)
            self.assertTrue(str(p).startswith("registers: "))
        self.assertGreater(len(files), 100)

    def test_refused(self):
        with self.assertRaises(Refused) as caught:
            Procedure.parse(sample("refused"))
        self.assertEqual((caught.exception.number, caught.exception.record), (7, 9))

    def test_other_types(self):
        self.assertEqual(Procedure.parse(bytearray(sample("printed"))), Procedure.parse(memoryview(sample("printed"))))

    def test_values(self):
        p = Procedure.parse(sample("forwarding"))
        self.assertEqual(p.registers[:2], ("Ptr", "I64"))
        self.assertEqual((len(p.blocks), p.body, len(p.tables)), (8, 1, 2))
        self.assertEqual(p.tables[1], Table((Arm(0, 0, 1),), 6))
        self.assertEqual((p.blocks[0][2].kind, p.blocks[0][2].dst, p.blocks[0][2].v, p.blocks[0][2].statement), ("Const", 2, 5, 12))
        self.assertEqual((p.code[4].kind, p.code[4].v), ("ConstF", 0.5))
        self.assertEqual(p.blocks[1][2].targets, (2, 7))
        self.assertEqual(p.operands[p.blocks[3][1].operands[0]], 6)
        with self.assertRaises(AttributeError):
            p.code[0].dst
        self.assertEqual(list(p.spans())[:2], [(0, 7), (7, 10)])


class Names(unittest.TestCase):
    def test_they_are_the_pages(self):
        """Kinds, ops and fields are those of docs/FORMAT.md's table."""
        page = (ROOT / "docs/FORMAT.md").read_text()
        rows = re.findall(r"^\| (\d+) \| (\w+) \|(.*?)\| ?(.*?)\|$", page, re.M)
        self.assertEqual([(int(number), name) for number, name, _, _ in rows], [(k.number, k.name) for k in KINDS])
        by_name = {k.name: k for k in KINDS}
        for _, name, fields, ops in rows:
            kind = by_name[name]
            registers = [(field, plus or "-") for plus, field in re.findall(r"(\+?)\*(\w+)\*", fields)]
            self.assertEqual([(field, sort) for field, sort in kind.fields if sort in "+-"], registers)
            named = tuple(re.findall(r"\d (\w+)", ops))
            if name in ("Ret", "CallNative"):
                self.assertEqual(len(kind.ops), 2)
            elif ops.startswith("as "):
                self.assertEqual(kind.ops, by_name[ops.split()[1]].ops)
            else:
                self.assertEqual(kind.ops, named or ("",))


class Built(unittest.TestCase):
    def ring(self):
        """The example of docs/FORMAT.md."""
        return Procedure(
            ["I64", "I64"],
            [
                [instruction("Const", statement=10, dst=0, v=5), instruction("Br", statement=11, to=1)],
                [instruction("CallNative", "dst", 20, native=7, operands=(0, 1), dst=1), instruction("Case", statement=21, v=1, table=0)],
                [instruction("Ret", statement=30)],
            ],
            body=1,
            operands=[0],
            tables=[Table((Arm(0, 0, 1),), 2)],
        )

    def test_ring(self):
        data = bytes(self.ring())
        self.assertEqual(len(data), 448)
        self.assertEqual(data[256:288].hex(), "0411010014000000070000000000000001000000010000000000000000000000")
        self.assertEqual(halivomue.read(data).number, 0)
        self.assertTrue(halivomue.tidy(data).tidy)
        due = ["registers: r0 to r1 I64", "block 0:", "  10  r0 = Const 5", "  11  Br block 1", "block 1 (body):",
               "  20  r1 = CallNative 7 (r0)", "  21  Case r1 by table 0: 0 -> block 1; else -> block 2", "block 2:", "  30  Ret"]
        self.assertEqual(str(self.ring()), "\n".join(due))

    def test_op_by_its_field(self):
        self.assertEqual(instruction("Ret", v=3), instruction("Ret", "v", v=3))
        self.assertEqual(instruction("CallNative", native=1, operands=(0, 0), dst=2).op, "dst")

    def test_every_kind_and_op(self):
        """Each kind and op is accepted by Read with any values, and comes back."""
        tried = 0
        for kind in KINDS:
            for op in kind.ops:
                fields = {}
                for name, sort in kind.fields_of(op):
                    fields[name] = {"list": (1, 2), "word": -3, "real": -0.5, "block": 1, "table": 0}.get(sort, 3)
                i = instruction(kind.name, op, 77, **fields)
                first = [i] if kind.ends else [i, instruction("Br", to=1)]
                p = Procedure(["I64"] * 4, [first, [instruction("Ret")]], None, [0, 1, 2], [Table((), 1)])
                self.assertTrue(halivomue.read(bytes(p)).accepted, (kind.name, op, halivomue.read(bytes(p)).reason))
                back = Procedure.parse(bytes(p)).blocks[0][0]
                self.assertEqual(back, i)
                self.assertIn(kind.name, str(p))
                tried += 1
        self.assertEqual(tried, sum(len(kind.ops) for kind in KINDS))
        self.assertEqual(tried, 61)

    def test_extremes(self):
        for value in (0, -1, 2**63 - 1, -(2**63), 2**64 - 1):
            i = instruction("Const", dst=0, v=value)
            self.assertEqual(i.v % 2**64, value % 2**64)
            self.assertLess(i.v, 2**63)
        for bits in (0x7FF0000000000001, 0xFFF8000000000123, 0x7FF8000000000000):
            i = instruction("ConstF", dst=0, v=bits)
            self.assertEqual(i.v, bits)
            self.assertEqual(struct.unpack("<Q", i.record()[12:20])[0], bits)
            p = Procedure(["F64"], [[i, instruction("Ret")]])
            self.assertEqual(bytes(Procedure.parse(bytes(p))), bytes(p))
            self.assertIn(f"NaN {bits:016x}", str(p))
        for value in (0.0, -0.0, 1.5, math.inf, -math.inf, 5e-324):
            i = instruction("ConstF", dst=0, v=value)
            self.assertEqual(struct.unpack("<d", i.record()[12:20])[0].hex(), value.hex())
        self.assertEqual(instruction("ConstF", dst=0, v=math.nan).v, 0x7FF8000000000000)
        self.assertEqual(instruction("ConstF", dst=0, v=1).v, 1.0)

    def test_faults(self):
        for wrong in (
            lambda: instruction("Jump", to=1),
            lambda: instruction("Bin", "Plus", dst=0, a=0, b=0),
            lambda: instruction("Bin", dst=0, a=0, b=0),
            lambda: instruction("Br"),
            lambda: instruction("Br", to=1, t=2),
            lambda: instruction("Br", to=-1),
            lambda: instruction("Br", to=2**32),
            lambda: instruction("Br", to=True),
            lambda: instruction("Br", to="1"),
            lambda: instruction("Const", dst=0, v=2**64),
            lambda: instruction("Const", dst=0, v=1.5),
            lambda: instruction("ConstF", dst=0, v="1"),
            lambda: instruction("Stmt", statement=2**32),
            lambda: Procedure(["I32"]),
            lambda: bytes(Procedure(tables=[Table((Arm(2**64, 0, 0),), 0)])),
        ):
            self.assertRaises(ValueError, wrong)

    def test_wrong_fields_are_refused_when_it_is_made(self):
        """Before, Br without its field was a Br to block 0."""
        for wrong in (
            ("Br", "", 1, ()),
            ("Br", "", 1, (1, 2)),
            ("Br", "", 1, ("1",)),
            ("Br", "", -1, (1,)),
            ("Br", "", "1", (1,)),
            ("Br", "v", 1, (1,)),
            ("Jump", "", 1, (1,)),
            ("Ret", "", 1, (0,)),
            ("Ret", "v", 1, ()),
            ("Const", "", 1, (0, 1.5)),
            ("ConstF", "", 1, (0, "1")),
            ("CallNative", "", 1, (7, 0)),
            ("CallNative", "", 1, (7, (0, -1))),
            ("CallNative", "", 1, (7, (0, 1, 2))),
            ("DopeLen", "", 1, (0, 0, 256)),
            ("AddrOf", "Up", 1, (0, 256, 0)),
        ):
            with self.assertRaises(ValueError, msg=wrong):
                Instruction(*wrong)
        self.assertEqual(Instruction("AddrOf", "Pkg", 1, (0, 256, 0)).space, 256)
        self.assertEqual(Instruction("Const", "", 1, [0, 2**64 - 1]), instruction("Const", statement=1, dst=0, v=-1))

    def test_pickled_and_copied(self):
        """Before, a RecursionError."""
        whole = Procedure.parse(sample("forwarding"))
        for made in (whole, *whole.code, self.ring(), instruction("ConstF", dst=0, v=0x7FF8000000000123)):
            for protocol in range(2, pickle.HIGHEST_PROTOCOL + 1):
                self.assertEqual(pickle.loads(pickle.dumps(made, protocol)), made)
            for copied in (copy.copy(made), copy.deepcopy(made)):
                self.assertEqual(copied, made)
                self.assertEqual(hash(copied), hash(made))

    def test_in_a_pool_of_processes(self):
        with ProcessPoolExecutor(2, multiprocessing.get_context("spawn")) as pool:
            self.assertEqual(list(pool.map(bytes, [self.ring()] * 3)), [bytes(self.ring())] * 3)

    def test_an_unfinished_one_has_no_fields(self):
        with self.assertRaises(AttributeError):
            Instruction.__new__(Instruction).dst

    def test_names_are_for_read(self):
        p = Procedure(["I64"], [[instruction("Br", to=9)]])
        self.assertEqual((halivomue.read(bytes(p)).number, halivomue.read(bytes(p)).record), (7, 2))

    def test_nothing(self):
        self.assertEqual(bytes(Procedure()), b"")
        self.assertEqual(str(Procedure()), "registers: none")
        self.assertEqual(Procedure().numeric(), "")


if __name__ == "__main__":
    unittest.main()
