"""The package's answers compared with the program's, on 10,000 generated files."""

import os
import re
import struct
import subprocess

from common import Case, PROGRAM, REFERENCE, halivomue, unittest

import fleet
from halivomue import Refused

FAMILIES = {"small": 1700, "chains": 1000, "process": 1000, "kinds": 1000, "known": 700, "tidy": 1200, "damaged": 1700, "large": 150,
            "tidy-large": 150, "lengths": 200, "lengths-split": 200, "tidy-lengths": 200}
MADE_HERE = 800


def generated():
    """Files of the reference's generator, or of the fleet's if that isn't built."""
    count = 0
    if REFERENCE.exists():
        for family, number in FAMILIES.items():
            stream = subprocess.run([REFERENCE, "generate", family, "1", str(number)], capture_output=True, check=True).stdout
            at = 0
            while at < len(stream):
                (length,) = struct.unpack_from("<I", stream, at)
                yield stream[at + 8 : at + 8 + length]
                at += 8 + length
                count += 1
    for seed in range(10_000 - count):
        yield fleet.damaged(seed) if seed % 5 == 0 else bytes(fleet.procedure(seed, 10 + seed % 90, untidy=seed % 3 == 0))


def mentions(command):
    told = subprocess.run([PROGRAM, "--help"], capture_output=True, check=True).stdout.decode()
    return re.search(rf"^  {command} ", told, re.M) is not None


class Program(Case):
    """Read and tidy on all of the files; list and shorten on some, once the program has them."""

    def setUp(self):
        super().setUp()
        self.data = list(generated())
        self.names = [self.put(f"{number:05d}", data).decode() for number, data in enumerate(self.data)]

    def told(self, command):
        out = subprocess.run([PROGRAM, command, *self.names], capture_output=True, check=True).stdout.decode()
        return [line.split(": ", 1)[1] for line in out.splitlines()]

    def test_answers(self):
        self.assertEqual(len(self.data), 10_000)
        tally = {}
        for data, read, tidy in zip(self.data, self.told("read"), self.told("tidy")):
            mine, mine_tidy = halivomue.read(data), halivomue.tidy(data)
            refused = f"refused {mine.number} {mine.record}"
            self.assertEqual("accepted" if mine.accepted else refused, read)
            due = refused if mine.number else "yes" if mine_tidy.tidy else f"no {mine_tidy.reg}"
            self.assertEqual(due, tidy)
            tally[read[:9]] = tally.get(read[:9], 0) + 1
            tally[tidy[:2]] = tally.get(tidy[:2], 0) + 1
        self.assertTrue(all(tally.get(key, 0) > 100 for key in ("accepted", "refused 2", "refused 7", "ye", "no")), tally)

    @unittest.skipUnless(PROGRAM.exists() and mentions("list"), "the program has no list yet")
    def test_list(self):
        """Counts and refusals of all files, and the whole listing of every fourth."""
        out = subprocess.run([PROGRAM, "list", *self.names], capture_output=True, check=True).stdout.decode()
        told = re.split(r"^/.*?: ", out, flags=re.M)[1:]
        self.assertEqual(len(told), len(self.data))
        for number, (data, listing) in enumerate(zip(self.data, told)):
            try:
                short = halivomue.shorten(data)
                due = short.listing() if number % 4 == 0 else short.counts + "\n"
            except Refused as refused:
                due = f"refused {refused.number} {refused.record}\n"
            self.assertEqual(listing if number % 4 == 0 else listing.partition("\n")[0] + "\n", due)

    @unittest.skipUnless(PROGRAM.exists() and mentions("shorten"), "the program has no shorten yet")
    def test_shorten(self):
        out = os.path.join(self.folder, "out")
        for data, name in list(zip(self.data, self.names))[::20]:
            said = subprocess.run([PROGRAM, "shorten", name, out], capture_output=True, check=True).stdout.decode()
            try:
                due = halivomue.shorten(data)
            except Refused as refused:
                self.assertIn(f"refused {refused.number} {refused.record}", said)
                continue
            self.assertTrue(said.endswith(f": {due.counts} price {due.price}\n"), said)
            with open(out, "rb") as file:
                self.assertEqual(file.read(), due.data)


class Reference(unittest.TestCase):
    def test_shorten(self):
        """Counts and bytes beside the published Rust's, through its stream of requests."""
        if not REFERENCE.exists():
            self.skipTest("the reference isn't built")
        files = list(generated())[::4]
        requests = b"".join(struct.pack("<II", len(data), 65_536) + data for data in files)
        done = subprocess.run([REFERENCE, "stream"], input=requests, capture_output=True, check=False)
        if b"there is no reference" in done.stderr:
            self.skipTest("the papers weren't there when the reference was built")
        replies, at, accepted = done.stdout, 0, 0
        for data in files:
            number, record, moved, grown, fresh, rescued, length = struct.unpack_from("<7I", replies, at)
            at += 28 + length
            try:
                got = halivomue.shorten(data)
                self.assertEqual((0, 0, got.moved, got.grown, got.fresh, got.rescued), (number, record, moved, grown, fresh, rescued))
                self.assertEqual(got.data, replies[at - length : at])
                accepted += 1
            except Refused as refused:
                self.assertEqual((refused.number, refused.record), (number, record))
        self.assertEqual(at, len(replies))
        self.assertGreater(accepted, 1000)


if __name__ == "__main__":
    unittest.main()
