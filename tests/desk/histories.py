#!/usr/bin/env python3
"""Runs histories of calls through the driver beside the model, and compares every reply, and the tally after every call.

    tests/desk/histories.py DRIVER LIBRARY [--few] [--seed N]

LIBRARY is the shared object, or the archive, whose functions the driver calls. With --few, fewer histories, and the ceiling is met from
loaded accounts instead of being driven to by 42,918 calls.
"""

import os
import random
import subprocess
import sys
import tempfile

HERE = os.path.dirname(os.path.abspath(__file__))
ROOT = os.path.dirname(os.path.dirname(HERE))
sys.path[:0] = [HERE, os.path.join(ROOT, "python"), os.path.join(ROOT, "tests/fleet")]
sys.dont_write_bytecode = True
import fleet  # noqa: E402
from halivomue import Procedure, instruction  # noqa: E402
from model import CEILING, ROOM, Desk, Library, instructions, library, price, saved  # noqa: E402
from answers import STORED, answers  # noqa: E402
from replay import vectors  # noqa: E402

DEAREST = 233
#: Of the request: instructions as sent, instructions appended, cents.
PRINTED = {(6, 2): 3, (1, 0): 0, (2, 0): 1, (8, 2): 4, (9, 6): 5, (480, 276): 233}


# Files


def straight(n):
    """n instructions, of which no step changes any."""
    return bytes(Procedure([], [[instruction("Stmt")] * (n - 1) + [instruction("Ret")]]))


def copying(takers, size, n):
    """n instructions: so many blocks that take over a small block of `size` instructions, while the steps go on, and a loop."""
    small = [instruction("Move", dst=0, src=1)] * (size - 1) + [instruction("Ret")]
    blocks = [[instruction("Br", to=takers)] for _ in range(takers)] + [small]
    blocks.append([instruction("Stmt")] * (n - takers - size - 1) + [instruction("CondBr", c=0, t=0, f=takers)])
    return bytes(Procedure(["I64"] * 2, blocks))


def made():
    """Files by name: those that the histories are made of, beside the stored answers."""
    files = {f"straight-{n}": straight(n) for n in (*range(1, 12), 25, 100, 255, 478, 479, 480, 481, 700)}
    for takers, size in ((1, 2), (2, 1), (3, 2), (2, 3), (3, 3), (5, 4), (9, 1), (30, 2)):
        for n in (takers + size + 1, takers + size + 2, 50, 51):
            files[f"copying-{takers}-{size}-{n}"] = copying(takers, size, n)
    files["dearest"] = copying(69, 4, 480)
    for seed in range(40):
        files[f"fleet-{seed}"] = fleet.file_of(seed)
    files["untidy"] = bytes(fleet.procedure(7, 60, untidy=True))
    files["empty"], files["odd"], files["zeros"], files["long"] = b"", bytes(33), bytes(32), straight(1) * 700
    return files


def stored():
    """The files of the stored answers, and those of the lists of Read and Tidy."""
    files = {a.name: a.input for a in answers(STORED)}
    for which in ("read", "tidy"):
        files.update((f"{which}-{name}", data) for name, data, _ in vectors(os.path.join(ROOT, f"tests/vectors/{which}.txt")))
    return files


# Talking to the driver


class Talk:
    """Lines for the driver, each with the reply that the model gives to it; none to `file`."""

    def __init__(self, unbilled, files):
        self.unbilled, self.files, self.desk = unbilled, files, Desk(unbilled)
        self.lines, self.due = [], []
        for name, data in files.items():
            self.lines.append((f"file {name} {data.hex() or '-'}", None))

    def say(self, line, due):
        self.lines.append((line, due))

    def state(self):
        self.say("state", self.desk.state())

    def make(self):
        self.desk = Desk(self.unbilled)
        self.say("make", "made")
        self.state()

    def load(self, tally):
        """Accounts as after a history with this tally."""
        self.desk = Desk(self.unbilled, tally)
        self.say(f"load {saved(tally).hex()}", "ok")
        self.state()

    def shorten(self, name, room=ROOM):
        due = self.desk.shorten(room, self.files[name])
        self.say(f"shorten {room} ${name}", due)
        self.state()
        return due

    def provision(self, name, room=ROOM):
        self.say(f"provision {room} ${name}", self.desk.provision(room, self.files[name]))
        self.state()

    def repeat(self, times, name, room=ROOM):
        for _ in range(times):
            due = self.desk.shorten(room, self.files[name])
        self.say(f"repeat {times} shorten {room} ${name}", due)
        self.state()

    def length(self, name):
        return len(self.unbilled.asked(self.files[name]).result)

    def wrong(self, driver):
        """The lines with another reply than the model's: each with both."""
        text = "".join(line + "\n" for line, _ in self.lines)
        done = subprocess.run([driver], input=text, capture_output=True, text=True, check=False)
        told = done.stdout.splitlines()
        asked = [(line, due) for line, due in self.lines if due is not None]
        if done.returncode or len(told) != len(asked):
            return [("the whole talk", f"{len(asked)} replies", f"{len(told)} replies, status {done.returncode} {done.stderr[:200]}")]
        return [(line, due, got) for (line, due), got in zip(asked, told) if due != got]


# The parts of the test


def printed_prices(talk):
    """The prices that the request names: of files with these counts."""
    met = {}
    for name, data in talk.files.items():
        a = talk.unbilled.asked(data)
        if a.number == 0:
            met.setdefault((instructions(data), a.grown), name)
    for counts, due in PRINTED.items():
        assert price(*counts) == due, counts
        assert counts in met, f"no file has {counts}"
        talk.make()
        talk.shorten(met[counts])
        talk.say("tally", f"tally {due}")
    return met


def rounding(talk, met):
    """Half cents up, and what is just below and just above them; files whose prices, summed before they are rounded, give another sum."""
    parts = {(40 * n + 15 * g) % 100 for n, g in met}
    assert parts == set(range(0, 100, 5)), sorted(parts)
    talk.make()
    for (n, g), name in sorted(met.items()):
        if (40 * n + 15 * g) % 100 in (45, 50, 55):
            talk.shorten(name)
    talk.make()
    for _ in range(5):  # 0.4 cents each: 0, and 0.8 cents each: 1
        talk.shorten("straight-1")
        talk.shorten("straight-2")


def each_file(talk):
    """Every file once in one long history, with all that is said of it."""
    talk.make()
    for name, data in talk.files.items():
        talk.say(f"read ${name}", talk.desk.read(data))
        talk.say(f"tidy ${name}", talk.desk.tidy(data))
        talk.provision(name)
        talk.shorten(name, talk.length(name))


def drive(talk, few):
    """A tally near the ceiling: by shortening the dearest file over and over, or by loading it."""
    times = CEILING // DEAREST - 1
    if few:
        talk.load(times * DEAREST)
    else:
        talk.make()
        talk.repeat(times, "dearest")


def there(talk, zero, one):
    """Calls at the ceiling, with every sort of reply; the tally must stay what it is where a file is refused or costs nothing."""
    full = talk.length("dearest")
    for room in (ROOM, full, full - 1, full - 32, 0):
        assert talk.shorten("dearest", room) == ("refused 10 0" if room >= full else "refused 9 0")
    for name in ("straight-481", "empty", "odd", "zeros", "long"):
        assert talk.shorten(name).startswith("refused ") and talk.desk.shorten(0, talk.files[name]) != "refused 9 0"
        talk.shorten(name, 0)
    for name in (zero, one, "untidy", "dearest"):
        for room in (ROOM, talk.length(name), talk.length(name) + 1, talk.length(name) - 1, 0):
            talk.provision(name, room)
    for room in (ROOM, talk.length(zero), talk.length(zero) - 1):
        talk.shorten(zero, room)


def at_the_ceiling(talk, met, few):
    """Driven there, then to the last cent: equality passes, one cent more doesn't, no cent does."""
    cheap = {due: met[counts] for counts, due in PRINTED.items()}
    zero, one = cheap[0], cheap[1]
    drive(talk, few)
    talk.shorten("dearest")
    left = CEILING - talk.desk.tally
    assert 0 < left < DEAREST, left
    there(talk, zero, "straight-480")
    by_price = {price(n, g): name for (n, g), name in met.items()}
    # to 6 cents below, then 5 and 1
    first = max(cost for cost in by_price if cost <= left - 6)
    talk.shorten(by_price[first])
    while talk.desk.tally < CEILING - 6:
        talk.shorten(one)
    talk.shorten(cheap[5])
    assert talk.desk.tally == CEILING - 1
    assert talk.shorten(cheap[3]) == "refused 10 0"
    assert talk.shorten(zero).startswith("ok")
    assert talk.shorten(one, talk.length(one) - 1) == "refused 9 0"
    assert talk.shorten(one).startswith("ok") and talk.desk.tally == CEILING
    there(talk, zero, one)
    talk.repeat(300, zero)
    talk.repeat(3, one)
    assert talk.desk.tally == CEILING
    talk.say("save", f"saved {saved(CEILING).hex()}")
    talk.say("tally", f"tally {CEILING}")


def every_distance(talk, met):
    """A file of every price, from just so far below the ceiling, one cent nearer and one cent farther; around the point from which every
    file still passes."""
    for counts, name in sorted(met.items()):
        for tally in {CEILING - price(*counts) + less for less in (-1, 0, 1)} | {CEILING - DEAREST + less for less in (-1, 0, 1)}:
            if tally <= CEILING:
                talk.load(tally)
                talk.shorten(name, talk.length(name))


def above(talk, met):
    """Words set by hand: above the ceiling every file that would be shortened is refused with 10, also where a sum of 32 bits would begin
    at 0 again. The other words are nobody's, and make no difference."""
    for tally in (CEILING + 1, CEILING + 234, 2**31, 2**32 - 233, 2**32 - 3, 2**32 - 1):
        talk.desk = Desk(talk.unbilled, tally)
        talk.say(f"word 0 {tally}", "ok")
        talk.state()
        for name in (met[1, 0], met[6, 2], "dearest"):
            for room in (ROOM, talk.length(name) - 1):
                talk.shorten(name, room)
                talk.provision(name, room)
        talk.shorten("straight-481")
        talk.shorten("odd")
        talk.say("join 0", "no")
        talk.state()
    talk.make()
    for word in (1, 2, 52, 127):
        talk.say(f"word {word} {2**32 - word}", "ok")
        talk.shorten("dearest")


def unknown(talk):
    """Calls that aren't there yet, and lines that are none."""
    for line in ("replay sent 5 - -", "convert 5 -", "sums 0", "grant 0 1 read", "remove 0 1 tally", "make oooooooooooooooo",
                 "shorten", "shorten 5", "shorten -1 -", "shorten 18446744073709551616 -", "read", "read $nobody", "read 0",
                 "read 0g", "tidy - -", "repeat 0 read -", "repeat 2", "repeat 2 state", "word 128 0", "word 0 4294967296", "x", ""):
        talk.say(line, "unknown")
    talk.say("shorten 18446744073709551615 -", "refused 3 0")


def joined(talk, rng):
    """A part's tally is added, or nothing happens."""
    for _ in range(40):
        tally, more = (rng.choice((0, 1, CEILING, rng.randint(0, CEILING))) for _ in range(2))
        talk.load(tally)
        for part in (more, 2**32 - 1, CEILING - tally, CEILING - tally + 1):
            passes = talk.desk.tally + part <= CEILING
            talk.desk = Desk(talk.unbilled, talk.desk.tally + (part if passes else 0))
            talk.say(f"join {part}", "ok" if passes else "no")
            talk.state()


def rooms_of(talk, name, rng):
    length = talk.length(name)
    return rng.choice((ROOM, ROOM, ROOM, length, length + rng.randint(0, 40), max(length - 1, 0), max(length - 32, 0), 0, rng.randint(0, ROOM)))


def at_random(talk, rng, calls):
    """A history: from new accounts, or near the ceiling, with any of the files and rooms."""
    if rng.random() < 0.4:
        talk.make()
    else:
        talk.load(max(0, CEILING - rng.choice((0, 1, 5, 100, 233, 234, 1000, CEILING))))
    favourites = rng.sample(sorted(talk.files), 12)
    for _ in range(calls):
        name = rng.choice(favourites)
        what = rng.random()
        if what < 0.6:
            talk.shorten(name, rooms_of(talk, name, rng))
        elif what < 0.75:
            talk.provision(name, rooms_of(talk, name, rng))
        elif what < 0.85:
            talk.repeat(rng.randint(1, 9), name, rooms_of(talk, name, rng))
        elif what < 0.9:
            talk.say(f"tidy ${name}", talk.desk.tidy(talk.files[name]))
            talk.say(f"read ${name}", talk.desk.read(talk.files[name]))
        elif what < 0.95:
            talk.say("tally", f"tally {talk.desk.tally}")
            talk.say("save", f"saved {saved(talk.desk.tally).hex()}")
        else:  # stored and taken up again; damage in between is noticed and changes nothing
            form = bytearray(saved(talk.desk.tally))
            form[rng.randrange(416)] ^= rng.randint(1, 255)
            talk.say(f"load {form.hex()}", "no")
            talk.state()
            talk.load(talk.desk.tally)


def main(words):
    few = "--few" in words
    seed = int(words[words.index("--seed") + 1]) if "--seed" in words else 1
    driver, path = words[:2]
    rng = random.Random(seed)
    with tempfile.TemporaryDirectory() as folder:
        talk = Talk(Library(library(path, folder)), {**made(), **stored()})
        met = printed_prices(talk)
        rounding(talk, met)
        each_file(talk)
        at_the_ceiling(talk, met, few)
        every_distance(talk, met)
        above(talk, met)
        unknown(talk)
        joined(talk, rng)
        for _ in range(20 if few else 400):
            at_random(talk, rng, rng.randint(1, 20 if few else 60))
        wrong = talk.wrong(driver)
    for line, due, got in wrong[:10]:
        print(f"{line[:200]}\n  due {due[:200]}\n  got {got[:200]}")
    calls = sum(line.startswith(("shorten", "provision", "repeat")) for line, _ in talk.lines)
    lines = f"{calls} lines that shorten, {len(talk.lines)} in all, of {len(talk.files)} files"
    print(f"desk: {lines}: {len(wrong)} replies differ from the model's")
    return 1 if wrong else 0


if __name__ == "__main__":
    sys.exit(main(sys.argv[1:]))
