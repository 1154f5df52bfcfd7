#!/usr/bin/env python3
"""Made-up call procedures and fleets, each from its seed.

    tests/fleet/fleet.py FOLDER COUNT [SEED]

writes a fleet: sites with lifts; most files are valid and tidy, some untidy, some refused. Procedures are made
the way a compiler makes them: loops that are entered by a Br to their test, branches that join, cases by
tables, constants at their first use.
"""

import os
import random
import sys

from halivomue import Arm, Procedure, Table, instruction

NATIVES = {"ring": 1, "dial": 2, "listen": 3, "say": 4, "light": 5, "log": 6, "hang up": 7}


class Maker:
    """Makes a procedure's blocks in order; targets are labels until they are placed."""

    def __init__(self, rng, size, untidy=False):
        self.rng, self.size, self.untidy = rng, size, untidy
        self.registers, self.operands, self.tables = [], [], []
        self.blocks, self.labels, self.made, self.statement = [[]], {}, 0, 10
        self.variables = [self.register() for _ in range(rng.randint(2, 6))]
        self.flags = [self.register() for _ in range(2)]
        self.frame = self.register("Ptr")
        self.far = None

    def register(self, type="I64"):
        self.registers.append(type)
        return len(self.registers) - 1

    def put(self, kind, op="", **fields):
        self.blocks[-1].append((kind, op, self.statement, fields))
        self.statement += 1
        self.made += 1

    def label(self):
        return ("label", len(self.labels) + self.rng.random())

    def place(self, label):
        """The next block starts here."""
        self.blocks.append([])
        self.labels[label] = len(self.blocks) - 1

    def go(self, label):
        self.put("Br", to=label)

    def operands_of(self, *registers):
        if len(self.operands) + len(registers) > 120:
            return (0, min(len(self.operands), 1))
        self.operands += registers
        return (len(self.operands) - len(registers), len(registers))

    def room(self, share=1.0):
        return self.made < self.size * share and len(self.blocks) < 150 and len(self.registers) < 470

    # What a procedure is made of

    def constant(self, value):
        register = self.register()
        self.put("Const", dst=register, v=value)
        return register

    def value(self):
        return self.rng.choice(self.variables) if self.rng.random() < 0.6 else self.constant(self.rng.randint(-5, 90))

    def act(self):
        rng = self.rng
        what = rng.randrange(6)
        if what == 0:
            self.put("Stmt")
        elif what == 1:
            a, b = self.value(), self.value()
            self.put("Bin", rng.choice(("Add", "Sub", "Mul")), dst=rng.choice(self.variables), a=a, b=b)
        elif what == 2:
            target = self.register()
            self.put("CallNative", "dst", native=rng.choice(list(NATIVES.values())), operands=self.operands_of(self.value()), dst=target)
            self.put("Move", dst=rng.choice(self.variables), src=target)
            self.far = target
        elif what == 3:
            self.put("CallNative", native=rng.choice(list(NATIVES.values())), operands=self.operands_of(self.value(), self.value()))
        elif what == 4:
            self.put("Store", rng.choice(("B1", "B4", "B8")), addr=self.frame, src=rng.choice(self.variables))
        else:
            self.put("Load", "B8", dst=rng.choice(self.variables), addr=self.frame)

    def test(self):
        """A register that a branch can test."""
        rng = self.rng
        what = rng.randrange(4)
        if what == 0:
            return rng.choice(self.variables)
        if what == 1:
            flag = rng.choice(self.flags)
            self.put("Const", dst=flag, v=rng.randint(0, 1))
            return flag
        made = self.register()
        a, b = rng.choice(self.variables), rng.choice(self.variables)
        if what == 2:
            b = self.constant(rng.randint(0, 9))
        self.put("Cmp", rng.choice(("Eq", "Ne", "Lt", "Ge")), dst=made, a=a, b=b)
        return made

    def loop(self, depth):
        head, body, out = self.label(), self.label(), self.label()
        self.go(head)
        self.place(body)
        self.some(depth + 1)
        self.go(head)
        self.place(head)
        self.put("CondBr", c=self.test(), t=body, f=out)
        self.place(out)

    def branch(self, depth):
        yes, no, after = self.label(), self.label(), self.label()
        self.put("CondBr", c=self.test(), t=yes, f=no)
        self.place(yes)
        self.some(depth + 1)
        self.go(after)
        self.place(no)
        if self.rng.random() < 0.5:
            self.some(depth + 1)
        self.go(after)
        self.place(after)

    def case(self, depth):
        ways = [self.label() for _ in range(self.rng.randint(1, 3))]
        after = self.label()
        if sum(len(arms) + 1 for arms, _ in self.tables) > 110:
            return
        arms = [(4 * k, 4 * k + self.rng.randint(0, 3), way) for k, way in enumerate(ways)]
        self.tables.append((arms, after))
        self.put("Case", v=self.rng.choice(self.variables), table=len(self.tables) - 1)
        for way in ways:
            self.place(way)
            self.act()
            self.go(after)
        self.place(after)

    def some(self, depth):
        for _ in range(self.rng.randint(1, 4)):
            if not self.room():
                return
            draw = self.rng.random()
            if depth < 4 and draw < 0.22:
                self.loop(depth)
            elif depth < 4 and draw < 0.4:
                self.branch(depth)
            elif depth < 4 and draw < 0.45:
                self.case(depth)
            else:
                self.act()

    def procedure(self):
        self.put("AddrOf", "Frame", dst=self.frame, off=16)
        for variable in self.variables:
            self.put("Const", dst=variable, v=0)
        body = None
        if self.rng.random() < 0.3:
            start = self.label()
            self.go(start)
            self.place(start)
            body = len(self.blocks) - 1
        while self.room(0.9):
            self.some(0)
        if self.untidy and self.far is not None:
            end = self.label()
            self.go(end)
            self.place(end)
            self.put("Store", "B8", addr=self.frame, src=self.far)
        self.put("Ret", "v", v=self.rng.choice(self.variables))
        return self.placed(body)

    def placed(self, body):
        def number(value):
            return self.labels[value] if isinstance(value, tuple) and value[0] == "label" else value

        blocks = [
            [instruction(kind, op, statement, **{k: number(v) for k, v in fields.items()}) for kind, op, statement, fields in block]
            for block in self.blocks
        ]
        tables = [Table(tuple(Arm(low, high, number(to)) for low, high, to in arms), number(after)) for arms, after in self.tables]
        return Procedure(self.registers, blocks, body, self.operands, tables)


def procedure(seed, size=None, untidy=False):
    """A procedure of about `size` instructions, at most 480."""
    rng = random.Random(seed)
    size = size or rng.randint(10, 470)
    for shrink in range(30):
        made = Maker(random.Random(f"{seed} {shrink}"), max(size - 12 * shrink, 8), untidy).procedure()
        if len(made.code) <= 480 and len(made.registers) <= 480:
            return made
    raise ValueError(f"no procedure of {size} instructions from seed {seed}")


def damaged(seed):
    """A file that is refused, or was cut or changed on its way."""
    rng = random.Random(f"damaged {seed}")
    data = bytearray(bytes(procedure(seed, rng.randint(10, 60))))
    what = rng.randrange(4)
    if what == 0:
        del data[rng.randrange(len(data)) :]
    elif what == 1:
        data[rng.randrange(len(data))] ^= 1 << rng.randrange(8)
    elif what == 2:
        at = 32 * rng.randrange(len(data) // 32)
        del data[at : at + 32]
    else:
        data += b"\n"
    return bytes(data)


SITES = ("harbour", "north", "old-town", "university", "west")
HOUSES = ("arcade", "clinic", "hotel", "library", "station", "tower")


def file_of(seed):
    """A file of the fleet's mix."""
    rng = random.Random(f"file {seed}")
    draw = rng.random()
    if draw < 0.03:
        return damaged(seed)
    size = int(min(470, max(10, rng.lognormvariate(4.0, 0.9))))
    return bytes(procedure(seed, size, untidy=draw < 0.08))


def name_of(seed):
    rng = random.Random(f"name {seed}")
    return f"{rng.choice(SITES)}/{rng.choice(HOUSES)}-{rng.randint(1, 9)}/lift-{seed:03d}.call"


def write(folder, count, seed=1):
    """Writes a fleet and returns its names."""
    names = []
    for number in range(seed, seed + count):
        name = name_of(number)
        path = os.path.join(folder, name)
        os.makedirs(os.path.dirname(path), exist_ok=True)
        with open(path, "wb") as out:
            out.write(file_of(number))
        names.append(name)
    return names


if __name__ == "__main__":
    if len(sys.argv) not in (3, 4):
        sys.exit(__doc__)
    write(sys.argv[1], int(sys.argv[2]), int(sys.argv[3]) if sys.argv[3:] else 1)
