//! Seeded procedures: rich in branches to small blocks, with bodies, tables and lists.

use crate::draft::*;
use crate::lengths;
use crate::procedure::Table;
use crate::record::{Place, RECORD, Record, kind, places};
use crate::tidy;

/// SplitMix64.
pub struct Rng(u64);

impl Rng {
    pub fn new(seed: u64) -> Rng {
        Rng(seed.wrapping_mul(0x9e37_79b9_7f4a_7c15) ^ 0x5851_f42d_4c95_7f2d)
    }

    pub fn draw(&mut self) -> u64 {
        self.0 = self.0.wrapping_add(0x9e37_79b9_7f4a_7c15);
        let mut z = self.0;
        z = (z ^ z >> 30).wrapping_mul(0xbf58_476d_1ce4_e5b9);
        z = (z ^ z >> 27).wrapping_mul(0x94d0_49bb_1331_11eb);
        z ^ z >> 31
    }

    pub fn below(&mut self, n: usize) -> usize {
        (self.draw() % n as u64) as usize
    }

    pub fn range(&mut self, from: usize, to: usize) -> usize {
        from + self.below(to - from + 1)
    }

    pub fn chance(&mut self, percent: usize) -> bool {
        self.below(100) < percent
    }

    pub fn pick<T: Copy>(&mut self, from: &[T]) -> T {
        from[self.below(from.len())]
    }
}

pub const FAMILIES: [&str; 18] = [
    "small",
    "chains",
    "process",
    "kinds",
    "known",
    "tidy",
    "tidy-acts",
    "tidy-chains",
    "tidy-process",
    "tidy-known",
    "tidy-budget",
    "large",
    "tidy-large",
    "budget",
    "damaged",
    "lengths",
    "tidy-lengths",
    "lengths-split",
];

/// File `seed` of a family.
pub fn file(family: &str, seed: u64) -> Vec<u8> {
    let name = family.bytes().fold(7_u64, |h, b| h.wrapping_mul(31).wrapping_add(u64::from(b)));
    let mut g = Rng::new(seed ^ name << 40);
    match family {
        "small" => Shape::small(&mut g).draft(&mut g).bytes(),
        "chains" => Shape::chains(&mut g).draft(&mut g).bytes(),
        "process" => Shape { body: 100, ..Shape::small(&mut g) }.draft(&mut g).bytes(),
        "kinds" => Shape { acts: 35, ..Shape::small(&mut g) }.draft(&mut g).bytes(),
        "tidy" => tidied(Shape { acts: 12, ..Shape::small(&mut g) }.draft(&mut g), &mut g).bytes(),
        "tidy-acts" => {
            let shape = Shape { acts: g.pick(&[25, 40, 60]), ..Shape::small(&mut g) };
            tidied(told(shape.draft(&mut g), &mut g, 60), &mut g).bytes()
        }
        "tidy-chains" => tidied(told(Shape::chains(&mut g).draft(&mut g), &mut g, 20), &mut g).bytes(),
        "tidy-process" => {
            let shape = Shape { acts: 25, body: 100, ..Shape::small(&mut g) };
            tidied(told(shape.draft(&mut g), &mut g, 50), &mut g).bytes()
        }
        "tidy-known" => tidied(known(&mut g).with_statements(10), &mut g).bytes(),
        "tidy-budget" => tidied(budget(&mut g), &mut g).bytes(),
        "known" => known(&mut g).with_statements(10).bytes(),
        "large" => Shape::large(&mut g).draft(&mut g).bytes(),
        "tidy-large" => tidied(Shape { most: 400, ..Shape::large(&mut g) }.draft(&mut g), &mut g).bytes(),
        "budget" => budget(&mut g).bytes(),
        "damaged" => damaged(&mut g),
        "lengths" => lengths::draft(&mut g, false).bytes(),
        "tidy-lengths" => {
            let split = g.chance(40);
            tidied(told(lengths::draft(&mut g, split), &mut g, 20), &mut g).bytes()
        }
        "lengths-split" => lengths::draft(&mut g, true).bytes(),
        _ => panic!("no family {family}"),
    }
}

/// What a procedure is drawn from; chances are percents.
#[derive(Clone, Copy)]
pub struct Shape {
    pub blocks: usize,
    pub registers: usize,
    /// Instructions of a block before its terminator, at most.
    pub length: usize,
    pub most: usize,
    pub body: usize,
    pub acts: usize,
    /// A block that is its terminator alone.
    pub lone: usize,
    /// A target before the block.
    pub back: usize,
}

impl Shape {
    pub fn small(g: &mut Rng) -> Shape {
        let blocks = g.range(2, 9);
        Shape {
            blocks,
            registers: g.range(1, 8),
            length: g.range(1, 4),
            most: 24,
            body: 20,
            acts: 8,
            lone: g.pick(&[15, 35, 60]),
            back: g.pick(&[10, 35, 60]),
        }
    }

    /// Lone Brs and lone CondBrs in rows.
    pub fn chains(g: &mut Rng) -> Shape {
        let small = Shape::small(g);
        Shape { blocks: g.range(4, 14), registers: g.range(1, 3), length: 1, lone: 80, acts: 3, ..small }
    }

    pub fn large(g: &mut Rng) -> Shape {
        Shape {
            blocks: g.range(20, 160),
            registers: g.range(3, 60),
            length: g.range(1, 5),
            most: 480,
            ..Shape::small(g)
        }
    }

    pub fn draft(self, g: &mut Rng) -> Draft {
        let kinds = [0, 0, 0, 0, 2, 2, 1, 3, 4];
        let mut d = Draft { registers: (0..self.registers).map(|_| g.pick(&kinds)).collect(), ..Draft::default() };
        for b in 0..self.blocks {
            let block = self.block(g, &mut d, b);
            if d.instructions() + block.len() + self.blocks > self.most + d.blocks.len() {
                break;
            }
            d.blocks.push(block);
        }
        if d.blocks.is_empty() {
            d.blocks.push(vec![ret()]);
        }
        mend_targets(g, &mut d);
        if g.chance(self.body) {
            d.body = Some(g.below(d.blocks.len()) as u32);
        }
        let base = g.pick(&[10, 100, 4_000_000_000]);
        for i in d.blocks.iter_mut().flatten() {
            i.statement = base + g.below(30) as u32;
        }
        d
    }

    fn block(&self, g: &mut Rng, d: &mut Draft, b: usize) -> Vec<Record> {
        let mut code = Vec::new();
        if !g.chance(self.lone) {
            for _ in 0..g.range(1, self.length) {
                code.push(if g.chance(self.acts) { any_kind(g, d) } else { copyable(g, d) });
            }
        }
        if g.chance(12) {
            return latch_step(g, d, b, self.blocks);
        }
        code.extend(self.terminator(g, d, b, &code));
        code
    }

    fn target(&self, g: &mut Rng, b: usize) -> u32 {
        let t = match g.below(100) {
            x if x < self.back => g.below(b + 1),
            x if x < self.back + 20 => b + 1,
            _ => g.below(self.blocks),
        };
        t.min(self.blocks - 1) as u32
    }

    /// The terminator, with a test of its own before it at times.
    fn terminator(&self, g: &mut Rng, d: &mut Draft, b: usize, before: &[Record]) -> Vec<Record> {
        let [t, f] = [self.target(g, b), self.target(g, b)];
        match g.below(100) {
            0..45 => vec![br(t)],
            45..85 => {
                let mut code = Vec::new();
                let c = match before.last() {
                    _ if g.chance(20) => {
                        let c = new_register(d, 0);
                        code.push(test(g, d, c));
                        c
                    }
                    Some(i) if g.chance(50) && places(i.kind, i.op).unwrap()[0] == Place::Written => i.p[0],
                    _ => common(g, d),
                };
                code.push(cond_br(c, t, f));
                code
            }
            85..91 => vec![if g.chance(50) { ret() } else { ins(kind::RET, 1, &[any(g, d)]) }],
            91..96 => vec![ins(kind::CASE, 0, &[any(g, d), table(g, d, self.blocks)])],
            _ => vec![ins(kind::UNREACHABLE, 0, &[g.below(9) as u32])],
        }
    }
}

/// Targets past the last block, where the draft was cut short, are drawn again.
fn mend_targets(g: &mut Rng, d: &mut Draft) {
    let n = d.blocks.len() as u32;
    let mut mend = |t: &mut u32| {
        if *t >= n {
            *t = g.below(n as usize) as u32;
        }
    };
    for i in d.blocks.iter_mut().flatten() {
        let all = places(i.kind, i.op).unwrap();
        (0..6).filter(|&k| all[k] == Place::Block).for_each(|k| mend(&mut i.p[k]));
    }
    for t in &mut d.tables {
        t.arms.iter_mut().for_each(|a| mend(&mut a.2));
        mend(&mut t.default);
    }
}

fn new_register(d: &mut Draft, kind: u8) -> u32 {
    d.registers.push(kind);
    d.registers.len() as u32 - 1
}

fn any(g: &mut Rng, d: &Draft) -> u32 {
    g.below(d.registers.len()) as u32
}

/// One of the first registers, so that several blocks meet on it.
fn common(g: &mut Rng, d: &Draft) -> u32 {
    g.below(d.registers.len().min(3)) as u32
}

fn number(g: &mut Rng) -> i64 {
    g.pick(&[0, 0, 1, 1, 2, -1, 7, i64::MIN, 1 << 32])
}

fn bits(g: &mut Rng) -> u64 {
    g.pick(&[0, 1 << 63, 0x3ff0_0000_0000_0000, 0x7ff8_0000_0000_0000, 0x7ff0_0000_0000_0001, u64::MAX])
}

/// A comparison or condition into `dst`.
fn test(g: &mut Rng, d: &Draft, dst: u32) -> Record {
    let (a, b) = (any(g, d), any(g, d));
    match g.below(4) {
        0 | 1 => cmp(g.below(6) as u8, dst, a, b),
        2 => boolean(g.below(4) as u8, dst, a, b),
        _ => ins(kind::SELECT, 0, &[dst, a, b, any(g, d)]),
    }
}

/// An instruction that `dupable` lets by, or an address.
fn copyable(g: &mut Rng, d: &mut Draft) -> Record {
    let dst = if g.chance(15) { new_register(d, register_kind(g)) } else { any(g, d) };
    match g.below(100) {
        0..30 => mov(dst, any(g, d)),
        30..55 => constant(dst, number(g)),
        55..60 => constant_f(dst, bits(g)),
        60..65 => address(g, dst),
        65..80 => boolean(g.below(4) as u8, dst, any(g, d), any(g, d)),
        _ => test(g, d, dst),
    }
}

fn register_kind(g: &mut Rng) -> u8 {
    g.pick(&[0, 0, 0, 1, 2, 3, 4])
}

fn address(g: &mut Rng, dst: u32) -> Record {
    let op = g.below(6) as u8;
    let n = if matches!(op, 1 | 3 | 4) { g.pick(&[0, 1, 255]) } else { 0 };
    ins(kind::ADDR_OF, op, &[dst, n, g.below(64) as u32])
}

/// An instruction of any kind but a terminator.
fn any_kind(g: &mut Rng, d: &mut Draft) -> Record {
    let k = g.pick(&[0, 1, 2, 3, 4, 5, 6, 7, 8, 9, 10, 11, 12, 13, 14, 15, 16, 17, 23]);
    if k == kind::ADDR_OF {
        let dst = any(g, d);
        return address(g, dst);
    }
    let ops = (0..=255).take_while(|&op| places(k, op).is_some()).count();
    let op = g.below(ops) as u8;
    let mut i = ins(k, op, &[]);
    for (at, place) in places(k, op).unwrap().iter().enumerate() {
        match place {
            Place::Plain => i.p[at] = g.below(5) as u32,
            Place::Byte => i.p[at] = g.pick(&[0, 1, 255]),
            Place::Written | Place::Read | Place::Unread => i.p[at] = any(g, d),
            Place::List => (i.p[at], i.p[at + 1]) = list(g, d),
            _ => {}
        }
    }
    i
}

/// Start and length of a new operand list, or of a part of the last.
fn list(g: &mut Rng, d: &mut Draft) -> (u32, u32) {
    let n = g.below(4);
    if d.operands.len() + n > 128 {
        return (0, d.operands.len().min(3) as u32);
    }
    let start = d.operands.len() as u32;
    for _ in 0..n {
        let r = any(g, d);
        d.operands.push(r);
    }
    (start, n as u32)
}

/// The number of a new table, or of an old one where the arms are used up.
fn table(g: &mut Rng, d: &mut Draft, blocks: usize) -> u32 {
    let used: usize = d.tables.iter().map(|t| t.arms.len() + 1).sum();
    let n = g.below(4);
    if used + n < 128 && (d.tables.is_empty() || g.chance(70)) {
        let mut block = || g.below(blocks) as u32;
        let default = block();
        let targets: Vec<u32> = (0..n).map(|_| block()).collect();
        let arms = targets.into_iter().map(|t| (number(g), number(g), t)).collect();
        d.tables.push(Table { arms, default });
    }
    g.below(d.tables.len()) as u32
}

/// A step block of a loop: an add or subtract and a Br, or near to it.
fn latch_step(g: &mut Rng, d: &mut Draft, b: usize, blocks: usize) -> Vec<Record> {
    let mut code = Vec::new();
    let op = g.pick(&[0, 0, 1, 1, 2]);
    let i = any(g, d);
    if g.chance(20) {
        code.push(mov(any(g, d), any(g, d)));
    }
    code.push(match g.below(4) {
        0 => ins(kind::BIN_RANGE, op, &[i, i, any(g, d), any(g, d), any(g, d), 3]),
        1 => copyable(g, d),
        _ => ins(kind::BIN, op, &[i, i, any(g, d)]),
    });
    for _ in 0..g.pick(&[0, 0, 1, 2]) {
        code.push(mov(any(g, d), any(g, d)));
    }
    let to = if g.chance(75) { g.below(b + 1) } else { g.below(blocks) };
    code.push(br(to as u32));
    code
}

/// The draft with a Stmt, which is an act, before so many percent of its blocks.
fn told(mut d: Draft, g: &mut Rng, percent: usize) -> Draft {
    for block in &mut d.blocks {
        if g.chance(percent) {
            block.insert(0, Record { statement: g.below(90) as u32, ..stmt() });
        }
    }
    d
}

/// The draft made tidy: each offending register gets one more write somewhere.
fn tidied(mut d: Draft, g: &mut Rng) -> Draft {
    while let Some(r) = tidy::offender(&d.procedure()) {
        let b = g.below(d.blocks.len());
        let at = g.below(d.blocks[b].len());
        let i = if g.chance(60) { constant(r, number(g)) } else { mov(r, common(g, &d)) };
        d.blocks[b].insert(at, Record { statement: 5, ..i });
    }
    d
}

/// A branch after Consts, Moves and Bools over a few registers, each written again elsewhere.
fn known(g: &mut Rng) -> Draft {
    let n = g.range(2, 4);
    let mut d = Draft { registers: (0..n).map(|_| g.pick(&[0, 0, 0, 2, 2, 1, 4])).collect(), ..Draft::default() };
    let mut code = Vec::new();
    for _ in 0..g.range(2, 6) {
        let [dst, a, b] = [any(g, &d), any(g, &d), any(g, &d)];
        code.push(match g.below(20) {
            0..7 => constant(dst, g.pick(&[0, 0, 1, 5])),
            7..11 => mov(dst, a),
            11..18 => boolean(g.below(4) as u8, dst, a, b),
            18 => ins(kind::TAKE_BOUNDS, 0, &[dst, a, b]),
            _ => ins(kind::LOAD, 2, &[dst, a]),
        });
    }
    code.push(cond_br(any(g, &d), 1, 2));
    let other = any(g, &d);
    let mut end: Vec<Record> = (0..n as u32).map(|r| ins(kind::LOAD, 2, &[r, r])).collect();
    if g.chance(30) {
        d.registers.push(0);
        end.push(constant(n as u32, g.pick(&[0, 1])));
        let at = g.below(code.len());
        code.insert(at, boolean(g.below(4) as u8, g.below(n) as u32, n as u32, g.below(n) as u32));
    }
    end.push(ret());
    d.blocks = vec![code, vec![cond_br(other, 0, 2)], end];
    d
}

/// Many Brs to small blocks, so that the budget for copies runs out.
fn budget(g: &mut Rng) -> Draft {
    let shared = g.range(1, 4);
    let takers = g.range(20, 150);
    let mut d = Draft { registers: vec![0; 4], ..Draft::default() };
    for k in 0..takers {
        let l = (takers + g.below(shared)) as u32;
        let mut block = vec![stmt(); if g.chance(60) { 0 } else { g.below(3) }];
        if g.chance(5) {
            block.push(cond_br(g.below(4) as u32, l, g.below(k + 1) as u32));
        } else {
            block.push(br(l));
        }
        d.blocks.push(block);
    }
    for s in 0..shared {
        let mut block: Vec<Record> = (0..g.below(4)).map(|_| cmp(0, g.below(4) as u32, 0, 1)).collect();
        let next = (takers + g.below(shared)) as u32;
        block.push(match g.below(3) {
            0 => ret(),
            1 => br(if next as usize == takers + s { 0 } else { next }),
            _ => cond_br(g.below(4) as u32, g.below(takers) as u32, next),
        });
        d.blocks.push(block);
    }
    d.blocks.truncate(160);
    mend_targets(g, &mut d);
    d.with_statements(10)
}

/// A good file, with a table and a body at times, with one or two places changed.
fn damaged(g: &mut Rng) -> Vec<u8> {
    let shape = Shape { acts: 40, body: 50, ..Shape::small(g) };
    let mut d = shape.draft(g);
    if g.chance(50) {
        let n = d.blocks.len();
        table(g, &mut d, n);
    }
    let mut bytes = d.bytes();
    for _ in 0..g.range(1, 2) {
        damage(g, &mut bytes);
    }
    bytes
}

fn damage(g: &mut Rng, bytes: &mut Vec<u8>) {
    let records = bytes.len() / RECORD;
    let last = if g.chance(30) { records / 2 } else { 0 };
    let at = (last + g.below((records - last).max(1))) * RECORD;
    match g.below(10) {
        _ if records == 0 => bytes.push(1),
        0 => bytes.truncate(bytes.len() - g.range(1, 40).min(bytes.len())),
        1 => drop(bytes.drain(at..at + RECORD)),
        2 => {
            let r = bytes[at..at + RECORD].to_vec();
            bytes.splice(at..at, r);
        }
        3 => {
            let other = g.below(records) * RECORD;
            (0..RECORD).for_each(|k| bytes.swap(at + k, other + k));
        }
        4 => bytes[at + g.below(4)] = g.below(30) as u8,
        5 => bytes[at + 4] ^= 1,
        6 => bytes[at + g.below(RECORD)] ^= 1 << g.below(8),
        _ => {
            let place = at + 8 + 4 * g.below(6);
            let v = g.pick(&[0, 1, 2, 5, 30, 255, 256, u32::MAX]);
            bytes[place..place + 4].copy_from_slice(&v.to_le_bytes());
        }
    }
}
