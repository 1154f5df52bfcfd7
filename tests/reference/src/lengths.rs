//! Seeded procedures with lengths and their tests: BoundsLen, MakeDope and DopeLen, and a Cmp of the length with 0.

use crate::draft::*;
use crate::generate::Rng;
use crate::record::{Record, kind};

/// A register of each sort is taken for what its sort is for, and any other at times.
struct Ground {
    lengths: Vec<u32>,
    bounds: Vec<u32>,
    /// Those that point to the block of memory of a MakeDope.
    blocks: Vec<u32>,
    tests: Vec<u32>,
    zero: u32,
    one: u32,
    /// A constant that is neither.
    other: u32,
}

/// Which instructions there are; without one sort the gate is shut.
#[derive(Clone, Copy, PartialEq, Eq)]
enum Which {
    All,
    Makes,
    Measures,
}

/// A procedure; with `split`, some Cmps stand in a small block of their own behind a Br.
pub fn draft(g: &mut Rng, split: bool) -> Draft {
    let mut d = Draft::default();
    let ground = Ground::new(g, &mut d);
    let which = if g.chance(8) { g.pick(&[Which::Makes, Which::Measures]) } else { Which::All };
    let blocks = if g.chance(3) { g.range(20, 60) } else { g.range(2, 6) };
    let unreached = (blocks > 2 && g.chance(30)).then(|| g.range(1, blocks - 2));
    let edges = Edges { blocks, unreached, back: if g.chance(7) { 0 } else { 60 } };
    while d.blocks.len() < blocks {
        let b = d.blocks.len();
        if unreached == Some(b) {
            d.blocks.push(vec![ground.second(g), if g.chance(50) { ret() } else { br(edges.target(g, b)) }]);
            continue;
        }
        let mut code = Vec::new();
        for _ in 0..g.pick(&[0, 1, 1, 1, 2]) {
            if d.instructions() < 380 {
                ground.group(g, &mut d, which, &mut code);
            }
        }
        if split && !code.is_empty() && b + 1 < blocks && unreached != Some(b + 1) && g.chance(70) {
            let test = code.pop().expect("a Cmp");
            code.push(br(b as u32 + 1));
            d.blocks.push(code);
            code = vec![test];
            if g.chance(30) {
                code.push(mov(g.pick(&ground.tests), g.pick(&ground.tests)));
            }
        }
        let b = d.blocks.len();
        code.push(edges.terminator(g, &ground, b));
        d.blocks.push(code);
    }
    ground.constants(g, &mut d);
    while d.instructions() < 6 {
        d.blocks[0].insert(0, stmt());
    }
    d.with_statements(10)
}

struct Edges {
    blocks: usize,
    /// A block that none leads to.
    unreached: Option<usize>,
    /// A target before the block, in percent.
    back: usize,
}

impl Edges {
    fn target(&self, g: &mut Rng, b: usize) -> u32 {
        loop {
            let t = if g.chance(self.back) { g.below(b + 1) } else { g.range(b + 1, self.blocks).min(self.blocks - 1) };
            if Some(t) != self.unreached {
                return t as u32;
            }
        }
    }

    fn terminator(&self, g: &mut Rng, ground: &Ground, b: usize) -> Record {
        if b + 1 == self.blocks && (self.back == 0 || g.chance(40)) {
            return ret();
        }
        match g.below(10) {
            0..6 => cond_br(g.pick(&ground.tests), self.target(g, b), self.target(g, b)),
            6..9 => br(self.target(g, b)),
            _ => ret(),
        }
    }
}

impl Ground {
    fn new(g: &mut Rng, d: &mut Draft) -> Ground {
        let mut some = |g: &mut Rng, from: usize, to: usize, kinds: &[u8]| -> Vec<u32> {
            let first = d.registers.len() as u32;
            let n = g.range(from, to) as u32;
            d.registers.extend((0..n).map(|_| g.pick(kinds)));
            (first..first + n).collect()
        };
        let lengths = some(g, 1, 2, &[0]);
        let constants = some(g, 3, 3, &[0]);
        let bounds = some(g, 2, 4, &[0, 0, 0, 2]);
        let blocks = some(g, 1, 2, &[2]);
        let tests = some(g, 1, 2, &[0]);
        let [zero, one, other] = [constants[0], constants[1], constants[2]];
        Ground { lengths, bounds, blocks, tests, zero, one, other }
    }

    /// One of these, or at times any register.
    fn one_of(&self, g: &mut Rng, d: &Draft, these: &[u32]) -> u32 {
        if g.chance(6) { g.below(d.registers.len()) as u32 } else { g.pick(these) }
    }

    fn direction(&self, g: &mut Rng, d: &Draft) -> u32 {
        match g.below(100) {
            0..45 => self.zero,
            45..88 => self.one,
            88..95 => self.other,
            _ => self.one_of(g, d, &self.bounds),
        }
    }

    /// A list of a MakeDope, mostly of left, right and direction.
    fn parts(&self, g: &mut Rng, d: &mut Draft) -> [u32; 2] {
        let mut parts = vec![self.one_of(g, d, &self.bounds), self.one_of(g, d, &self.bounds), self.direction(g, d)];
        match g.below(30) {
            0 => parts.truncate(2),
            1 => parts.push(self.zero),
            _ => {}
        }
        if d.operands.len() + parts.len() > 128 {
            return [g.below(d.operands.len() - 2) as u32, 3];
        }
        let start = d.operands.len() as u32;
        d.operands.extend(&parts);
        [start, parts.len() as u32]
    }

    fn make(&self, g: &mut Rng, d: &mut Draft, at: u32) -> Record {
        let [start, length] = self.parts(g, d);
        ins(kind::MAKE_DOPE, 0, &[at, start, length])
    }

    /// A length and its test, with something between at times. The last is the Cmp.
    fn group(&self, g: &mut Rng, d: &mut Draft, which: Which, code: &mut Vec<Record>) {
        let n = self.one_of(g, d, &self.lengths);
        let at = self.one_of(g, d, &self.blocks);
        let dim = if g.chance(8) { g.pick(&[1, 2, 255]) } else { 0 };
        let measure = ins(kind::DOPE_LEN, 0, &[n, at, dim]);
        let [left, right] = [0; 2].map(|_| self.one_of(g, d, &self.bounds));
        let span = ins(kind::BOUNDS_LEN, 0, &[n, left, right, self.direction(g, d)]);
        let mut make = |g: &mut Rng| self.make(g, d, at);
        let all: Vec<Record> = match (which, g.below(10)) {
            (Which::Makes, _) => vec![make(g)],
            (Which::Measures, _) => vec![measure],
            (_, 0..4) => vec![span],
            (_, 4..7) => vec![make(g), measure],
            (_, 7) => vec![make(g), make(g), measure],
            (_, 8) => vec![make(g), measure, make(g)],
            _ => vec![make(g), span, measure],
        };
        for i in all {
            code.push(i);
            if g.chance(12) {
                code.push(self.between(g, d));
            }
        }
        let z = match g.below(100) {
            0..86 => self.zero,
            86..92 => self.other,
            92..96 => self.one,
            _ => self.one_of(g, d, &self.bounds),
        };
        let dst = if g.chance(12) { g.pick(&[n, left, right]) } else { self.one_of(g, d, &self.tests) };
        let [a, b] = if g.chance(4) { [z, n] } else { [n, z] };
        code.push(cmp(g.below(6) as u8, dst, a, b));
    }

    /// An instruction between a length and its test, which writes something at times.
    fn between(&self, g: &mut Rng, d: &Draft) -> Record {
        let these = g.pick(&[&self.lengths, &self.bounds, &self.bounds, &self.blocks, &self.tests]);
        let dst = self.one_of(g, d, these);
        let dst = if [self.zero, self.one].contains(&dst) && g.chance(80) { self.tests[0] } else { dst };
        let other = self.one_of(g, d, &self.bounds);
        match g.below(9) {
            0 => stmt(),
            1 => mov(dst, other),
            2 => ins(kind::BIN, g.below(2) as u8, &[dst, dst, other]),
            3 => ins(kind::CALL_NATIVE, 1, &[7, 0, 0, dst]),
            4 => ins(kind::TAKE_BOUNDS, 0, &[g.pick(&self.bounds), dst, g.pick(&self.tests)]),
            5 => ins(kind::ALLOC, 0, &[dst, other]),
            6 => cmp(g.below(6) as u8, g.pick(&self.tests), g.pick(&self.bounds), self.zero),
            _ => ins(kind::LOAD, 2, &[dst, g.pick(&self.blocks)]),
        }
    }

    /// A second write of a constant.
    fn second(&self, g: &mut Rng) -> Record {
        constant(g.pick(&[self.zero, self.zero, self.one, self.other]), g.pick(&[0, 0, 1, 7]))
    }

    /// Each constant is written in some block, the first one mostly.
    fn constants(&self, g: &mut Rng, d: &mut Draft) {
        let other = g.pick(&[2, -1, 1 << 32, (1 << 32) + 1, i64::MIN, 256]);
        for (r, v) in [(self.zero, 0), (self.one, 1), (self.other, other)] {
            let b = if g.chance(60) { 0 } else { g.below(d.blocks.len()) };
            let at = g.below(d.blocks[b].len());
            let i = if g.chance(2) { constant_f(r, v as u64) } else { constant(r, v) };
            d.blocks[b].insert(at, i);
        }
    }
}

#[cfg(test)]
mod tests {
    use super::*;
    use crate::read::read;

    #[test]
    fn they_are_accepted() {
        for seed in 0..20_000 {
            let mut g = Rng::new(seed);
            assert!(read(&draft(&mut g, seed % 2 == 0).bytes()).is_ok(), "{seed}");
        }
    }
}
