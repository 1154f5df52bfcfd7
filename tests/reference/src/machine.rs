//! Document 01's machine, and demand 3 tried on two runs.

use crate::generate::Rng;
use crate::measured::{Measured, length};
use crate::procedure::Procedure;
use crate::record::{Place, Record, kind, places};

#[derive(Clone, PartialEq, Eq, Debug)]
pub struct Act {
    pub kind: u8,
    pub op: u8,
    pub plain: Vec<u32>,
    pub read: Vec<u64>,
    pub statement: u32,
}

#[derive(Clone, Copy, PartialEq, Eq, Debug)]
pub enum End {
    Ret(Option<u64>, u32),
    Unreachable(u32, u32),
    /// The outside ended the run on its last act.
    Outside,
}

/// What a run meets: the outside, a rule of the earlier acts and this one, and what AddrOf writes.
pub trait Outside {
    /// The values for the `written` registers, or the end. Of too few the rest are 0, of too many they aren't used.
    fn answer(&mut self, earlier: &[Act], act: &Act, written: usize) -> Option<Vec<u64>>;
    /// The fixed function of space and off; `number` is 0 where the space carries none.
    fn address(&self, space: u8, number: u32, off: u32) -> u64;
}

/// A seeded rule.
#[derive(Clone, Copy)]
pub struct Seeded {
    pub seed: u64,
    /// Ends the run on one act in this many.
    pub patience: u64,
    /// Answers a BoundsLen or DopeLen with the length of its bounds.
    pub exact: bool,
    /// Words are seldom small.
    pub extreme: bool,
    /// A digest of the acts so far.
    history: u64,
}

impl Seeded {
    pub fn new(seed: u64, patience: u64) -> Seeded {
        Seeded { seed, patience, exact: false, extreme: false, history: 0 }
    }

    fn word(&self, g: &mut Rng) -> u64 {
        if self.extreme && g.chance(60) { extreme(g) } else { word(g) }
    }
}

impl Outside for Seeded {
    fn answer(&mut self, earlier: &[Act], act: &Act, written: usize) -> Option<Vec<u64>> {
        self.history = digest(self.history, act);
        let mut g = Rng::new(self.seed ^ self.history);
        if g.draw().is_multiple_of(self.patience) {
            return None;
        }
        let measured = if self.exact { exact_length(earlier, act) } else { None };
        Some((0..written).map(|_| measured.unwrap_or_else(|| self.word(&mut g))).collect())
    }

    fn address(&self, space: u8, number: u32, off: u32) -> u64 {
        Rng::new(u64::from(space) << 40 ^ u64::from(off) << 32 ^ u64::from(number)).draw()
    }
}

/// The length that an act asks for, where its bounds are those of the act or of the last MakeDope at that address.
fn exact_length(earlier: &[Act], act: &Act) -> Option<u64> {
    let made = |a: &&Act| a.kind == kind::MAKE_DOPE && a.read.len() == 4 && a.read[0] == act.read[0];
    let bounds = match act.kind {
        kind::BOUNDS_LEN => &act.read[..],
        kind::DOPE_LEN if act.plain == [0] => &earlier.iter().rev().find(made)?.read[1..],
        _ => return None,
    };
    (bounds[2] < 2).then(|| length(bounds[0], bounds[1], bounds[2] == 1) as u64)
}

/// A word near the ends of what a signed or unsigned one can be.
fn extreme(g: &mut Rng) -> u64 {
    let end = g.pick(&[0, 1 << 63, 1 << 62, 1 << 32]);
    if g.chance(50) { end + g.below(3) as u64 } else { end.wrapping_sub(g.below(3) as u64) }
}

/// A word, often a small one.
pub fn word(g: &mut Rng) -> u64 {
    if g.chance(80) { g.below(3) as u64 } else { g.pick(&[7, u64::MAX, 1 << 63, 1 << 32]) }
}

pub struct Run<'a, O> {
    f: &'a Procedure,
    outside: O,
    pub registers: Vec<u64>,
    block: usize,
    place: usize,
    pub acts: Vec<Act>,
    pub entries: usize,
    pub end: Option<End>,
}

impl<'a, O: Outside> Run<'a, O> {
    pub fn new(f: &'a Procedure, outside: O, registers: Vec<u64>) -> Run<'a, O> {
        Run { f, outside, registers, block: 0, place: 0, acts: Vec::new(), entries: 1, end: None }
    }

    /// The block, and the place in it.
    pub fn stands(&self) -> (usize, usize) {
        (self.block, self.place)
    }

    /// The instructions of its block that are left.
    pub fn left(&self) -> &'a [Record] {
        &self.f.block(self.block)[self.place..]
    }

    fn go(&mut self, to: u32) {
        self.block = to as usize;
        self.place = 0;
        self.entries += usize::from(to == 0);
    }

    /// Carries out one instruction; nothing after the end.
    pub fn step(&mut self) {
        if self.end.is_some() {
            return;
        }
        let i = self.left()[0];
        self.place += 1;
        let get = |k: usize| self.registers[i.p[k - 1] as usize];
        let truth = |k: usize| get(k) != 0;
        let value = match i.kind {
            kind::BR => return self.go(i.p[0]),
            kind::COND_BR => return self.go(if truth(1) { i.p[1] } else { i.p[2] }),
            kind::CASE => return self.go(self.chosen(i.p[1], get(1) as i64)),
            kind::RET => return self.end = Some(End::Ret((i.op == 1).then(|| get(1)), i.statement)),
            kind::UNREACHABLE => return self.end = Some(End::Unreachable(i.p[0], i.statement)),
            kind::CONST | kind::CONST_F | kind::ADDR_OF => fixed(&self.outside, &i),
            kind::MOVE => get(2),
            kind::SELECT => get(if truth(2) { 3 } else { 4 }),
            kind::CMP => u64::from(compares(i.op, get(2) as i64, get(3) as i64)),
            kind::BOOL => u64::from(match i.op {
                0 => truth(2) && truth(3),
                1 => truth(2) || truth(3),
                2 => truth(2) != truth(3),
                _ => !truth(2),
            }),
            _ => return self.act(&i),
        };
        self.registers[i.p[0] as usize] = value;
    }

    /// The first arm that holds `v`, else the default.
    fn chosen(&self, table: u32, v: i64) -> u32 {
        let t = &self.f.tables[table as usize];
        t.arms.iter().find(|a| a.0 <= v && v <= a.1).map_or(t.default, |a| a.2)
    }

    fn act(&mut self, i: &Record) {
        let all = places(i.kind, i.op).unwrap();
        let plain = (0..6).filter(|&k| matches!(all[k], Place::Plain | Place::Byte)).map(|k| i.p[k]).collect();
        let read = self.f.read(i).map(|r| self.registers[r as usize]).collect();
        let act = Act { kind: i.kind, op: i.op, plain, read, statement: i.statement };
        let written: Vec<u32> = self.f.written(i).collect();
        match self.outside.answer(&self.acts, &act, written.len()) {
            Some(words) => {
                let words = words.into_iter().chain(std::iter::repeat(0));
                written.iter().zip(words).for_each(|(&r, w)| self.registers[r as usize] = w);
            }
            None => self.end = Some(End::Outside),
        }
        self.acts.push(act);
    }
}

fn digest(history: u64, a: &Act) -> u64 {
    let mut g = Rng::new(history);
    let words = [u64::from(a.kind), u64::from(a.op), u64::from(a.statement), a.read.len() as u64];
    for w in words.into_iter().chain(a.plain.iter().map(|&p| u64::from(p))).chain(a.read.iter().copied()) {
        g = Rng::new(g.draw() ^ w);
    }
    g.draw()
}

fn compares(op: u8, a: i64, b: i64) -> bool {
    match op {
        0 => a == b,
        1 => a != b,
        2 => a < b,
        3 => a <= b,
        4 => a > b,
        _ => a >= b,
    }
}

/// What Const, ConstF or AddrOf writes.
fn fixed(outside: &impl Outside, i: &Record) -> u64 {
    match i.kind {
        kind::ADDR_OF => outside.address(i.op, i.p[1], i.p[2]),
        _ => i.wide(2),
    }
}

/// The single constants: the value of each register that one field writes, that of a Const, ConstF or AddrOf.
pub fn single(original: &Procedure, outside: &impl Outside) -> Vec<Option<u64>> {
    let mut values = vec![None; original.registers.len()];
    let writes = original.writes();
    for i in &original.code {
        if matches!(i.kind, kind::CONST | kind::CONST_F | kind::ADDR_OF) && writes[i.p[0] as usize] == 1 {
            values[i.p[0] as usize] = Some(fixed(outside, i));
        }
    }
    values
}

/// Registers at the start: words, with the original's single constants loaded.
pub fn loaded(original: &Procedure, outside: &impl Outside, words: Vec<u64>) -> Vec<u64> {
    words.into_iter().zip(single(original, outside)).map(|(word, single)| single.unwrap_or(word)).collect()
}

/// What a pair of runs met.
#[derive(Default)]
pub struct Met {
    /// How the original ended within its instructions, if it did.
    pub end: Option<End>,
    pub acts: usize,
    pub entries: usize,
    /// An act of the shortened run came with the last instruction that the bound allows.
    pub at_bound: bool,
    /// Rewritten Cmps that were carried out, of an empty range and of another.
    pub tested: [usize; 2],
    /// Nothing more was claimed before a rewritten Cmp: its length wasn't exact, or was exact and not below 2^63.
    pub wrong: bool,
    pub too_long: bool,
}

/// A shortened form, with the counts and conditions of the claim about its run.
pub struct Claim<'a> {
    pub shortened: &'a Procedure,
    pub rescued: u32,
    pub measured: &'a Measured,
}

/// The shortened run, up to where a condition fails.
struct Watched<'a> {
    run: Run<'a, Seeded>,
    measured: &'a Measured,
    used: usize,
    /// When the last act came.
    last_act: usize,
    met: Met,
}

impl Watched<'_> {
    /// Goes on to `bound` instructions. Is it there, so that the claim about so many holds?
    fn reaches(&mut self, bound: usize) -> bool {
        while self.used < bound && self.run.end.is_none() {
            if let Some(test) = self.measured.test_at(self.run.stands()) {
                let [exact, fits] = test.holds(&self.run.registers);
                self.met.wrong |= !exact;
                self.met.too_long |= exact && !fits;
                if !exact || !fits {
                    return false;
                }
                self.met.tested[usize::from(self.run.registers[test.length as usize] != 0)] += 1;
            }
            let acts = self.run.acts.len();
            self.run.step();
            self.used += 1;
            if self.run.acts.len() > acts {
                self.last_act = self.used;
            }
        }
        true
    }
}

/// Demand 3 for one start and one outside, up to `n` instructions of the original: within `n`
/// plus the rescued constants for each of its entries into block 0 the shortened run has done
/// the same acts and ended alike; and it does nothing else. Once a condition has failed, only
/// that what was done until then is what the original does.
pub fn demand_3(original: &Procedure, claim: &Claim, seed: u64, n: usize) -> Result<Met, String> {
    let mut g = Rng::new(seed);
    let outside = Seeded::new(g.draw(), g.pick(&[8, 40, 1000]));
    let outside = Seeded { exact: g.below(8) < 6, extreme: g.chance(25), ..outside };
    let words = original.registers.iter().map(|_| outside.word(&mut g)).collect();
    let mut words = loaded(original, &outside, words);
    for &r in &claim.measured.zeros {
        words[r as usize] = 0;
    }
    let mut longer = words.clone();
    longer.resize_with(claim.shortened.registers.len(), || outside.word(&mut g));
    let mut sent = Run::new(original, outside, words);
    let run = Run::new(claim.shortened, outside, longer);
    let mut short = Watched { run, measured: claim.measured, used: 0, last_act: 0, met: Met::default() };
    let (mut compared, mut at_bound) = (0, false);
    for done in 0..=n {
        let bound = done + claim.rescued as usize * sent.entries;
        if !short.reaches(bound) {
            break;
        }
        if !short.run.acts[compared.min(short.run.acts.len())..].starts_with(&sent.acts[compared..]) {
            return Err(format!("after {done} instructions the acts aren't a first part"));
        }
        let level = short.run.acts.len() == sent.acts.len();
        at_bound |= compared < sent.acts.len() && level && short.last_act == bound;
        compared = sent.acts.len();
        if sent.end.is_some() && (short.run.end != sent.end || !level) {
            return Err(format!("after {done} instructions the ends differ"));
        }
        sent.step();
    }
    let met = Met { end: sent.end, acts: sent.acts.len(), entries: sent.entries, at_bound, ..short.met };
    only_the_same(sent, short.run, 64 * n).map(|()| met)
}

/// The second half of demand 3: what the shortened run has done is what the original does within so many more instructions.
fn only_the_same(mut sent: Run<Seeded>, short: Run<Seeded>, more: usize) -> Result<(), String> {
    let behind = |sent: &Run<Seeded>| sent.acts.len() < short.acts.len() || short.end.is_some() && sent.end.is_none();
    for _ in 0..more {
        if !behind(&sent) {
            break;
        }
        sent.step();
    }
    if !sent.acts.starts_with(&short.acts) {
        return Err("the shortened run does an act of its own".into());
    }
    if short.end.is_some() && (sent.end != short.end || sent.acts != short.acts) {
        return Err("the shortened run ends by itself".into());
    }
    Ok(())
}
