//! Valid files of all sizes from a seeded source.

use crate::file::{self, inst};
use crate::record::{class, kind, op, Record, LIMITS, RECORD_BYTES, REGISTER_KINDS, SHAPES};
use crate::rng::Rng;

/// How many of each a valid file has.
#[derive(Clone, Copy, Debug)]
pub struct Counts {
    pub registers: usize,
    pub blocks: usize,
    pub bodies: usize,
    pub instructions: usize,
    pub operands: usize,
    pub arms: usize,
    pub tables: usize,
}

impl Counts {
    /// Mostly small, a few up to the limits.
    pub fn any(rng: &mut Rng) -> Counts {
        match rng.below(1000) {
            0..=599 => Counts::up_to(rng, 8, 6),
            600..=949 => Counts::up_to(rng, 24, 12),
            950..=974 => Counts::up_to(rng, 100, 40),
            975..=993 => Counts::up_to(rng, 756, 128),
            _ => Counts::at_limits(rng),
        }
    }

    fn up_to(rng: &mut Rng, instructions: usize, others: usize) -> Counts {
        let instructions = rng.between(1, instructions);
        let most_blocks = instructions.min(limit(class::BLOCK));
        let blocks = rng.between(1, most_blocks.min(others));
        let registers = if rng.chance(1, 16) { 0 } else { rng.between(1, instructions.max(3)) };
        let operands = if registers == 0 { 0 } else { rng.below(others) };
        let arms = if rng.chance(1, 3) { 0 } else { rng.below(others) };
        Counts { registers, blocks, instructions, operands, ..Counts::rest(rng, arms) }
    }

    /// Each class at its limit, or one below, or anywhere.
    fn at_limits(rng: &mut Rng) -> Counts {
        let registers = near_limit(rng, class::REGISTER).max(1);
        let instructions = near_limit(rng, class::INSTRUCTION).max(1);
        let blocks = near_limit(rng, class::BLOCK).clamp(1, instructions);
        let operands = near_limit(rng, class::OPERAND);
        let arms = near_limit(rng, class::ARM);
        Counts { registers, blocks, instructions, operands, ..Counts::rest(rng, arms) }
    }

    /// So many instructions, and all else in the proportion of the limits.
    pub fn in_proportion(instructions: usize) -> Counts {
        let part = |class: u8| (limit(class) * instructions).div_ceil(limit(class::INSTRUCTION));
        let arms = part(class::ARM);
        Counts {
            registers: part(class::REGISTER),
            blocks: part(class::BLOCK),
            bodies: 1,
            instructions,
            operands: part(class::OPERAND),
            arms,
            tables: arms.div_ceil(4),
        }
    }

    fn rest(rng: &mut Rng, arms: usize) -> Counts {
        Counts {
            registers: 0,
            blocks: 0,
            bodies: rng.below(2),
            instructions: 0,
            operands: 0,
            arms,
            tables: if arms == 0 { 0 } else { rng.between(1, arms) },
        }
    }
}

pub fn limit(class: u8) -> usize {
    LIMITS[class as usize]
}

fn near_limit(rng: &mut Rng, class: u8) -> usize {
    match rng.below(4) {
        0 => rng.between(0, limit(class)),
        1 => limit(class) - 1,
        _ => limit(class),
    }
}

/// A valid file with these counts.
pub fn valid(rng: &mut Rng, counts: &Counts) -> Vec<u8> {
    let mut writer = Writer { rng, counts, bytes: Vec::with_capacity(capacity(counts)) };
    writer.registers();
    let ends = writer.blocks();
    writer.bodies();
    writer.code(&ends);
    writer.operands();
    writer.arms();
    writer.bytes
}

fn capacity(counts: &Counts) -> usize {
    let records = counts.registers
        + counts.blocks
        + counts.bodies
        + counts.instructions
        + counts.operands
        + counts.arms;
    records * RECORD_BYTES
}

/// `count` of the places from 1 to `last`, ascending; the last one is always among them.
fn ends(rng: &mut Rng, count: usize, last: usize) -> Vec<usize> {
    let mut chosen = Vec::with_capacity(count);
    let mut wanted = count - 1;
    for place in 1..last {
        if rng.chance(wanted, last - place) {
            chosen.push(place);
            wanted -= 1;
        }
    }
    chosen.push(last);
    chosen
}

struct Writer<'a> {
    rng: &'a mut Rng,
    counts: &'a Counts,
    bytes: Vec<u8>,
}

impl Writer<'_> {
    fn put(&mut self, record: Record) {
        self.bytes.extend_from_slice(&record.encode());
    }

    fn registers(&mut self) {
        for _ in 0..self.counts.registers {
            let kind = self.rng.below(REGISTER_KINDS as usize) as u8;
            self.put(file::register(kind));
        }
    }

    fn blocks(&mut self) -> Vec<usize> {
        let ends = ends(self.rng, self.counts.blocks, self.counts.instructions);
        let mut start = 0;
        for &end in &ends {
            self.put(file::block(start as u32, end as u32));
            start = end;
        }
        ends
    }

    fn bodies(&mut self) {
        for _ in 0..self.counts.bodies {
            let block = self.block();
            self.put(file::body(block));
        }
    }

    fn code(&mut self, ends: &[usize]) {
        let mut place = 0;
        for &end in ends {
            while place + 1 < end {
                let record = self.ordinary();
                self.put(record);
                place += 1;
            }
            let record = self.terminator();
            self.put(record);
            place += 1;
        }
    }

    fn operands(&mut self) {
        for _ in 0..self.counts.operands {
            let register = self.register();
            self.put(file::operand(register));
        }
    }

    fn arms(&mut self) {
        if self.counts.arms == 0 {
            return;
        }
        let defaults = ends(self.rng, self.counts.tables, self.counts.arms);
        let mut arm = 1;
        for (table, &default) in defaults.iter().enumerate() {
            while arm < default {
                let (low, high) = (self.bound(), self.bound());
                let target = self.block();
                self.put(file::arm(table as u32, low, high, target));
                arm += 1;
            }
            let target = self.block();
            self.put(file::default(table as u32, target));
            arm += 1;
        }
    }

    fn ordinary(&mut self) -> Record {
        let with_registers = self.counts.registers > 0;
        let kind = match self.rng.below(19) as u8 {
            _ if !with_registers => self.rng.pick(&[kind::CALL_NATIVE, kind::STMT]),
            18 => kind::STMT,
            kind => kind,
        };
        self.instruction(kind)
    }

    fn terminator(&mut self) -> Record {
        let without = [kind::BR, kind::RET, kind::UNREACHABLE];
        let kind = match self.rng.below(6) {
            0 | 1 if self.counts.registers > 0 => kind::COND_BR,
            2 if self.counts.registers > 0 && self.counts.tables > 0 => kind::CASE,
            _ => self.rng.pick(&without),
        };
        self.instruction(kind)
    }

    /// An instruction of that kind with all that it names existing.
    fn instruction(&mut self, kind: u8) -> Record {
        let op = match kind {
            kind::RET | kind::CALL_NATIVE if self.counts.registers == 0 => op::WITHOUT,
            _ => self.rng.below(SHAPES[kind as usize].ops as usize) as u8,
        };
        let fields = self.fields(kind, op);
        inst(kind, &fields).with_op(op).at(self.rng.number())
    }

    fn fields(&mut self, kind: u8, op: u8) -> Vec<u32> {
        match kind {
            kind::CONST | kind::CONST_F => {
                vec![self.register(), self.rng.number(), self.rng.number()]
            }
            kind::ADDR_OF => {
                let number = match op {
                    op::UP => self.rng.below(256) as u32,
                    op::PKG | op::CONST => self.rng.number(),
                    _ => 0,
                };
                vec![self.register(), number, self.rng.number()]
            }
            kind::MOVE | kind::LOAD | kind::STORE | kind::ALLOC => self.some_registers(2),
            kind::CMP | kind::BOOL | kind::BIN | kind::TAKE_BOUNDS => self.some_registers(3),
            kind::SELECT | kind::BOUNDS_LEN => self.some_registers(4),
            kind::BIN_RANGE => self.registers_and(5, |rng| rng.number()),
            kind::CHECK => self.registers_and(3, |rng| rng.number()),
            kind::DOPE_LEN => self.registers_and(2, |rng| rng.below(256) as u32),
            kind::MAKE_DOPE => {
                let (start, length) = self.list();
                vec![self.register(), start, length]
            }
            kind::CALL_NATIVE => {
                let (start, length) = self.list();
                let dst = if op == op::WITH { self.register() } else { 0 };
                vec![self.rng.number(), start, length, dst]
            }
            kind::BR => vec![self.block()],
            kind::COND_BR => vec![self.register(), self.block(), self.block()],
            kind::CASE => vec![self.register(), below_or_last(self.rng, self.counts.tables)],
            kind::RET if op == op::WITH => vec![self.register()],
            kind::UNREACHABLE => vec![self.rng.number()],
            _ => vec![],
        }
    }

    fn some_registers(&mut self, count: usize) -> Vec<u32> {
        (0..count).map(|_| self.register()).collect()
    }

    fn registers_and(&mut self, count: usize, last: fn(&mut Rng) -> u32) -> Vec<u32> {
        let mut fields = self.some_registers(count);
        fields.push(last(self.rng));
        fields
    }

    fn register(&mut self) -> u32 {
        below_or_last(self.rng, self.counts.registers)
    }

    fn block(&mut self) -> u32 {
        below_or_last(self.rng, self.counts.blocks)
    }

    fn list(&mut self) -> (u32, u32) {
        let start = self.rng.between(0, self.counts.operands);
        let rest = self.counts.operands - start;
        let length = if self.rng.chance(1, 4) { rest } else { self.rng.between(0, rest.min(4)) };
        (start as u32, length as u32)
    }

    fn bound(&mut self) -> i64 {
        match self.rng.below(4) {
            0 => self.rng.word() as i64,
            1 => self.rng.pick(&[i64::MIN, i64::MAX, -1, 0]),
            _ => self.rng.below(40) as i64 - 20,
        }
    }
}

fn below_or_last(rng: &mut Rng, count: usize) -> u32 {
    if rng.chance(1, 4) {
        count as u32 - 1
    } else {
        rng.below(count) as u32
    }
}

#[cfg(test)]
mod tests {
    use super::*;
    use crate::read;

    #[test]
    fn generated_files_are_accepted() {
        for seed in 0..20_000 {
            let mut rng = Rng::new(seed);
            let counts = Counts::any(&mut rng);
            assert_eq!(read(&valid(&mut rng, &counts)), (0, 0), "seed {seed}, {counts:?}");
        }
    }

    #[test]
    fn files_in_proportion_are_accepted() {
        for instructions in [10, 100, 480, 756] {
            let counts = Counts::in_proportion(instructions);
            assert_eq!(read(&valid(&mut Rng::new(1), &counts)), (0, 0));
        }
    }
}
