//! Read: the seven conditions of the paper in their order.

use crate::record::{class, is_terminator, kind, op};
use crate::record::{Raw, Record, DEFAULT, KINDS, LIMITS, RECORD_BYTES, REGISTER_KINDS, SHAPES};

const MAX_BYTES: usize = 65_536;

/// Number and record of a refusal.
#[derive(Clone, Copy, Debug, PartialEq, Eq)]
pub struct Refusal {
    pub number: u32,
    pub record: u32,
}

fn refuse<T>(number: u32, record: usize) -> Result<T, Refusal> {
    Err(Refusal { number, record: record as u32 })
}

/// 0 and 0 where the file is accepted, else the number and record of its refusal.
pub fn read(bytes: &[u8]) -> (u32, u32) {
    match Procedure::read(bytes) {
        Ok(_) => (0, 0),
        Err(refusal) => (refusal.number, refusal.record),
    }
}

/// The records of a file, by class.
pub struct Procedure<'a> {
    pub registers: &'a [Raw],
    pub blocks: &'a [Raw],
    pub bodies: &'a [Raw],
    pub code: &'a [Raw],
    pub operands: &'a [Raw],
    pub arms: &'a [Raw],
}

impl<'a> Procedure<'a> {
    pub fn read(bytes: &'a [u8]) -> Result<Self, Refusal> {
        let procedure = Procedure::split(whole_records(bytes)?)?;
        procedure.check_limits()?;
        procedure.check_tiling()?;
        procedure.check_terminators()?;
        let tables = procedure.check_tables()?;
        procedure.check_existence(tables)?;
        Ok(procedure)
    }

    /// Condition 2, and the records parted by class.
    fn split(records: &'a [Raw]) -> Result<Self, Refusal> {
        let mut counts = [0; 7];
        let mut class_before = 0;
        for (place, raw) in records.iter().enumerate() {
            let record = Record::decode(raw);
            if record.class < class_before || !well_formed(&record) {
                return refuse(2, place);
            }
            class_before = record.class;
            counts[record.class as usize] += 1;
        }
        let (registers, rest) = records.split_at(counts[class::REGISTER as usize]);
        let (blocks, rest) = rest.split_at(counts[class::BLOCK as usize]);
        let (bodies, rest) = rest.split_at(counts[class::BODY as usize]);
        let (code, rest) = rest.split_at(counts[class::INSTRUCTION as usize]);
        let (operands, arms) = rest.split_at(counts[class::OPERAND as usize]);
        Ok(Procedure { registers, blocks, bodies, code, operands, arms })
    }

    /// Condition 3.
    fn check_limits(&self) -> Result<(), Refusal> {
        let within = |records: &[Raw], class: u8| records.len() <= LIMITS[class as usize];
        let all_within = within(self.registers, class::REGISTER)
            && within(self.blocks, class::BLOCK)
            && within(self.bodies, class::BODY)
            && within(self.code, class::INSTRUCTION)
            && within(self.operands, class::OPERAND)
            && within(self.arms, class::ARM);
        if !all_within || self.blocks.is_empty() {
            return refuse(3, 0);
        }
        Ok(())
    }

    /// Condition 4.
    fn check_tiling(&self) -> Result<(), Refusal> {
        let mut end_before = 0;
        for (block, (start, end)) in self.block_bounds().enumerate() {
            if start != end_before || end <= start || end > self.code.len() {
                return refuse(4, self.block_record(block));
            }
            end_before = end;
        }
        if end_before != self.code.len() {
            return refuse(4, self.block_record(self.blocks.len() - 1));
        }
        Ok(())
    }

    /// Condition 5, where 4 holds.
    fn check_terminators(&self) -> Result<(), Refusal> {
        for (block, (start, end)) in self.block_bounds().enumerate() {
            let first = self.code[start..end].iter().position(|raw| is_terminator(raw[1]));
            if first != Some(end - start - 1) {
                return refuse(5, self.block_record(block));
            }
        }
        Ok(())
    }

    /// Condition 6; the number of tables.
    fn check_tables(&self) -> Result<u32, Refusal> {
        let mut due = 0;
        let mut open = false;
        for (arm, raw) in self.arms.iter().enumerate() {
            let record = Record::decode(raw);
            if record.p[0] != due {
                return refuse(6, self.arm_record(arm));
            }
            open = record.kind != DEFAULT;
            if !open {
                due += 1;
            }
        }
        if open {
            return refuse(6, self.arm_record(self.arms.len() - 1));
        }
        Ok(due)
    }

    /// Condition 7.
    fn check_existence(&self, tables: u32) -> Result<(), Refusal> {
        let blocks = self.blocks.len() as u32;
        let registers = self.registers.len() as u32;
        for (body, raw) in self.bodies.iter().enumerate() {
            if Record::decode(raw).p[0] >= blocks {
                return refuse(7, self.body_record(body));
            }
        }
        for (place, raw) in self.code.iter().enumerate() {
            if !self.names_exist(&Record::decode(raw), tables) {
                return refuse(7, self.code_record(place));
            }
        }
        for (operand, raw) in self.operands.iter().enumerate() {
            if Record::decode(raw).p[0] >= registers {
                return refuse(7, self.operand_record(operand));
            }
        }
        for (arm, raw) in self.arms.iter().enumerate() {
            if Record::decode(raw).p[5] >= blocks {
                return refuse(7, self.arm_record(arm));
            }
        }
        Ok(())
    }

    /// Whether every register, block, table and list that an instruction names exists.
    fn names_exist(&self, instruction: &Record, tables: u32) -> bool {
        let p = &instruction.p;
        let registers =
            |fields: &[u32]| fields.iter().all(|&r| (r as usize) < self.registers.len());
        let block = |b: u32| (b as usize) < self.blocks.len();
        let list =
            |start: u32, length: u32| start as u64 + length as u64 <= self.operands.len() as u64;
        match instruction.kind {
            kind::CONST | kind::CONST_F | kind::ADDR_OF => registers(&p[..1]),
            kind::MOVE | kind::LOAD | kind::STORE | kind::ALLOC | kind::DOPE_LEN => {
                registers(&p[..2])
            }
            kind::CMP | kind::BOOL | kind::BIN | kind::CHECK | kind::TAKE_BOUNDS => {
                registers(&p[..3])
            }
            kind::SELECT | kind::BOUNDS_LEN => registers(&p[..4]),
            kind::BIN_RANGE => registers(&p[..5]),
            kind::MAKE_DOPE => registers(&p[..1]) && list(p[1], p[2]),
            kind::CALL_NATIVE => {
                list(p[1], p[2]) && (instruction.op == op::WITHOUT || registers(&p[3..4]))
            }
            kind::BR => block(p[0]),
            kind::COND_BR => registers(&p[..1]) && block(p[1]) && block(p[2]),
            kind::CASE => registers(&p[..1]) && p[1] < tables,
            kind::RET => instruction.op == op::WITHOUT || registers(&p[..1]),
            _ => true,
        }
    }

    /// Start and end of each block.
    pub fn block_bounds(&self) -> impl Iterator<Item = (usize, usize)> + 'a {
        self.blocks.iter().map(|raw| {
            let record = Record::decode(raw);
            (record.p[0] as usize, record.p[1] as usize)
        })
    }

    fn block_record(&self, block: usize) -> usize {
        self.registers.len() + block
    }

    fn body_record(&self, body: usize) -> usize {
        self.block_record(self.blocks.len()) + body
    }

    fn code_record(&self, place: usize) -> usize {
        self.body_record(self.bodies.len()) + place
    }

    fn operand_record(&self, operand: usize) -> usize {
        self.code_record(self.code.len()) + operand
    }

    fn arm_record(&self, arm: usize) -> usize {
        self.operand_record(self.operands.len()) + arm
    }
}

/// Condition 1.
fn whole_records(bytes: &[u8]) -> Result<&[Raw], Refusal> {
    match bytes.as_chunks::<RECORD_BYTES>() {
        (records, []) if bytes.len() <= MAX_BYTES => Ok(records),
        _ => refuse(1, 0),
    }
}

/// Whether a record is right in itself.
fn well_formed(record: &Record) -> bool {
    record.zero == 0
        && match record.class {
            class::REGISTER => record.kind < REGISTER_KINDS && is_plain(record, 0),
            class::BLOCK => record.kind == 0 && is_plain(record, 2),
            class::BODY | class::OPERAND => record.kind == 0 && is_plain(record, 1),
            class::INSTRUCTION => instruction_well_formed(record),
            class::ARM => is_plain(record, 6) && arm_well_formed(record),
            _ => false,
        }
}

/// Neither op nor statement, and no field after the first `fields`.
fn is_plain(record: &Record, fields: usize) -> bool {
    record.op == 0 && record.statement == 0 && zero_from(record, fields)
}

fn zero_from(record: &Record, field: usize) -> bool {
    record.p[field..].iter().all(|&p| p == 0)
}

fn arm_well_formed(arm: &Record) -> bool {
    match arm.kind {
        0 => true,
        DEFAULT => arm.p[1..5] == [0; 4],
        _ => false,
    }
}

fn instruction_well_formed(instruction: &Record) -> bool {
    if instruction.kind >= KINDS {
        return false;
    }
    let shape = &SHAPES[instruction.kind as usize];
    let p = &instruction.p;
    instruction.op < shape.ops
        && zero_from(instruction, shape.fields)
        && match instruction.kind {
            kind::ADDR_OF => match instruction.op {
                op::UP => p[1] <= 255,
                op::PKG | op::CONST => true,
                _ => p[1] == 0,
            },
            kind::DOPE_LEN => p[2] <= 255,
            kind::CALL_NATIVE => instruction.op == op::WITH || p[3] == 0,
            kind::RET => instruction.op == op::WITH || p[0] == 0,
            _ => true,
        }
}
