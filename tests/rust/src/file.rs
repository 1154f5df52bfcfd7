//! Files written record by record from readable code.

use crate::record::{class, Record, DEFAULT};

/// The record of a register.
pub fn register(kind: u8) -> Record {
    Record { class: class::REGISTER, kind, ..Record::default() }
}

/// The record of a block.
pub fn block(start: u32, end: u32) -> Record {
    Record { class: class::BLOCK, p: [start, end, 0, 0, 0, 0], ..Record::default() }
}

/// The record of the body.
pub fn body(block: u32) -> Record {
    Record { class: class::BODY, p: [block, 0, 0, 0, 0, 0], ..Record::default() }
}

/// The record of an instruction with op 0 and the fields given, the others zero.
pub fn inst(kind: u8, fields: &[u32]) -> Record {
    let mut p = [0; 6];
    p[..fields.len()].copy_from_slice(fields);
    Record { class: class::INSTRUCTION, kind, p, ..Record::default() }
}

/// The record of an operand.
pub fn operand(register: u32) -> Record {
    Record { class: class::OPERAND, p: [register, 0, 0, 0, 0, 0], ..Record::default() }
}

/// The record of an arm.
pub fn arm(table: u32, low: i64, high: i64, target: u32) -> Record {
    let p = [table, low as u32, (low >> 32) as u32, high as u32, (high >> 32) as u32, target];
    Record { class: class::ARM, p, ..Record::default() }
}

/// The record of a default arm.
pub fn default(table: u32, target: u32) -> Record {
    Record { kind: DEFAULT, ..arm(table, 0, 0, target) }
}

impl Record {
    pub fn with_op(self, op: u8) -> Record {
        Record { op, ..self }
    }

    pub fn at(self, statement: u32) -> Record {
        Record { statement, ..self }
    }

    pub fn with_field(mut self, field: usize, value: u32) -> Record {
        self.p[field] = value;
        self
    }
}

/// The bytes of records in their order.
pub fn bytes(records: &[Record]) -> Vec<u8> {
    records.iter().flat_map(Record::encode).collect()
}

/// A procedure by its blocks; starts and ends follow from their code.
#[derive(Clone, Default)]
pub struct Procedure {
    pub registers: Vec<u8>,
    pub blocks: Vec<Vec<Record>>,
    pub body: Option<u32>,
    pub operands: Vec<u32>,
    pub arms: Vec<Record>,
}

impl Procedure {
    pub fn bytes(&self) -> Vec<u8> {
        let mut records: Vec<Record> = self.registers.iter().map(|&kind| register(kind)).collect();
        let mut start = 0;
        for code in &self.blocks {
            let end = start + code.len() as u32;
            records.push(block(start, end));
            start = end;
        }
        records.extend(self.body.map(body));
        records.extend(self.blocks.iter().flatten());
        records.extend(self.operands.iter().map(|&register| operand(register)));
        records.extend(&self.arms);
        bytes(&records)
    }
}
