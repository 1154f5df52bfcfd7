//! A procedure under construction: blocks of instructions, laid out at the end.

use crate::procedure::{Procedure, Table};
use crate::record::{INSTRUCTION, Record, halves, kind};

#[derive(Clone, Default)]
pub struct Draft {
    pub registers: Vec<u8>,
    pub blocks: Vec<Vec<Record>>,
    pub body: Option<u32>,
    pub operands: Vec<u32>,
    pub tables: Vec<Table>,
}

impl Draft {
    pub fn procedure(&self) -> Procedure {
        let mut start = 0;
        let mut ranges = Vec::new();
        for b in &self.blocks {
            let end = start + b.len() as u32;
            ranges.push((start, end));
            start = end;
        }
        Procedure {
            registers: self.registers.clone(),
            blocks: ranges,
            body: self.body,
            code: self.blocks.concat(),
            operands: self.operands.clone(),
            tables: self.tables.clone(),
        }
    }

    pub fn bytes(&self) -> Vec<u8> {
        self.procedure().bytes()
    }

    pub fn instructions(&self) -> usize {
        self.blocks.iter().map(Vec::len).sum()
    }

    /// Statements `from`, `from + 1`, ... in file order.
    pub fn with_statements(mut self, from: u32) -> Draft {
        for (k, i) in self.blocks.iter_mut().flatten().enumerate() {
            i.statement = from + k as u32;
        }
        self
    }
}

/// An instruction with statement 0.
pub fn ins(kind: u8, op: u8, places: &[u32]) -> Record {
    Record::new(INSTRUCTION, kind, op, 0, places)
}

pub fn br(to: u32) -> Record {
    ins(kind::BR, 0, &[to])
}

pub fn cond_br(c: u32, t: u32, f: u32) -> Record {
    ins(kind::COND_BR, 0, &[c, t, f])
}

pub fn ret() -> Record {
    ins(kind::RET, 0, &[])
}

pub fn stmt() -> Record {
    ins(kind::STMT, 0, &[])
}

pub fn constant(dst: u32, v: i64) -> Record {
    let [low, high] = halves(v as u64);
    ins(kind::CONST, 0, &[dst, low, high])
}

pub fn constant_f(dst: u32, bits: u64) -> Record {
    let [low, high] = halves(bits);
    ins(kind::CONST_F, 0, &[dst, low, high])
}

pub fn mov(dst: u32, src: u32) -> Record {
    ins(kind::MOVE, 0, &[dst, src])
}

pub fn cmp(op: u8, dst: u32, a: u32, b: u32) -> Record {
    ins(kind::CMP, op, &[dst, a, b])
}

pub fn boolean(op: u8, dst: u32, a: u32, b: u32) -> Record {
    ins(kind::BOOL, op, &[dst, a, b])
}
