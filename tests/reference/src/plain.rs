//! For the benchmark: the published `run` with a plain reader and writer around it, from bytes into
//! a buffer, with one pass over the records after Read; and `run` alone.

use crate::inst::{Reg, RegTy};
use crate::library::Shortening;
use crate::procedure::Procedure;
use crate::program::*;
use crate::read::Refusal;
use crate::record::*;
use crate::shorten::{MAX_INSTRUCTIONS, MAX_REGISTERS, REG_TYPES, case_table, func, inst, record};
use crate::{opt, probe};

/// From the counts of classes 1 to 6 that a reader gives, or its refusal.
pub fn shorten_into(read: impl Fn(&[u8]) -> Result<[usize; 6], Refusal>, bytes: &[u8], out: &mut [u8]) -> Shortening {
    let refused = |number, record| Shortening { number, record, ..Shortening::default() };
    let count = match read(bytes) {
        Ok(count) => count,
        Err((number, record)) => return refused(number, record),
    };
    if count[0] > MAX_REGISTERS || count[3] > MAX_INSTRUCTIONS {
        return refused(8, 0);
    }
    let (prog, mut f) = parsed(bytes, &count);
    probe::take();
    let moved = opt::run(&prog, &mut f);
    let counts = probe::take();
    let body = count[2] * RECORD;
    let rest = (count[4] + count[5]) * RECORD;
    let length = (f.reg_ty.len() + f.blocks.len() + f.code.len()) * RECORD + body + rest;
    if length > out.len() {
        return refused(9, 0);
    }
    let mut writer = Writer { out, at: 0 };
    f.reg_ty.iter().for_each(|t| writer.put(&Record::new(REGISTER, register_kind(*t), 0, 0, &[])));
    f.blocks.values().iter().for_each(|b| writer.put(&Record::new(BLOCK, 0, 0, 0, &[b.start, b.end])));
    let sent = (count[0] + count[1]) * RECORD;
    writer.copy(&bytes[sent..sent + body]);
    f.code.iter().zip(&f.loc).for_each(|(i, s)| writer.put(&record(i, s.0)));
    writer.copy(&bytes[bytes.len() - rest..]);
    let probe::Counts { grown, fresh, rescued } = counts;
    Shortening { number: 0, record: 0, length, moved: u32::from(moved), grown, fresh, rescued }
}

fn register_kind(t: RegTy) -> u8 {
    REG_TYPES.iter().position(|x| *x == t).expect("a listed kind") as u8
}

fn parsed(bytes: &[u8], count: &[usize; 6]) -> (Program, Func) {
    let mut f = Func {
        reg_ty: Vec::with_capacity(count[0]),
        blocks: Numbered(Vec::with_capacity(count[1])),
        code: Vec::with_capacity(count[3]),
        loc: Vec::with_capacity(count[3]),
        operands: Vec::with_capacity(count[4]),
        body: None,
    };
    let mut cases = Vec::new();
    let mut arms = Vec::new();
    for r in bytes.chunks_exact(RECORD).map(Record::from_bytes) {
        match r.class {
            REGISTER => f.reg_ty.push(REG_TYPES[r.kind as usize]),
            BLOCK => f.blocks.0.push(Block { start: r.p[0], end: r.p[1] }),
            BODY => f.body = Some(BlockId(r.p[0])),
            INSTRUCTION => {
                f.code.push(inst(&r));
                f.loc.push(StmtId(r.statement));
            }
            OPERAND => f.operands.push(Reg(r.p[0])),
            _ if r.kind == 0 => arms.push((r.wide(2) as i64, r.wide(4) as i64, BlockId(r.p[5]))),
            _ => cases.push(CaseTable { arms: std::mem::take(&mut arms), default: BlockId(r.p[5]) }),
        }
    }
    (Program { cases: Numbered(cases) }, f)
}

struct Writer<'a> {
    out: &'a mut [u8],
    at: usize,
}

impl Writer<'_> {
    fn put(&mut self, r: &Record) {
        let to = &mut self.out[self.at..self.at + RECORD];
        to[..4].copy_from_slice(&[r.class, r.kind, r.op, r.zero]);
        to[4..8].copy_from_slice(&r.statement.to_le_bytes());
        for (place, word) in to[8..].chunks_exact_mut(4).zip(r.p) {
            place.copy_from_slice(&word.to_le_bytes());
        }
        self.at += RECORD;
    }

    fn copy(&mut self, records: &[u8]) {
        self.out[self.at..self.at + records.len()].copy_from_slice(records);
        self.at += records.len();
    }
}

/// A procedure ready for `run`.
pub struct Ready(Program, Func);

impl Ready {
    /// Of a file that Read accepts.
    pub fn new(bytes: &[u8]) -> Ready {
        let p = Procedure::from_bytes(bytes);
        Ready(Program { cases: Numbered(p.tables.iter().map(case_table).collect()) }, func(&p))
    }

    /// A copy of the function, which `run` changes in place.
    pub fn copy(&self) -> impl Sized {
        self.1.clone()
    }

    pub fn copy_and_run(&self) -> impl Sized {
        let mut f = self.1.clone();
        let moved = opt::run(&self.0, &mut f);
        (moved, f)
    }
}

#[cfg(test)]
mod tests {
    use super::*;
    use crate::cases::cases;
    use crate::generate::{FAMILIES, file};
    use crate::read::read;
    use crate::shorten::shorten;

    #[test]
    fn it_agrees_with_the_reference() {
        let drawn = FAMILIES.iter().flat_map(|family| (0..50).map(|seed| file(family, seed)));
        for bytes in cases().into_iter().map(|c| c.bytes).chain(drawn) {
            let answer = shorten(&bytes, 65_536);
            let mut out = vec![0; 65_536];
            assert_eq!(shorten_into(read, &bytes, &mut out), Shortening::from(&answer));
            assert_eq!(out[..answer.output.len()], answer.output[..]);
        }
    }
}
