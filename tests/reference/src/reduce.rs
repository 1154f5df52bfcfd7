//! The smallest file that keeps a property: what can be taken away is taken away, step by step.

use crate::procedure::Procedure;
use crate::read;
use crate::record::*;

/// A file from which nothing more can be taken without losing the property.
pub fn reduced(bytes: &[u8], keeps: impl Fn(&[u8]) -> bool) -> Vec<u8> {
    let mut file = bytes.to_vec();
    loop {
        let before = file.len();
        for part in PARTS {
            for at in (0..count(&file, part)).rev() {
                let less = without(&file, part, at);
                if less.len() < file.len() && keeps(&less) {
                    file = less;
                }
            }
        }
        if file.len() == before {
            return file;
        }
    }
}

/// A file's first records, one a line: class, kind, op, statement, places.
pub fn told(bytes: &[u8]) -> String {
    let records = bytes.chunks_exact(RECORD).take(60).map(Record::from_bytes);
    records.map(|r| format!("  {} {} {} {} {:?}\n", r.class, r.kind, r.op, r.statement, r.p)).collect()
}

/// What is taken away: of a refused file single records, of an accepted one a part of the
/// procedure, with all else renumbered.
#[derive(Clone, Copy, PartialEq, Eq)]
enum Part {
    Record,
    Block,
    Instruction,
    Register,
    Body,
    Operand,
    Table,
}

const PARTS: [Part; 7] =
    [Part::Record, Part::Block, Part::Instruction, Part::Register, Part::Body, Part::Operand, Part::Table];

fn count(bytes: &[u8], part: Part) -> usize {
    let class = match part {
        Part::Record => return bytes.len() / RECORD,
        Part::Register => REGISTER,
        Part::Block => BLOCK,
        Part::Body => BODY,
        Part::Instruction => INSTRUCTION,
        Part::Operand => OPERAND,
        Part::Table => ARM,
    };
    bytes.chunks_exact(RECORD).filter(|r| r[0] == class).count()
}

/// The file without that part, or as it is where it can't do without.
fn without(bytes: &[u8], part: Part, at: usize) -> Vec<u8> {
    let accepted = read::read(bytes).is_ok();
    if accepted == (part == Part::Record) {
        return bytes.to_vec();
    }
    if part == Part::Record {
        return [&bytes[..at * RECORD], &bytes[(at + 1).min(bytes.len() / RECORD) * RECORD..]].concat();
    }
    let p = Procedure::from_bytes(bytes);
    let less = match part {
        Part::Block if at < p.blocks.len() && p.blocks.len() > 1 => Some(without_block(&p, at)),
        Part::Instruction if at < p.code.len() => without_instruction(&p, at),
        Part::Register if at < p.registers.len() => without_register(&p, at as u32),
        Part::Body => Some(Procedure { body: None, ..p }),
        Part::Operand if at < p.operands.len() => Some(Procedure { operands: p.operands[..at].to_vec(), ..p }),
        Part::Table if at < p.tables.len() => Some(Procedure { tables: p.tables[..at].to_vec(), ..p }),
        _ => None,
    };
    less.map(|p| p.bytes()).filter(|less| read::read(less).is_ok()).unwrap_or_else(|| bytes.to_vec())
}

/// Without instruction `at`, unless it is its block's last.
fn without_instruction(p: &Procedure, at: usize) -> Option<Procedure> {
    let mut less = p.clone();
    if less.code[at].is_terminator() {
        return None;
    }
    less.code.remove(at);
    for (start, end) in &mut less.blocks {
        *start -= u32::from(*start as usize > at);
        *end -= u32::from(*end as usize > at);
    }
    Some(less)
}

/// Without block `b`; what led there leads to the block after it, or to the one before.
fn without_block(p: &Procedure, b: usize) -> Procedure {
    let mut less = p.clone();
    let (start, end) = less.blocks.remove(b);
    less.code.drain(start as usize..end as usize);
    for (s, e) in &mut less.blocks[b..] {
        *s -= end - start;
        *e -= end - start;
    }
    let last = less.blocks.len().saturating_sub(1) as u32;
    let turn = |t: &mut u32| *t = if *t > b as u32 { *t - 1 } else { *t }.min(last);
    for i in &mut less.code {
        let all = places(i.kind, i.op).expect("an accepted file");
        (0..6).filter(|&k| all[k] == Place::Block).for_each(|k| turn(&mut i.p[k]));
    }
    for t in &mut less.tables {
        t.arms.iter_mut().for_each(|a| turn(&mut a.2));
        turn(&mut t.default);
    }
    less.body.iter_mut().for_each(turn);
    less
}

/// Without register `r`, which must be named nowhere.
fn without_register(p: &Procedure, r: u32) -> Option<Procedure> {
    let mut less = p.clone();
    let mut named = false;
    let mut turn = |x: &mut u32| {
        named |= *x == r;
        *x -= u32::from(*x > r);
    };
    for i in &mut less.code {
        let all = places(i.kind, i.op).expect("an accepted file");
        let register = |k: &usize| matches!(all[*k], Place::Written | Place::Read | Place::Unread);
        (0..6).filter(register).for_each(|k| turn(&mut i.p[k]));
    }
    less.operands.iter_mut().for_each(&mut turn);
    less.registers.remove(r as usize);
    (!named).then_some(less)
}

#[cfg(test)]
mod tests {
    use super::*;
    use crate::cases::cases;

    /// What is left of the printed procedure while it has a CondBr.
    #[test]
    fn only_what_matters_is_left() {
        let printed = cases().remove(0).bytes;
        let has_cond_br = |bytes: &[u8]| {
            bytes.chunks_exact(RECORD).map(Record::from_bytes).any(|r| (r.class, r.kind) == (4, kind::COND_BR))
        };
        let left = reduced(&printed, has_cond_br);
        assert_eq!(left.len(), 3 * RECORD);
        assert!(read::read(&left).is_ok());
    }

    #[test]
    fn a_refused_file_loses_single_records() {
        let falls = cases().into_iter().find(|c| c.name == "class-falls").expect("a named case").bytes;
        let left = reduced(&falls, |bytes| read::read(bytes).is_err_and(|(number, _)| number == 2));
        assert_eq!(left.len(), 2 * RECORD);
    }
}
