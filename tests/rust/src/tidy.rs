//! Tidy: the seven refusals of Read, then yes, or no with the lowest offending register.

use crate::reader::Procedure;
use crate::record::{kind, op, Record};

/// Number, record, tidy and register of the answer.
pub fn tidy(bytes: &[u8]) -> (u32, u32, u32, u32) {
    match Procedure::read(bytes) {
        Err(refusal) => (refusal.number, refusal.record, 0, 0),
        Ok(procedure) => match lowest_offender(&procedure) {
            None => (0, 0, 1, 0),
            Some(register) => (0, 0, 0, register),
        },
    }
}

/// The register fields that an instruction writes.
fn written(instruction: &Record) -> &[u32] {
    let p = &instruction.p;
    match instruction.kind {
        kind::TAKE_BOUNDS => &p[..3],
        kind::CALL_NATIVE if instruction.op == op::WITH => &p[3..4],
        kind::STORE | kind::CHECK | kind::MAKE_DOPE | kind::CALL_NATIVE => &[],
        kind::BR..=kind::STMT => &[],
        _ => &p[..1],
    }
}

/// The register fields that an instruction reads; its list is read too.
fn read_fields(instruction: &Record) -> &[u32] {
    let p = &instruction.p;
    match instruction.kind {
        kind::MOVE | kind::LOAD | kind::DOPE_LEN | kind::ALLOC => &p[1..2],
        kind::BOOL if instruction.op == op::NOT => &p[1..2],
        kind::CMP | kind::BOOL | kind::BIN => &p[1..3],
        kind::SELECT | kind::BOUNDS_LEN => &p[1..4],
        kind::BIN_RANGE => &p[1..5],
        kind::STORE => &p[..2],
        kind::CHECK => match instruction.op {
            op::NULL => &p[..1],
            op::LENGTH => &p[..2],
            _ => &p[..3],
        },
        kind::MAKE_DOPE | kind::COND_BR | kind::CASE => &p[..1],
        kind::RET if instruction.op == op::WITH => &p[..1],
        _ => &[],
    }
}

/// Start and length of an instruction's list; one without has an empty list.
fn list(instruction: &Record) -> (usize, usize) {
    match instruction.kind {
        kind::MAKE_DOPE | kind::CALL_NATIVE => {
            (instruction.p[1] as usize, instruction.p[2] as usize)
        }
        _ => (0, 0),
    }
}

/// Where and by which kind a register is written.
#[derive(Clone, Copy)]
enum Write {
    None,
    Once { block: usize, place: usize, kind: u8 },
    Many,
}

/// A procedure taken apart for the questions of Tidy.
struct Parts {
    bounds: Vec<(usize, usize)>,
    code: Vec<Record>,
    operands: Vec<u32>,
    writes: Vec<Write>,
}

impl Parts {
    fn new(procedure: &Procedure) -> Parts {
        let mut parts = Parts {
            bounds: procedure.block_bounds().collect(),
            code: procedure.code.iter().map(Record::decode).collect(),
            operands: procedure.operands.iter().map(|raw| Record::decode(raw).p[0]).collect(),
            writes: vec![Write::None; procedure.registers.len()],
        };
        parts.find_writes();
        parts
    }

    fn find_writes(&mut self) {
        for (block, &(start, end)) in self.bounds.iter().enumerate() {
            for place in start..end {
                let instruction = &self.code[place];
                for &register in written(instruction) {
                    let write = &mut self.writes[register as usize];
                    *write = match write {
                        Write::None => Write::Once { block, place, kind: instruction.kind },
                        _ => Write::Many,
                    };
                }
            }
        }
    }

    /// The registers that an instruction reads.
    fn reads<'a>(&'a self, instruction: &'a Record) -> impl Iterator<Item = u32> + 'a {
        let (start, length) = list(instruction);
        let operands = &self.operands[start..start + length];
        read_fields(instruction).iter().chain(operands).copied()
    }
}

fn lowest_offender(procedure: &Procedure) -> Option<u32> {
    let parts = Parts::new(procedure);
    let mut leads = Leads::new(&parts);
    let mut lowest = None;
    for (block, &(start, end)) in parts.bounds.iter().enumerate() {
        for place in start..end {
            for register in parts.reads(&parts.code[place]) {
                let lower = lowest.is_none_or(|lowest| register < lowest);
                let write = parts.writes[register as usize];
                if lower && offends(write, block, place, &mut leads) {
                    lowest = Some(register);
                }
            }
        }
    }
    lowest
}

/// Whether a read at that place offends, by how its register is written.
fn offends(write: Write, read_block: usize, read_place: usize, leads: &mut Leads) -> bool {
    let Write::Once { block, place, kind } = write else { return false };
    match kind {
        kind::CONST | kind::CONST_F => false,
        kind::ADDR_OF if read_block == block => read_place < place,
        kind::ADDR_OF => leads.lead(read_block, block),
        _ => read_block != block || read_place <= place,
    }
}

/// Which blocks lead to which over targets of Br and CondBr alone.
struct Leads {
    sources: Vec<Vec<usize>>,
    leading_to: Vec<Option<Vec<bool>>>,
}

impl Leads {
    fn new(parts: &Parts) -> Leads {
        let mut sources = vec![Vec::new(); parts.bounds.len()];
        for (block, &(_, end)) in parts.bounds.iter().enumerate() {
            let last = &parts.code[end - 1];
            let targets = match last.kind {
                kind::BR => &last.p[..1],
                kind::COND_BR => &last.p[1..3],
                _ => &[],
            };
            for &target in targets {
                sources[target as usize].push(block);
            }
        }
        Leads { leading_to: vec![None; sources.len()], sources }
    }

    /// Whether one block leads to another; each target's answer is worked out once.
    fn lead(&mut self, from: usize, to: usize) -> bool {
        let Leads { sources, leading_to } = self;
        leading_to[to].get_or_insert_with(|| all_leading_to(sources, to))[from]
    }
}

fn all_leading_to(sources: &[Vec<usize>], to: usize) -> Vec<bool> {
    let mut leading = vec![false; sources.len()];
    let mut waiting = vec![to];
    while let Some(block) = waiting.pop() {
        for &source in &sources[block] {
            if !leading[source] {
                leading[source] = true;
                waiting.push(source);
            }
        }
    }
    leading
}

#[cfg(test)]
mod tests {
    use super::*;
    use crate::generate::{valid, Counts};
    use crate::generate_tidy::TidyFile;
    use crate::rng::Rng;

    /// The definition taken word by word, with the lead of blocks closed step by step.
    fn slow(procedure: &Procedure) -> Option<u32> {
        let parts = Parts::new(procedure);
        let blocks = parts.bounds.len();
        let block_of = |place: usize| {
            parts.bounds.iter().position(|&(start, end)| (start..end).contains(&place)).unwrap()
        };
        let mut lead = vec![vec![false; blocks]; blocks];
        for (block, &(_, end)) in parts.bounds.iter().enumerate() {
            let last = &parts.code[end - 1];
            match last.kind {
                kind::BR => lead[block][last.p[0] as usize] = true,
                kind::COND_BR => {
                    lead[block][last.p[1] as usize] = true;
                    lead[block][last.p[2] as usize] = true;
                }
                _ => {}
            }
        }
        for middle in 0..blocks {
            for from in 0..blocks {
                for to in 0..blocks {
                    lead[from][to] |= lead[from][middle] && lead[middle][to];
                }
            }
        }
        let places_with = |register: u32, fields: &dyn Fn(&Record) -> Vec<u32>| -> Vec<usize> {
            let times = |place: usize| {
                let fields = fields(&parts.code[place]);
                fields.iter().filter(|&&field| field == register).count()
            };
            (0..parts.code.len()).flat_map(|place| vec![place; times(place)]).collect()
        };
        (0..parts.writes.len() as u32).find(|&register| {
            let writes = places_with(register, &|instruction| written(instruction).to_vec());
            let reads = places_with(register, &|instruction| parts.reads(instruction).collect());
            let &[write] = writes.as_slice() else { return false };
            let same_block = |read: usize| block_of(read) == block_of(write);
            match parts.code[write].kind {
                kind::CONST | kind::CONST_F => false,
                kind::ADDR_OF => reads.iter().any(|&read| {
                    if same_block(read) {
                        read < write
                    } else {
                        lead[block_of(read)][block_of(write)]
                    }
                }),
                _ => !reads.iter().all(|&read| same_block(read) && read > write),
            }
        })
    }

    fn compare(bytes: &[u8]) {
        let procedure = Procedure::read(bytes).unwrap();
        assert_eq!(lowest_offender(&procedure), slow(&procedure));
    }

    #[test]
    fn what_was_put_in_is_found() {
        for seed in 0..20_000 {
            let file = TidyFile::any(&mut Rng::new(seed));
            let due = match file.due() {
                None => (0, 0, 1, 0),
                Some(register) => (0, 0, 0, register),
            };
            assert_eq!(tidy(&file.procedure.bytes()), due, "seed {seed}, {:?}", file.met);
        }
    }

    #[test]
    fn the_definition_word_by_word_agrees() {
        for seed in 0..4000 {
            let mut rng = Rng::new(seed);
            let counts = Counts::any(&mut rng);
            if counts.instructions <= 100 {
                compare(&valid(&mut rng, &counts));
            }
            let file = TidyFile::any(&mut rng);
            if file.procedure.blocks.len() <= 40 {
                compare(&file.procedure.bytes());
            }
        }
    }
}
