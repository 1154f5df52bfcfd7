//! Tidy procedures, and reads put into them that break one clause of Tidy alone.

use crate::file::{arm, default, inst, Procedure};
use crate::record::{kind, op, Record};
use crate::rng::Rng;
use std::collections::VecDeque;

/// A way in which a register may be read.
#[derive(Clone, Copy, Debug, PartialEq, Eq)]
pub enum Clause {
    /// In another block than that which writes it.
    OtherBlock,
    /// Earlier in the block that writes it.
    Earlier,
    /// By the instruction that writes it.
    Itself,
    /// An address, earlier in its block.
    AddressEarlier,
    /// An address, in a block whose Br or CondBr targets its block.
    AddressNear,
    /// An address, in a block that leads to its block over others.
    AddressFar,
    /// Not at all: a register field that is listed and not read.
    NotRead,
    /// An address, in a block that leads to its block over a Case at best.
    AddressApart,
    /// A constant, anywhere.
    Constant,
    /// A register written more than once or never, anywhere.
    NotSingle,
    /// Later in the block that writes it.
    Later,
}

pub const CLAUSES: [Clause; 11] = [
    Clause::OtherBlock,
    Clause::Earlier,
    Clause::Itself,
    Clause::AddressEarlier,
    Clause::AddressNear,
    Clause::AddressFar,
    Clause::NotRead,
    Clause::AddressApart,
    Clause::Constant,
    Clause::NotSingle,
    Clause::Later,
];

impl Clause {
    pub fn offends(self) -> bool {
        matches!(
            self,
            Clause::OtherBlock
                | Clause::Earlier
                | Clause::Itself
                | Clause::AddressEarlier
                | Clause::AddressNear
                | Clause::AddressFar
        )
    }
}

/// The register fields that are read: kind, op, field.
const READ_FIELDS: [(u8, u8, usize); 35] = [
    (kind::MOVE, 0, 1),
    (kind::SELECT, 0, 1),
    (kind::SELECT, 0, 2),
    (kind::SELECT, 0, 3),
    (kind::CMP, 5, 1),
    (kind::CMP, 0, 2),
    (kind::BOOL, 0, 1),
    (kind::BOOL, 0, 2),
    (kind::BOOL, 1, 2),
    (kind::BOOL, 2, 2),
    (kind::BOOL, op::NOT, 1),
    (kind::BIN, 0, 1),
    (kind::BIN, 6, 2),
    (kind::BIN_RANGE, 0, 1),
    (kind::BIN_RANGE, 1, 2),
    (kind::BIN_RANGE, 2, 3),
    (kind::BIN_RANGE, 6, 4),
    (kind::LOAD, 3, 1),
    (kind::STORE, 0, 0),
    (kind::STORE, 3, 1),
    (kind::CHECK, op::RANGE, 0),
    (kind::CHECK, op::RANGE, 1),
    (kind::CHECK, op::RANGE, 2),
    (kind::CHECK, op::INDEX, 1),
    (kind::CHECK, op::INDEX, 2),
    (kind::CHECK, op::INDEX_DOWN, 2),
    (kind::CHECK, op::LENGTH, 0),
    (kind::CHECK, op::LENGTH, 1),
    (kind::CHECK, op::NULL, 0),
    (kind::MAKE_DOPE, 0, 0),
    (kind::DOPE_LEN, 0, 1),
    (kind::BOUNDS_LEN, 0, 1),
    (kind::BOUNDS_LEN, 0, 2),
    (kind::BOUNDS_LEN, 0, 3),
    (kind::ALLOC, 0, 1),
];

/// The register fields that are listed and neither read nor written.
const IDLE_FIELDS: [(u8, u8, usize); 4] = [
    (kind::BOOL, op::NOT, 2),
    (kind::CHECK, op::NULL, 1),
    (kind::CHECK, op::NULL, 2),
    (kind::CHECK, op::LENGTH, 2),
];

/// How a register of a tidy procedure is written.
#[derive(Clone, Copy, PartialEq)]
enum Role {
    /// Never.
    Unwritten,
    /// More than once.
    Many,
    /// Once by Const or ConstF, once by AddrOf, or once by another, in that block.
    Constant(usize),
    Address(usize),
    Local(usize),
}

/// A procedure with what was put into it.
pub struct TidyFile {
    pub procedure: Procedure,
    roles: Vec<Role>,
    /// The clauses that were met, with the register and, for addresses, the distance.
    pub met: Vec<(Clause, u32, usize)>,
}

impl TidyFile {
    /// A tidy procedure with a clause met, at times two.
    pub fn any(rng: &mut Rng) -> TidyFile {
        let blocks = match rng.below(100) {
            0..=69 => rng.between(1, 6),
            70..=97 => rng.between(4, 20),
            98 => rng.between(20, 80),
            _ => rng.between(100, 160),
        };
        let mut file = TidyFile::tidy(rng, blocks);
        let wanted = if rng.chance(1, 4) { 2 } else { 1 };
        for _ in 0..8 {
            if file.met.len() < wanted {
                let clause = rng.pick(&CLAUSES);
                file.meet(rng, clause);
            }
        }
        file
    }

    /// The lowest register that offends, from what was put in.
    pub fn due(&self) -> Option<u32> {
        let offending = self.met.iter().filter(|(clause, ..)| clause.offends());
        offending.map(|&(_, register, _)| register).min()
    }

    /// A tidy procedure of so many blocks.
    pub fn tidy(rng: &mut Rng, blocks: usize) -> TidyFile {
        let roles = roles(rng, blocks);
        let free = roles.iter().position(|&role| role == Role::Many).expect("there is one");
        let terminators = terminators(rng, blocks, free as u32);
        let procedure = Procedure {
            registers: roles.iter().map(|_| rng.below(5) as u8).collect(),
            blocks: terminators.into_iter().map(|terminator| vec![terminator]).collect(),
            body: rng.chance(1, 2).then(|| rng.below(blocks) as u32),
            operands: vec![],
            arms: arms(rng, blocks),
        };
        let mut file = TidyFile { procedure, roles, met: vec![] };
        file.fill(rng);
        file
    }

    fn registers_where(&self, holds: impl Fn(Role) -> bool) -> Vec<u32> {
        let all = 0..self.roles.len() as u32;
        all.filter(|&register| holds(self.roles[register as usize])).collect()
    }

    fn register_where(&self, rng: &mut Rng, holds: impl Fn(Role) -> bool) -> Option<u32> {
        let found = self.registers_where(holds);
        (!found.is_empty()).then(|| rng.pick(&found))
    }

    /// A register that is read and written anywhere.
    fn many(&self, rng: &mut Rng) -> u32 {
        self.register_where(rng, |role| role == Role::Many).expect("there is always one")
    }

    /// Writes every register as its role says, and reads some where that is tidy.
    fn fill(&mut self, rng: &mut Rng) {
        for register in 0..self.roles.len() as u32 {
            match self.roles[register as usize] {
                Role::Unwritten => {}
                Role::Many => self.write_often(rng, register),
                Role::Constant(block) => {
                    let kind = rng.pick(&[kind::CONST, kind::CONST_F]);
                    let record = inst(kind, &[register, rng.number(), rng.number()]);
                    self.insert(rng, block, record);
                }
                Role::Address(block) => {
                    let op = rng.pick(&[op::FRAME, op::INST, op::SHARED, op::PKG, op::UP]);
                    let record = inst(kind::ADDR_OF, &[register, 0, rng.number()]).with_op(op);
                    self.insert(rng, block, record);
                }
                Role::Local(block) => {
                    let record = self.local_write(rng, register);
                    self.insert(rng, block, record);
                }
            }
        }
        if rng.chance(1, 2) {
            let block = self.any_block(rng);
            self.insert(rng, block, inst(kind::STMT, &[]));
        }
    }

    fn write_often(&mut self, rng: &mut Rng, register: u32) {
        if rng.chance(1, 3) {
            let block = self.any_block(rng);
            return self.insert(rng, block, inst(kind::TAKE_BOUNDS, &[register; 3]));
        }
        for _ in 0..rng.between(2, 3) {
            let block = self.any_block(rng);
            let record = match rng.below(4) {
                0 => inst(kind::CONST, &[register, 1]),
                1 => inst(kind::ADDR_OF, &[register, 0, 1]),
                _ => self.local_write(rng, register),
            };
            self.insert(rng, block, record);
        }
    }

    /// An instruction that is no constant, writes a register and reads only what is free.
    fn local_write(&mut self, rng: &mut Rng, register: u32) -> Record {
        let free = self.many(rng);
        match rng.below(5) {
            0 => inst(kind::CALL_NATIVE, &[rng.number(), 0, 0, register]).with_op(op::WITH),
            1 => {
                let mut fields = [free; 3];
                fields[rng.below(3)] = register;
                inst(kind::TAKE_BOUNDS, &fields)
            }
            _ => loop {
                let (kind, op, _) = rng.pick(&READ_FIELDS);
                if writes_first_field(kind) {
                    return plain(kind, op, free).with_field(0, register);
                }
            },
        }
    }

    fn any_block(&self, rng: &mut Rng) -> usize {
        rng.below(self.procedure.blocks.len())
    }

    /// Puts an instruction somewhere before a block's terminator.
    fn insert(&mut self, rng: &mut Rng, block: usize, record: Record) {
        let place = rng.below(self.procedure.blocks[block].len());
        self.procedure.blocks[block].insert(place, record);
    }

    /// Meets a clause with some register that it fits, if there is one.
    fn meet(&mut self, rng: &mut Rng, clause: Clause) {
        match clause {
            Clause::OtherBlock => self.meet_other_block(rng),
            Clause::Earlier => self.meet_in_block(rng, clause, false),
            Clause::Later => self.meet_in_block(rng, clause, false),
            Clause::AddressEarlier => self.meet_in_block(rng, clause, true),
            Clause::Itself => self.meet_itself(rng),
            Clause::AddressNear | Clause::AddressFar | Clause::AddressApart => {
                self.meet_address(rng, clause)
            }
            Clause::NotRead => self.meet_not_read(rng),
            Clause::Constant | Clause::NotSingle => self.meet_anywhere(rng, clause),
        }
    }

    fn meet_other_block(&mut self, rng: &mut Rng) {
        let found = self.register_where(rng, |role| matches!(role, Role::Local(_)));
        let Some(register) = found else { return };
        let block = self.any_block(rng);
        if self.roles[register as usize] != Role::Local(block) {
            self.read_somewhere(rng, block, register);
            self.met.push((Clause::OtherBlock, register, 0));
        }
    }

    /// A read in the block of the write, before or after it.
    fn meet_in_block(&mut self, rng: &mut Rng, clause: Clause, address: bool) {
        let found = self.register_where(rng, |role| match role {
            Role::Address(_) => address,
            Role::Local(_) => !address,
            _ => false,
        });
        let Some(register) = found else { return };
        let (block, write) = self.place_of_write(register);
        let place = match clause {
            Clause::Later => rng.between(write + 1, self.procedure.blocks[block].len() - 1),
            _ => rng.between(0, write),
        };
        let record = self.read_of(rng, register);
        self.procedure.blocks[block].insert(place, record);
        self.met.push((clause, register, 0));
    }

    fn place_of_write(&self, register: u32) -> (usize, usize) {
        let (Role::Address(block) | Role::Local(block)) = self.roles[register as usize] else {
            unreachable!("only addresses and locals are asked for")
        };
        let writes = |record: &Record| match record.kind {
            kind::TAKE_BOUNDS => record.p[..3].contains(&register),
            kind::CALL_NATIVE => record.op == op::WITH && record.p[3] == register,
            kind => writes_first_field(kind) && record.p[0] == register,
        };
        let place = self.procedure.blocks[block].iter().position(writes);
        (block, place.expect("the role says so"))
    }

    /// Gives the writing instruction of a local a form that reads the register too.
    fn meet_itself(&mut self, rng: &mut Rng) {
        let found = self.register_where(rng, |role| matches!(role, Role::Local(_)));
        let Some(register) = found else { return };
        let (block, place) = self.place_of_write(register);
        let record = if rng.chance(1, 4) {
            let (start, length) = self.list_with(rng, register);
            inst(kind::CALL_NATIVE, &[3, start, length, register]).with_op(op::WITH)
        } else {
            loop {
                let (kind, op, field) = rng.pick(&READ_FIELDS);
                if writes_first_field(kind) && field > 0 {
                    let free = self.many(rng);
                    break plain(kind, op, free)
                        .with_field(0, register)
                        .with_field(field, register);
                }
            }
        };
        self.procedure.blocks[block][place] = record;
        self.met.push((Clause::Itself, register, 0));
    }

    fn meet_address(&mut self, rng: &mut Rng, clause: Clause) {
        let found = self.register_where(rng, |role| matches!(role, Role::Address(_)));
        let Some(register) = found else { return };
        let Role::Address(to) = self.roles[register as usize] else { return };
        let fits = |distance: usize| match clause {
            Clause::AddressNear => distance == 1,
            Clause::AddressFar => distance > 1,
            _ => distance == 0,
        };
        let distances = distances(&self.terminators(), to);
        let others = (0..distances.len()).filter(|&from| from != to);
        let fitting: Vec<usize> = others.filter(|&from| fits(distances[from])).collect();
        if !fitting.is_empty() {
            let from = rng.pick(&fitting);
            self.read_somewhere(rng, from, register);
            self.met.push((clause, register, distances[from]));
        }
    }

    fn terminators(&self) -> Vec<Record> {
        let last = |code: &Vec<Record>| *code.last().expect("no block is empty");
        self.procedure.blocks.iter().map(last).collect()
    }

    fn meet_not_read(&mut self, rng: &mut Rng) {
        let single = |role| matches!(role, Role::Local(_) | Role::Address(_));
        let Some(register) = self.register_where(rng, single) else { return };
        if rng.chance(1, 3) {
            self.procedure.operands.push(register);
        } else {
            let (kind, op, field) = rng.pick(&IDLE_FIELDS);
            let record = plain(kind, op, self.many(rng)).with_field(field, register);
            let block = self.any_block(rng);
            self.insert(rng, block, record);
        }
        self.met.push((Clause::NotRead, register, 0));
    }

    fn meet_anywhere(&mut self, rng: &mut Rng, clause: Clause) {
        let found = self.register_where(rng, |role| match role {
            Role::Constant(_) => clause == Clause::Constant,
            Role::Many | Role::Unwritten => clause == Clause::NotSingle,
            _ => false,
        });
        let Some(register) = found else { return };
        let block = self.any_block(rng);
        self.read_somewhere(rng, block, register);
        self.met.push((clause, register, 0));
    }

    /// Reads a register in a block, by its terminator at times.
    fn read_somewhere(&mut self, rng: &mut Rng, block: usize, register: u32) {
        let last = self.procedure.blocks[block].last_mut().expect("no block is empty");
        let reads =
            matches!((last.kind, last.op), (kind::COND_BR | kind::CASE, _) | (kind::RET, op::WITH));
        if reads && self.roles[last.p[0] as usize] == Role::Many && rng.chance(1, 3) {
            last.p[0] = register;
            return;
        }
        let record = self.read_of(rng, register);
        self.insert(rng, block, record);
    }

    /// An instruction that reads a register and otherwise only what is free.
    fn read_of(&mut self, rng: &mut Rng, register: u32) -> Record {
        let free = self.many(rng);
        if rng.chance(1, 8) {
            let (start, length) = self.list_with(rng, register);
            return match rng.below(3) {
                0 => inst(kind::MAKE_DOPE, &[free, start, length]),
                1 => inst(kind::CALL_NATIVE, &[rng.number(), start, length]),
                _ => inst(kind::CALL_NATIVE, &[1, start, length, free]).with_op(op::WITH),
            };
        }
        let (kind, op, field) = rng.pick(&READ_FIELDS);
        plain(kind, op, free).with_field(field, register)
    }

    /// A new list that has the register in it.
    fn list_with(&mut self, rng: &mut Rng, register: u32) -> (u32, u32) {
        let free = self.many(rng);
        let start = self.procedure.operands.len() as u32;
        let length = rng.between(1, 3);
        let place = rng.below(length);
        let list = (0..length).map(|at| if at == place { register } else { free });
        self.procedure.operands.extend(list);
        (start, length as u32)
    }
}

fn writes_first_field(kind: u8) -> bool {
    kind <= kind::LOAD || [kind::DOPE_LEN, kind::BOUNDS_LEN, kind::ALLOC].contains(&kind)
}

/// An instruction whose register fields all hold one register, and whose other fields are 0.
fn plain(kind: u8, op: u8, register: u32) -> Record {
    let registers = match kind {
        kind::MAKE_DOPE => 1,
        kind::MOVE | kind::LOAD | kind::STORE | kind::ALLOC | kind::DOPE_LEN => 2,
        kind::SELECT | kind::BOUNDS_LEN => 4,
        kind::BIN_RANGE => 5,
        _ => 3,
    };
    inst(kind, &vec![register; registers]).with_op(op)
}

/// Roles in any order; there is always a register written often.
fn roles(rng: &mut Rng, blocks: usize) -> Vec<Role> {
    let mut roles = vec![Role::Many];
    for _ in 0..rng.between(1, blocks.min(20) + 2) {
        let block = rng.below(blocks);
        roles.push(match rng.below(12) {
            0 => Role::Unwritten,
            1 => Role::Many,
            2 => Role::Constant(block),
            3..=6 => Role::Address(block),
            _ => Role::Local(block),
        });
    }
    let last = roles.len() - 1;
    roles.swap(rng.between(0, last), 0);
    roles
}

/// The last instruction of each block, at random or mostly a chain up or down. They read one
/// register that is free.
fn terminators(rng: &mut Rng, blocks: usize, free: u32) -> Vec<Record> {
    let direction = rng.below(3);
    let looseness = match direction {
        0 => 7,
        _ => rng.pick(&[20, 1000]),
    };
    (0..blocks)
        .map(|block| {
            let any = rng.below(blocks) as u32;
            let other = rng.below(blocks) as u32;
            let next = match direction {
                0 => any,
                1 => ((block + 1) % blocks) as u32,
                _ => ((block + blocks - 1) % blocks) as u32,
            };
            match rng.below(looseness) {
                0 => inst(kind::RET, &[]),
                1 => inst(kind::UNREACHABLE, &[4]),
                2 => inst(kind::CASE, &[free, rng.below(2) as u32]),
                3 => inst(kind::COND_BR, &[free, other, next]),
                4 => inst(kind::COND_BR, &[free, next, other]),
                5 => inst(kind::RET, &[free]).with_op(op::WITH),
                _ => inst(kind::BR, &[next]),
            }
        })
        .collect()
}

/// Two tables, so that every Case has one.
fn arms(rng: &mut Rng, blocks: usize) -> Vec<Record> {
    let mut block = || rng.below(blocks) as u32;
    vec![arm(0, 0, 3, block()), default(0, block()), arm(1, 1, 1, block()), default(1, block())]
}

/// For each block the fewest targets of Br and CondBr from it to `to`, at least one; 0 where
/// none lead there.
fn distances(terminators: &[Record], to: usize) -> Vec<usize> {
    let mut distances = vec![0; terminators.len()];
    let mut reached = VecDeque::from([(to, 0)]);
    while let Some((target, distance)) = reached.pop_front() {
        for (block, last) in terminators.iter().enumerate() {
            let leads = match last.kind {
                kind::BR => last.p[0] as usize == target,
                kind::COND_BR => last.p[1..3].contains(&(target as u32)),
                _ => false,
            };
            if leads && distances[block] == 0 {
                distances[block] = distance + 1;
                reached.push_back((block, distance + 1));
            }
        }
    }
    distances
}
