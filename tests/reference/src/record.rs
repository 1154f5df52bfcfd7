//! The file of document 01: records of 32 bytes, and what each place of one holds.

pub const RECORD: usize = 32;
pub const MAX_FILE: usize = 65_536;

pub const REGISTER: u8 = 1;
pub const BLOCK: u8 = 2;
pub const BODY: u8 = 3;
pub const INSTRUCTION: u8 = 4;
pub const OPERAND: u8 = 5;
pub const ARM: u8 = 6;

/// Kinds of instruction.
pub mod kind {
    pub const CONST: u8 = 0;
    pub const CONST_F: u8 = 1;
    pub const MOVE: u8 = 2;
    pub const ADDR_OF: u8 = 3;
    pub const SELECT: u8 = 4;
    pub const CMP: u8 = 5;
    pub const BOOL: u8 = 6;
    pub const BIN: u8 = 7;
    pub const BIN_RANGE: u8 = 8;
    pub const LOAD: u8 = 9;
    pub const STORE: u8 = 10;
    pub const CHECK: u8 = 11;
    pub const MAKE_DOPE: u8 = 12;
    pub const DOPE_LEN: u8 = 13;
    pub const BOUNDS_LEN: u8 = 14;
    pub const ALLOC: u8 = 15;
    pub const TAKE_BOUNDS: u8 = 16;
    pub const CALL_NATIVE: u8 = 17;
    pub const BR: u8 = 18;
    pub const COND_BR: u8 = 19;
    pub const CASE: u8 = 20;
    pub const RET: u8 = 21;
    pub const UNREACHABLE: u8 = 22;
    pub const STMT: u8 = 23;
}

#[derive(Clone, Copy, PartialEq, Eq, Debug, Default)]
pub struct Record {
    pub class: u8,
    pub kind: u8,
    pub op: u8,
    pub zero: u8,
    pub statement: u32,
    pub p: [u32; 6],
}

impl Record {
    #[inline]
    pub fn new(class: u8, kind: u8, op: u8, statement: u32, places: &[u32]) -> Record {
        let mut p = [0; 6];
        p[..places.len()].copy_from_slice(places);
        Record { class, kind, op, zero: 0, statement, p }
    }

    #[inline]
    pub fn from_bytes(b: &[u8]) -> Record {
        let b: &[u8; RECORD] = b.try_into().expect("the bytes of one record");
        let word = |at: usize| u32::from_le_bytes([b[at], b[at + 1], b[at + 2], b[at + 3]]);
        let p = std::array::from_fn(|k| word(8 + 4 * k));
        Record { class: b[0], kind: b[1], op: b[2], zero: b[3], statement: word(4), p }
    }

    pub fn write(&self, out: &mut Vec<u8>) {
        out.extend([self.class, self.kind, self.op, self.zero]);
        out.extend(self.statement.to_le_bytes());
        for w in self.p {
            out.extend(w.to_le_bytes());
        }
    }

    pub fn is_terminator(&self) -> bool {
        (kind::BR..=kind::UNREACHABLE).contains(&self.kind)
    }

    /// The 64-bit number in p`k` (low) and p`k+1` (high), counted from p1.
    pub fn wide(&self, k: usize) -> u64 {
        u64::from(self.p[k - 1]) | u64::from(self.p[k]) << 32
    }
}

/// Low and high word.
pub fn halves(v: u64) -> [u32; 2] {
    [v as u32, (v >> 32) as u32]
}

/// What a place of an instruction holds.
#[derive(Clone, Copy, PartialEq, Eq, Debug)]
pub enum Place {
    /// Not listed: zero.
    Unused,
    /// A number that names nothing.
    Plain,
    /// A plain number of at most 255.
    Byte,
    /// A register that is written.
    Written,
    /// A register that is read.
    Read,
    /// A register that the kind lists and this op doesn't read.
    Unread,
    Block,
    Table,
    /// The start of an operand list; its length is the next place.
    List,
    Length,
}

/// The places p1..p6 of an instruction, or nothing where the kind or the op doesn't exist.
pub fn places(kind: u8, op: u8) -> Option<[Place; 6]> {
    use Place::*;
    let when = |c: bool, yes: Place, no: Place| if c { yes } else { no };
    let (ops, listed): (u8, &[Place]) = match kind {
        kind::CONST | kind::CONST_F => (1, &[Written, Plain, Plain]),
        kind::MOVE => (1, &[Written, Read]),
        kind::ADDR_OF => (6, &[Written, [Unused, Byte, Unused, Plain, Plain, Unused][op.min(5) as usize], Plain]),
        kind::SELECT => (1, &[Written, Read, Read, Read]),
        kind::CMP => (6, &[Written, Read, Read]),
        kind::BOOL => (4, &[Written, Read, when(op == 3, Unread, Read)]),
        kind::BIN => (7, &[Written, Read, Read]),
        kind::BIN_RANGE => (7, &[Written, Read, Read, Read, Read, Plain]),
        kind::LOAD => (4, &[Written, Read]),
        kind::STORE => (4, &[Read, Read]),
        kind::CHECK => (5, &[Read, when(op == 4, Unread, Read), when(op > 2, Unread, Read), Plain]),
        kind::MAKE_DOPE => (1, &[Read, List, Length]),
        kind::DOPE_LEN => (1, &[Written, Read, Byte]),
        kind::BOUNDS_LEN => (1, &[Written, Read, Read, Read]),
        kind::ALLOC => (1, &[Written, Read]),
        kind::TAKE_BOUNDS => (1, &[Written, Written, Written]),
        kind::CALL_NATIVE => (2, &[Plain, List, Length, when(op == 1, Written, Unused)]),
        kind::BR => (1, &[Block]),
        kind::COND_BR => (1, &[Read, Block, Block]),
        kind::CASE => (1, &[Read, Table]),
        kind::RET => (2, &[when(op == 1, Read, Unused)]),
        kind::UNREACHABLE => (1, &[Plain]),
        kind::STMT => (1, &[]),
        _ => return None,
    };
    if op >= ops {
        return None;
    }
    let mut all = [Unused; 6];
    all[..listed.len()].copy_from_slice(listed);
    Some(all)
}
