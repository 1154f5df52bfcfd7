//! The 32-byte record and the numbers of its classes, kinds and ops.

pub const RECORD_BYTES: usize = 32;

/// A record as it stands in the file.
pub type Raw = [u8; RECORD_BYTES];

#[derive(Clone, Copy, Debug, Default, PartialEq, Eq)]
pub struct Record {
    pub class: u8,
    pub kind: u8,
    pub op: u8,
    pub zero: u8,
    pub statement: u32,
    pub p: [u32; 6],
}

impl Record {
    pub fn decode(raw: &Raw) -> Record {
        let word = |at: usize| u32::from_le_bytes([raw[at], raw[at + 1], raw[at + 2], raw[at + 3]]);
        Record {
            class: raw[0],
            kind: raw[1],
            op: raw[2],
            zero: raw[3],
            statement: word(4),
            p: [word(8), word(12), word(16), word(20), word(24), word(28)],
        }
    }

    pub fn encode(&self) -> Raw {
        let mut raw = [0; RECORD_BYTES];
        raw[..4].copy_from_slice(&[self.class, self.kind, self.op, self.zero]);
        raw[4..8].copy_from_slice(&self.statement.to_le_bytes());
        for (bytes, field) in raw[8..].chunks_exact_mut(4).zip(self.p) {
            bytes.copy_from_slice(&field.to_le_bytes());
        }
        raw
    }
}

pub mod class {
    pub const REGISTER: u8 = 1;
    pub const BLOCK: u8 = 2;
    pub const BODY: u8 = 3;
    pub const INSTRUCTION: u8 = 4;
    pub const OPERAND: u8 = 5;
    pub const ARM: u8 = 6;
}

/// The most records of each class, by class number (no class is numbered 0).
pub const LIMITS: [usize; 7] = [0, 756, 160, 1, 756, 128, 128];

/// The number of register kinds: I64, F64, Ptr, Sig, Handle.
pub const REGISTER_KINDS: u8 = 5;

/// The kind of an arm record that is its table's default.
pub const DEFAULT: u8 = 1;

/// The kinds of an instruction.
pub mod kind {
    pub const CONST: u8 = 0;
    pub const CONST_F: u8 = 1;
    pub const MOVE: u8 = 2;
    pub const ADDR_OF: u8 = 3;
    pub const SELECT: u8 = 4;
    pub const CMP: u8 = 5;
    pub const BOOL: u8 = 6;
    pub const BIN: u8 = 7;
    pub const BIN_RANGE: u8 = 8;
    pub const LOAD: u8 = 9;
    pub const STORE: u8 = 10;
    pub const CHECK: u8 = 11;
    pub const MAKE_DOPE: u8 = 12;
    pub const DOPE_LEN: u8 = 13;
    pub const BOUNDS_LEN: u8 = 14;
    pub const ALLOC: u8 = 15;
    pub const TAKE_BOUNDS: u8 = 16;
    pub const CALL_NATIVE: u8 = 17;
    pub const BR: u8 = 18;
    pub const COND_BR: u8 = 19;
    pub const CASE: u8 = 20;
    pub const RET: u8 = 21;
    pub const UNREACHABLE: u8 = 22;
    pub const STMT: u8 = 23;
}

/// How many kinds of instruction there are.
pub const KINDS: u8 = 24;

pub fn is_terminator(kind: u8) -> bool {
    (kind::BR..=kind::UNREACHABLE).contains(&kind)
}

/// What a kind of instruction has: so many ops, and fields from p1 on.
pub struct Shape {
    pub ops: u8,
    pub fields: usize,
}

const fn shape(ops: u8, fields: usize) -> Shape {
    Shape { ops, fields }
}

pub const SHAPES: [Shape; KINDS as usize] = [
    shape(1, 3), // Const
    shape(1, 3), // ConstF
    shape(1, 2), // Move
    shape(6, 3), // AddrOf: Frame, Up, Inst, Pkg, Const, Shared
    shape(1, 4), // Select
    shape(6, 3), // Cmp: Eq, Ne, Lt, Le, Gt, Ge
    shape(4, 3), // Bool: And, Or, Xor, Not
    shape(7, 3), // Bin: Add, Sub, Mul, Div, Rem, Mod, Pow
    shape(7, 6), // BinRange: as Bin
    shape(4, 2), // Load: B1, B4, B8, Sig
    shape(4, 2), // Store: as Load
    shape(5, 4), // Check: Range, Index, IndexDown, Length, Null
    shape(1, 3), // MakeDope
    shape(1, 3), // DopeLen
    shape(1, 4), // BoundsLen
    shape(1, 2), // Alloc
    shape(1, 3), // TakeBounds
    shape(2, 4), // CallNative: without dst, with dst
    shape(1, 1), // Br
    shape(1, 3), // CondBr
    shape(1, 2), // Case
    shape(2, 1), // Ret: without v, with v
    shape(1, 1), // Unreachable
    shape(1, 0), // Stmt
];

/// The ops that are named one by one.
pub mod op {
    pub const FRAME: u8 = 0;
    pub const UP: u8 = 1;
    pub const INST: u8 = 2;
    pub const PKG: u8 = 3;
    pub const CONST: u8 = 4;
    pub const SHARED: u8 = 5;

    pub const NOT: u8 = 3;

    pub const RANGE: u8 = 0;
    pub const INDEX: u8 = 1;
    pub const INDEX_DOWN: u8 = 2;
    pub const LENGTH: u8 = 3;
    pub const NULL: u8 = 4;

    /// Ret without v, CallNative without dst.
    pub const WITHOUT: u8 = 0;
    /// Ret with v, CallNative with dst.
    pub const WITH: u8 = 1;
}
