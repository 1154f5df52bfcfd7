//! The Shorten operation: Read, the shortening limits, the published `run`, the room.

use crate::answer::Answer;
use crate::inst::*;
use crate::procedure::{Procedure, Table};
use crate::program::*;
use crate::read::{Refusal, read};
use crate::record::{INSTRUCTION, Place, Record, halves, kind, places};

pub const MAX_REGISTERS: usize = 480;
pub const MAX_INSTRUCTIONS: usize = 480;

pub fn shorten(bytes: &[u8], room: usize) -> Answer {
    let mut p = match accepted(bytes) {
        Ok(p) => p,
        Err((number, record)) => return Answer::refused(number, record),
    };
    let prog = Program { cases: Numbered(p.tables.iter().map(case_table).collect()) };
    let mut f = func(&p);
    crate::probe::take();
    let moved = crate::opt::run(&prog, &mut f);
    let counts = crate::probe::take();
    take_back(&mut p, &f);
    let output = p.bytes();
    if output.len() > room {
        return Answer::refused(9, 0);
    }
    let (grown, fresh, rescued) = (counts.grown, counts.fresh, counts.rescued);
    Answer { number: 0, record: 0, moved: u32::from(moved), grown, fresh, rescued, output }
}

/// The procedure of a file that Read accepts within the shortening limits.
fn accepted(bytes: &[u8]) -> Result<Procedure, Refusal> {
    let count = read(bytes)?;
    if count[0] > MAX_REGISTERS || count[3] > MAX_INSTRUCTIONS {
        return Err((8, 0));
    }
    Ok(Procedure::from_bytes(bytes))
}

pub(crate) fn case_table(t: &Table) -> CaseTable {
    let arms = t.arms.iter().map(|&(low, high, to)| (low, high, BlockId(to))).collect();
    CaseTable { arms, default: BlockId(t.default) }
}

pub(crate) fn func(p: &Procedure) -> Func {
    Func {
        reg_ty: p.registers.iter().map(|&k| REG_TYPES[k as usize]).collect(),
        blocks: Numbered(p.blocks.iter().map(|&(start, end)| Block { start, end }).collect()),
        code: p.code.iter().map(inst).collect(),
        loc: p.code.iter().map(|i| StmtId(i.statement)).collect(),
        operands: p.operands.iter().map(|&r| Reg(r)).collect(),
        body: p.body.map(BlockId),
    }
}

/// Registers, blocks and code as `run` leaves them; it changes nothing else.
fn take_back(p: &mut Procedure, f: &Func) {
    let number = |t: &RegTy| REG_TYPES.iter().position(|x| x == t).expect("a listed kind") as u8;
    p.registers = f.reg_ty.iter().map(number).collect();
    p.blocks = f.blocks.values().iter().map(|b| (b.start, b.end)).collect();
    p.code = f.code.iter().zip(&f.loc).map(|(i, s)| record(i, s.0)).collect();
}

pub(crate) const REG_TYPES: [RegTy; 5] = [RegTy::I64, RegTy::F64, RegTy::Ptr, RegTy::Sig, RegTy::Handle];
const WIDTHS: [Width; 4] = [Width::B1, Width::B4, Width::B8, Width::Sig];
const CMPS: [CmpOp; 6] = [CmpOp::Eq, CmpOp::Ne, CmpOp::Lt, CmpOp::Le, CmpOp::Gt, CmpOp::Ge];
const BOOLS: [BoolOp; 4] = [BoolOp::And, BoolOp::Or, BoolOp::Xor, BoolOp::Not];
const INTS: [IntOp; 7] = [IntOp::Add, IntOp::Sub, IntOp::Mul, IntOp::Div, IntOp::Rem, IntOp::Mod, IntOp::Pow];
const CHECKS: [CheckKind; 5] =
    [CheckKind::Range, CheckKind::Index, CheckKind::IndexDown, CheckKind::Length, CheckKind::Null];

fn space(op: u8, n: u32) -> AddrSpace {
    match op {
        0 => AddrSpace::Frame,
        1 => AddrSpace::Up(n as u8),
        2 => AddrSpace::Inst,
        3 => AddrSpace::Pkg(n),
        4 => AddrSpace::Const(ConstId(n)),
        _ => AddrSpace::Shared,
    }
}

fn space_number(s: AddrSpace) -> (u8, u32) {
    match s {
        AddrSpace::Frame => (0, 0),
        AddrSpace::Up(n) => (1, u32::from(n)),
        AddrSpace::Inst => (2, 0),
        AddrSpace::Pkg(n) => (3, n),
        AddrSpace::Const(n) => (4, n.0),
        AddrSpace::Shared => (5, 0),
    }
}

pub(crate) fn inst(r: &Record) -> Inst {
    let reg = |k: usize| Reg(r.p[k - 1]);
    let block = |k: usize| BlockId(r.p[k - 1]);
    let what = |k: usize| CheckMsgId(r.p[k - 1]);
    let list = || Regs { start: r.p[1], len: r.p[2] };
    let op = r.op as usize;
    match r.kind {
        kind::CONST => Inst::Const { dst: reg(1), v: r.wide(2) as i64 },
        kind::CONST_F => Inst::ConstF { dst: reg(1), v: f64::from_bits(r.wide(2)) },
        kind::MOVE => Inst::Move { dst: reg(1), src: reg(2) },
        kind::ADDR_OF => Inst::AddrOf { dst: reg(1), space: space(r.op, r.p[1]), off: r.p[2] },
        kind::SELECT => Inst::Select { dst: reg(1), c: reg(2), a: reg(3), b: reg(4) },
        kind::CMP => Inst::Cmp { op: CMPS[op], dst: reg(1), a: reg(2), b: reg(3) },
        kind::BOOL => Inst::Bool { op: BOOLS[op], dst: reg(1), a: reg(2), b: reg(3) },
        kind::BIN => Inst::Bin { op: INTS[op], dst: reg(1), a: reg(2), b: reg(3) },
        kind::BIN_RANGE => {
            Inst::BinRange { op: INTS[op], dst: reg(1), a: reg(2), b: reg(3), lo: reg(4), hi: reg(5), what: what(6) }
        }
        kind::LOAD => Inst::Load { dst: reg(1), addr: reg(2), w: WIDTHS[op] },
        kind::STORE => Inst::Store { addr: reg(1), src: reg(2), w: WIDTHS[op] },
        kind::CHECK => Inst::Check { kind: CHECKS[op], v: reg(1), lo: reg(2), hi: reg(3), what: what(4) },
        kind::MAKE_DOPE => Inst::MakeDope { at: reg(1), parts: list() },
        kind::DOPE_LEN => Inst::DopeLen { dst: reg(1), dope: reg(2), dim: r.p[2] as u8 },
        kind::BOUNDS_LEN => Inst::BoundsLen { dst: reg(1), left: reg(2), right: reg(3), dir: reg(4) },
        kind::ALLOC => Inst::Alloc { dst: reg(1), size: reg(2) },
        kind::TAKE_BOUNDS => Inst::TakeBounds { left: reg(1), right: reg(2), dir: reg(3) },
        kind::CALL_NATIVE => {
            Inst::CallNative { native: NativeId(r.p[0]), args: list(), dst: (r.op == 1).then(|| reg(4)) }
        }
        kind::BR => Inst::Br { to: block(1) },
        kind::COND_BR => Inst::CondBr { c: reg(1), t: block(2), f: block(3) },
        kind::CASE => Inst::Case { v: reg(1), table: CaseTableId(r.p[1]) },
        kind::RET => Inst::Ret { v: (r.op == 1).then(|| reg(1)) },
        kind::UNREACHABLE => Inst::Unreachable { what: what(1) },
        _ => Inst::Stmt,
    }
}

pub(crate) fn record(i: &Inst, statement: u32) -> Record {
    fn at<T: PartialEq>(all: &[T], x: &T) -> u8 {
        all.iter().position(|y| y == x).expect("a listed op") as u8
    }
    let (kind, op, p): (u8, u8, &[u32]) = match *i {
        Inst::Const { dst, v } => {
            let [low, high] = halves(v as u64);
            (kind::CONST, 0, &[dst.0, low, high])
        }
        Inst::ConstF { dst, v } => {
            let [low, high] = halves(v.to_bits());
            (kind::CONST_F, 0, &[dst.0, low, high])
        }
        Inst::Move { dst, src } => (kind::MOVE, 0, &[dst.0, src.0]),
        Inst::AddrOf { dst, space, off } => {
            let (op, n) = space_number(space);
            (kind::ADDR_OF, op, &[dst.0, n, off])
        }
        Inst::Select { dst, c, a, b } => (kind::SELECT, 0, &[dst.0, c.0, a.0, b.0]),
        Inst::Cmp { op, dst, a, b } => (kind::CMP, at(&CMPS, &op), &[dst.0, a.0, b.0]),
        Inst::Bool { op, dst, a, b } => (kind::BOOL, at(&BOOLS, &op), &[dst.0, a.0, b.0]),
        Inst::Bin { op, dst, a, b } => (kind::BIN, at(&INTS, &op), &[dst.0, a.0, b.0]),
        Inst::BinRange { op, dst, a, b, lo, hi, what } => {
            (kind::BIN_RANGE, at(&INTS, &op), &[dst.0, a.0, b.0, lo.0, hi.0, what.0])
        }
        Inst::Load { dst, addr, w } => (kind::LOAD, at(&WIDTHS, &w), &[dst.0, addr.0]),
        Inst::Store { addr, src, w } => (kind::STORE, at(&WIDTHS, &w), &[addr.0, src.0]),
        Inst::Check { kind, v, lo, hi, what } => (kind::CHECK, at(&CHECKS, &kind), &[v.0, lo.0, hi.0, what.0]),
        Inst::MakeDope { at, parts } => (kind::MAKE_DOPE, 0, &[at.0, parts.start, parts.len]),
        Inst::DopeLen { dst, dope, dim } => (kind::DOPE_LEN, 0, &[dst.0, dope.0, u32::from(dim)]),
        Inst::BoundsLen { dst, left, right, dir } => (kind::BOUNDS_LEN, 0, &[dst.0, left.0, right.0, dir.0]),
        Inst::Alloc { dst, size } => (kind::ALLOC, 0, &[dst.0, size.0]),
        Inst::TakeBounds { left, right, dir } => (kind::TAKE_BOUNDS, 0, &[left.0, right.0, dir.0]),
        Inst::CallNative { native, args, dst } => {
            let (op, d) = dst.map_or((0, 0), |d| (1, d.0));
            (kind::CALL_NATIVE, op, &[native.0, args.start, args.len, d])
        }
        Inst::Br { to } => (kind::BR, 0, &[to.0]),
        Inst::CondBr { c, t, f } => (kind::COND_BR, 0, &[c.0, t.0, f.0]),
        Inst::Case { v, table } => (kind::CASE, 0, &[v.0, table.0]),
        Inst::Ret { v } => {
            let (op, v) = v.map_or((0, 0), |v| (1, v.0));
            (kind::RET, op, &[v])
        }
        Inst::Unreachable { what } => (kind::UNREACHABLE, 0, &[what.0]),
        Inst::Stmt => (kind::STMT, 0, &[]),
        _ => unreachable!("a kind that document 01 doesn't have"),
    };
    Record::new(INSTRUCTION, kind, op, statement, p)
}

/// Are the roles that `places` lists those that the published `visit` gives, for every kind and op?
pub fn roles_agree() -> bool {
    let ops = (0..=kind::STMT).flat_map(|k| (0..=u8::MAX).map(move |op| (k, op)));
    ops.filter_map(|(k, op)| Some((k, op, places(k, op)?))).all(|(k, op, all)| {
        let mut r = Record::new(INSTRUCTION, k, op, 0, &[0, 1, 2, 3, 4, 5]);
        (0..6).filter(|&p| all[p] == Place::Unused).for_each(|p| r.p[p] = 0);
        let listed = (0..6).filter_map(|p| match all[p] {
            Place::Written => Some((p as u32, Role::Def)),
            Place::Read => Some((p as u32, Role::Use)),
            _ => None,
        });
        let mut visited = Vec::new();
        inst(&r).visit(&mut |reg, role, _| visited.push((reg.0, role)));
        listed.eq(visited) && record(&inst(&r), 0) == r
    })
}
