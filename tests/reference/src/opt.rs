//! The parent of the published cfg.rs, with stand-ins for what it takes from there.

#![allow(unused)]

use crate::inst::*;
use crate::program::*;
use std::collections::BTreeMap as FxMap;

include!(concat!(env!("OUT_DIR"), "/mod_cfg.rs"));

pub fn run(prog: &Program, f: &mut Func) -> bool {
    cfg::run(prog, f)
}

// The stand-ins that document 02 names for what the later calls take from the rest of the crate.

fn retargetable(i: &Inst) -> bool {
    use Inst::*;
    matches!(
        i,
        Const { .. }
            | ConstF { .. }
            | Move { .. }
            | AddrOf { .. }
            | Select { .. }
            | Cmp { .. }
            | Bool { .. }
            | Bin { .. }
            | Load { .. }
    )
}

/// The dead mark: a Move of register 0 to itself.
fn dead() -> Inst {
    Inst::Move { dst: Reg(0), src: Reg(0) }
}

fn is_dead(i: &Inst) -> bool {
    matches!(i, Inst::Move { dst: Reg(0), src: Reg(0) })
}

fn removable_dst(i: &Inst) -> Option<Reg> {
    match *i {
        Inst::Move { dst, .. } | Inst::Select { dst, .. } | Inst::Cmp { dst, .. } | Inst::Bool { dst, .. } => Some(dst),
        _ => None,
    }
}

/// All written registers, in role order.
fn for_defs(i: &Inst, mut each: impl FnMut(Reg)) {
    i.visit(&mut |r, role, _| {
        if role == Role::Def {
            each(r);
        }
    });
}

fn for_defs_fast(i: &Inst, each: impl FnMut(Reg)) {
    for_defs(i, each);
}

// The order in which rounds go over the blocks can't show in a least solution: here the last block comes first.

const POSTORDER_ROUND: usize = usize::MAX;

fn postorder(_: usize, _: impl Fn(usize, usize) -> Option<usize>) -> Vec<usize> {
    unreachable!("no round asks for it")
}

fn back_nth(_: &[usize], blocks: usize, j: usize) -> usize {
    blocks - 1 - j
}

mod memo {
    use crate::inst::Inst;

    /// The targets of each block's last instruction.
    pub(super) fn successors(prog: &crate::Program, f: &crate::Func) -> Vec<Vec<usize>> {
        let last = |b: &crate::Block| f.code[b.end as usize - 1];
        f.blocks.values().iter().map(|b| targets(prog, &last(b))).collect()
    }

    fn targets(prog: &crate::Program, i: &Inst) -> Vec<usize> {
        match *i {
            Inst::Br { to } => vec![to.0 as usize],
            Inst::CondBr { t, f, .. } => vec![t.0 as usize, f.0 as usize],
            Inst::Case { table, .. } => {
                let table = prog.cases.get(table).expect("a table that exists");
                table.arms.iter().map(|a| a.2.0 as usize).chain([table.default.0 as usize]).collect()
            }
            _ => Vec::new(),
        }
    }
}
