//! Stand-ins for what the published text takes from its own crate.

use crate::inst::{Inst, Reg, RegTy, Regs};

macro_rules! numbers {
    ($($name:ident)*) => {$(
        #[derive(Clone, Copy, PartialEq, Eq, Hash, Debug)]
        pub struct $name(pub u32);
        impl Number for $name {
            fn number(self) -> usize {
                self.0 as usize
            }
        }
    )*};
}

pub trait Number {
    fn number(self) -> usize;
}

numbers! { BlockId CaseTableId CheckMsgId ConstId CovItem ForeignId FuncId NativeId StmtId TyId }

/// A vector asked by number.
#[derive(Clone)]
pub struct Numbered<T>(pub Vec<T>);

impl<T> Numbered<T> {
    pub fn get(&self, i: impl Number) -> Option<&T> {
        self.0.get(i.number())
    }

    pub fn get_mut(&mut self, i: impl Number) -> Option<&mut T> {
        self.0.get_mut(i.number())
    }

    pub fn len(&self) -> usize {
        self.0.len()
    }

    pub fn values(&self) -> &[T] {
        &self.0
    }
}

#[derive(Clone, Copy)]
pub struct Block {
    pub start: u32,
    pub end: u32,
}

pub struct CaseTable {
    pub arms: Vec<(i64, i64, BlockId)>,
    pub default: BlockId,
}

pub struct Program {
    pub cases: Numbered<CaseTable>,
}

#[derive(Clone)]
pub struct Func {
    pub reg_ty: Vec<RegTy>,
    pub blocks: Numbered<Block>,
    pub code: Vec<Inst>,
    pub loc: Vec<StmtId>,
    pub operands: Vec<Reg>,
    pub body: Option<BlockId>,
}

impl Func {
    pub fn regs(&self, l: Regs) -> Option<&[Reg]> {
        let start = l.start as usize;
        self.operands.get(start..start + l.len as usize)
    }
}
