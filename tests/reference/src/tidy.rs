//! Document 01's Tidy.

use crate::procedure::Procedure;
use crate::record::{Place, kind, places};

/// The lowest offending register of an accepted file, or nothing where it is tidy.
pub fn offender(f: &Procedure) -> Option<u32> {
    let writes = f.writes();
    let leads = lead(f);
    (0..f.registers.len() as u32).find(|&r| writes[r as usize] == 1 && offends(f, &leads, r))
}

/// Does a read of the singly written register `r` offend?
fn offends(f: &Procedure, leads: &[Vec<bool>], r: u32) -> bool {
    let (home, place) = writer(f, r);
    let by = f.block(home)[place].kind;
    (0..f.blocks.len()).any(|b| {
        f.block(b).iter().enumerate().any(|(k, i)| {
            let later = b == home && k > place;
            f.read(i).any(|x| x == r)
                && match by {
                    kind::CONST | kind::CONST_F => false,
                    kind::ADDR_OF => !later && (b == home || leads[b][home]),
                    _ => !later,
                }
        })
    })
}

/// The block that writes `r`, and the place in it.
fn writer(f: &Procedure, r: u32) -> (usize, usize) {
    let at = |b: usize| f.block(b).iter().position(|i| f.written(i).any(|x| x == r));
    (0..f.blocks.len()).find_map(|b| Some((b, at(b)?))).expect("a written register")
}

/// Which blocks the targets of Br and CondBr lead to from each block, in one step or more.
fn lead(f: &Procedure) -> Vec<Vec<bool>> {
    let n = f.blocks.len();
    let mut leads = vec![vec![false; n]; n];
    for (b, reached) in leads.iter_mut().enumerate() {
        let mut left = targets(f, b);
        while let Some(t) = left.pop() {
            if !std::mem::replace(&mut reached[t], true) {
                left.extend(targets(f, t));
            }
        }
    }
    leads
}

fn targets(f: &Procedure, b: usize) -> Vec<usize> {
    let last = f.block(b).last().expect("no block is empty");
    let all = places(last.kind, last.op).expect("a right instruction");
    (0..6).filter(|&k| all[k] == Place::Block).map(|k| last.p[k] as usize).collect()
}
