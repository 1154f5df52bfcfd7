//! Files for the benchmark, of a given number of instructions.

use crate::draft::*;
use crate::generate::{Rng, Shape};
use crate::record::{Record, kind};

pub const SIZES: [usize; 5] = [10, 50, 100, 240, 480];

/// What the files are like.
#[derive(Clone, Copy, PartialEq, Eq, Debug)]
pub enum Sort {
    /// Loops whose test is copied into both blocks that go there.
    Copies,
    /// The same loops with a test that is no small block.
    Loops,
    /// No branch back.
    Straight,
    /// Drawn at random, rich in branches.
    Drawn,
    /// Loops that don't copy, with lengths and their tests, of which all are rewritten.
    Lengths,
}

pub const SORTS: [Sort; 5] = [Sort::Copies, Sort::Loops, Sort::Straight, Sort::Drawn, Sort::Lengths];

/// Files of exactly so many instructions: 16 drawn ones, or one of another sort.
pub fn files(sort: Sort, n: usize) -> Vec<Vec<u8>> {
    more_files(sort, n, 16)
}

/// The same with another number of drawn ones.
pub fn more_files(sort: Sort, n: usize, drawn_ones: u64) -> Vec<Vec<u8>> {
    match sort {
        Sort::Drawn => (0..drawn_ones).map(|seed| drawn(n, seed).bytes()).collect(),
        Sort::Lengths => vec![lengths(n).bytes()],
        _ => vec![groups(sort, n).bytes()],
    }
}

fn drawn(n: usize, seed: u64) -> Draft {
    let mut g = Rng::new(seed);
    let shape = Shape { blocks: (n / 4).max(2), registers: n / 6 + 3, most: n, body: 0, ..Shape::large(&mut g) };
    let mut d = shape.draft(&mut g);
    while d.instructions() < n {
        let b = g.below(d.blocks.len());
        d.blocks[b].insert(0, Record { statement: 7, ..stmt() });
    }
    d.registers.truncate(480);
    d
}

/// Groups of ten instructions in three blocks, each group going on to the next, then a Ret.
fn groups(sort: Sort, n: usize) -> Draft {
    let mut d = Draft { registers: vec![0; 3], ..Draft::default() };
    for k in 0..n / 10 {
        let [before, step, test] = [3 * k as u32, 3 * k as u32 + 1, 3 * k as u32 + 2];
        let condition = d.registers.len() as u32;
        d.registers.extend([0, 0]);
        let load = ins(kind::LOAD, 2, &[0, 1]);
        let first = vec![stmt(), load, stmt(), if sort == Sort::Straight { cond_br(2, step, test) } else { br(test) }];
        let again = vec![ins(kind::STORE, 2, &[1, 0]), ins(kind::BIN, 0, &[2, 2, 0]), br(test)];
        let middle = if sort == Sort::Copies { mov(condition + 1, condition) } else { load };
        let last = match sort {
            Sort::Straight => br(before + 3),
            _ => cond_br(condition, step, before + 3),
        };
        d.blocks.extend([first, again, vec![cmp(2, condition, 0, 2), middle, last]]);
    }
    d.blocks[0].remove(0);
    d.blocks.push(vec![ret()]);
    d.with_statements(100)
}

/// Groups of ten instructions in two blocks, a loop: one tests the length of a BoundsLen, the other that of a DopeLen. Then a
/// Ret. r0 is the constant 0, r1 the constant 1.
fn lengths(n: usize) -> Draft {
    let operands = vec![2, 3, 0, 2, 3, 1];
    let mut d = Draft { registers: vec![0, 0, 0, 0, 2], operands, ..Draft::default() };
    for k in 0..(n / 10) as u32 {
        let [first, second, next] = [2 * k, 2 * k + 1, 2 * k + 2];
        let [length, test] = [0, 1].map(|j| d.registers.len() as u32 + j);
        d.registers.extend([0, 0]);
        let load = ins(kind::LOAD, 2, &[2, 4]);
        let before = if k < 2 { constant(k, i64::from(k)) } else { load };
        let direction = k % 2;
        let op = [0, 1, 3, 4][k as usize % 4];
        d.blocks.push(vec![
            stmt(),
            before,
            ins(kind::BOUNDS_LEN, 0, &[length, 2, 3, direction]),
            cmp(op, test, length, 0),
            cond_br(test, second, next),
        ]);
        d.blocks.push(vec![
            load,
            ins(kind::MAKE_DOPE, 0, &[4, 3 * direction, 3]),
            ins(kind::DOPE_LEN, 0, &[length, 4, 0]),
            cmp(op, test, length, 0),
            cond_br(test, first, next),
        ]);
    }
    d.blocks[0].remove(0);
    d.blocks.push(vec![ret()]);
    d.with_statements(100)
}

#[cfg(test)]
mod tests {
    use super::*;
    use crate::procedure::Procedure;
    use crate::read::read;

    #[test]
    fn files_are_accepted_and_of_their_size() {
        for (sort, n) in SORTS.into_iter().flat_map(|sort| SIZES.map(|n| (sort, n))) {
            for bytes in files(sort, n) {
                assert!(read(&bytes).is_ok(), "{sort:?} {n}");
                assert_eq!(Procedure::from_bytes(&bytes).code.len(), n, "{sort:?}");
            }
        }
    }

    /// Two in each ten instructions.
    #[test]
    fn tests_of_lengths_are_rewritten() {
        let Some(shorten) = crate::reference() else { return };
        for n in SIZES {
            let bytes = &files(Sort::Lengths, n)[0];
            let [before, after] = [bytes, &shorten(bytes, usize::MAX).output].map(|b| Procedure::from_bytes(b).code);
            assert_eq!(before.iter().zip(&after).filter(|(i, j)| i != j).count(), n / 5, "{n}");
        }
    }

    #[test]
    fn only_files_that_copy_grow() {
        let Some(shorten) = crate::reference() else { return };
        for n in SIZES {
            let grown = |sort: Sort| shorten(&files(sort, n)[0], usize::MAX).grown as usize;
            assert!(100 * grown(Sort::Copies) >= 55 * n, "{n}");
            assert_eq!([grown(Sort::Loops), grown(Sort::Straight), grown(Sort::Lengths)], [0; 3], "{n}");
        }
    }
}
