//! What must hold along a run of the sliced form: which Cmps of a threaded form `slice_tests` rewrites, and which registers
//! it takes for the constant 0, found once more without the published Rust.

use crate::procedure::Procedure;
use crate::record::{Record, kind};

/// Of a range, left, right and whether it goes down.
type Bounds = (u32, u32, bool);

/// A rewritten Cmp: the register that it tested, and the bounds that it compares instead.
#[derive(Clone, Copy, PartialEq, Eq, Debug)]
pub struct Test {
    pub length: u32,
    pub bounds: Bounds,
}

impl Test {
    /// Does the register hold the exact length of the bounds, and is that below 2^63?
    pub fn holds(&self, registers: &[u64]) -> [bool; 2] {
        let word = |r: u32| registers[r as usize];
        let (left, right, down) = self.bounds;
        let due = length(word(left), word(right), down);
        [u128::from(word(self.length)) == due, due < 1 << 63]
    }
}

/// The exact length of a range of signed words.
pub fn length(left: u64, right: u64, down: bool) -> u128 {
    let [from, to] = if down { [right, left] } else { [left, right] }.map(|word| i128::from(word as i64));
    (to - from + 1).max(0) as u128
}

#[derive(Default)]
pub struct Measured {
    /// For each instruction of each block, what it tested if it is a rewritten Cmp.
    tests: Vec<Vec<Option<Test>>>,
    /// The registers that are taken for the constant 0.
    pub zeros: Vec<u32>,
}

impl Measured {
    /// Of a file's threaded and sliced form. Where these are the same, nothing was rewritten and nothing must hold; so too
    /// where more differs than `slice_tests` changes, which is a fault.
    pub fn between(threaded: &Procedure, sliced: &Procedure) -> Measured {
        let form = |p: &Procedure| (p.registers.clone(), p.blocks.clone(), p.operands.clone());
        let mut changed = threaded.code.iter().zip(&sliced.code).filter(|(i, j)| i != j).peekable();
        let some = changed.peek().is_some();
        if some && form(threaded) == form(sliced) && changed.all(|(i, j)| [i.kind, j.kind] == [kind::CMP; 2]) {
            Measured::new(threaded)
        } else {
            Measured::default()
        }
    }

    /// Of a threaded form for which the gate is open.
    fn new(threaded: &Procedure) -> Measured {
        let constants = constants(threaded);
        let blocks = 0..threaded.blocks.len();
        let tests = blocks.map(|b| Known::tests(threaded, &constants, threaded.block(b))).collect();
        let zeros = (0..).zip(&constants).filter(|(_, v)| **v == Some(0)).map(|(r, _)| r).collect();
        Measured { tests, zeros }
    }

    pub fn test_at(&self, (block, place): (usize, usize)) -> Option<&Test> {
        self.tests.get(block)?.get(place)?.as_ref()
    }

    pub fn has_tests(&self) -> bool {
        self.tests.iter().flatten().any(Option::is_some)
    }
}

/// The registers that one field writes, that of a Const.
fn constants(p: &Procedure) -> Vec<Option<u64>> {
    let writes = p.writes();
    let mut values = vec![None; p.registers.len()];
    for i in p.code.iter().filter(|i| i.kind == kind::CONST && writes[i.p[0] as usize] == 1) {
        values[i.p[0] as usize] = Some(i.wide(2));
    }
    values
}

/// A thing that is known of a register within a block.
#[derive(Clone, Copy)]
enum Known {
    /// It points to a block of memory with these bounds.
    Points(u32, Bounds),
    /// It holds the length in the block that another register points to.
    LengthBy(u32, u32),
    /// It holds the length of these bounds.
    LengthOf(u32, Bounds),
}

impl Known {
    fn tests(p: &Procedure, constants: &[Option<u64>], block: &[Record]) -> Vec<Option<Test>> {
        let mut known: Vec<Known> = Vec::new();
        let step = |i: &Record| {
            let zero = |r: u32| constants[r as usize] == Some(0);
            let tested = i.kind == kind::CMP && matches!(i.op, 0 | 1 | 3 | 4) && zero(i.p[2]);
            let bounds = bounds_of(&known, i.p[1]).filter(|_| tested);
            known.retain(|k| !p.written(i).any(|d| k.names(d)));
            if let Some(new) = Known::said(p, constants, &known, i) {
                known.retain(|k| !matches!((k, new), (Known::Points(a, _), Known::Points(b, _)) if *a == b));
                known.push(new);
            }
            bounds.map(|bounds| Test { length: i.p[1], bounds })
        };
        block.iter().map(step).collect()
    }

    fn names(self, d: u32) -> bool {
        match self {
            Known::Points(r, (left, right, _)) | Known::LengthOf(r, (left, right, _)) => [r, left, right].contains(&d),
            Known::LengthBy(r, at) => [r, at].contains(&d),
        }
    }

    /// What an instruction says.
    fn said(p: &Procedure, constants: &[Option<u64>], known: &[Known], i: &Record) -> Option<Known> {
        let bounds = |of: u32, left: u32, right: u32, direction: u32| match constants[direction as usize] {
            Some(v @ (0 | 1)) if of != left && of != right => Some((left, right, v == 1)),
            _ => None,
        };
        let [r, a, b, c, ..] = i.p;
        match i.kind {
            kind::BOUNDS_LEN => bounds(r, a, b, c).map(|bounds| Known::LengthOf(r, bounds)),
            kind::MAKE_DOPE if b == 3 => {
                let list = &p.operands[a as usize..a as usize + 3];
                bounds(r, list[0], list[1], list[2]).map(|bounds| Known::Points(r, bounds))
            }
            kind::DOPE_LEN if b == 0 && r != a => pointed(known, a).map(|_| Known::LengthBy(r, a)),
            _ => None,
        }
    }
}

fn pointed(known: &[Known], at: u32) -> Option<Bounds> {
    known.iter().find_map(|k| match *k {
        Known::Points(r, bounds) if r == at => Some(bounds),
        _ => None,
    })
}

/// The bounds of which a register holds the length.
fn bounds_of(known: &[Known], length: u32) -> Option<Bounds> {
    known.iter().find_map(|k| match *k {
        Known::LengthOf(r, bounds) if r == length => Some(bounds),
        Known::LengthBy(r, at) if r == length => pointed(known, at),
        _ => None,
    })
}

#[cfg(test)]
mod tests {
    use super::*;
    use crate::generate;
    use crate::level::with;
    use crate::record::kind::CMP;

    /// The Cmps that the Rust rewrites are those that have a test, and they compare its bounds.
    #[test]
    fn they_are_what_the_rust_rewrites() {
        let Some(shorten) = crate::reference() else { return };
        let mut rewritten = 0;
        for (family, seed) in
            ["lengths", "lengths-split", "tidy-lengths"].iter().flat_map(|f| (0..2000).map(move |s| (f, s)))
        {
            let bytes = generate::file(family, seed);
            let form = |calls: &[&str]| Procedure::from_bytes(&with(calls, || shorten(&bytes, 65_536)).output);
            let [threaded, sliced] = [form(&["thread"]), form(&["thread", "slice_tests"])];
            let measured = Measured::between(&threaded, &sliced);
            for (b, place) in (0..sliced.blocks.len()).flat_map(|b| (0..sliced.block(b).len()).map(move |k| (b, k))) {
                let (before, after) = (threaded.block(b)[place], sliced.block(b)[place]);
                let due = measured.test_at((b, place)).map(|test| {
                    let (left, right, down) = test.bounds;
                    let [x, y] = if down { [left, right] } else { [right, left] };
                    (CMP, test.length, [x, y])
                });
                let found = (before != after).then(|| (after.kind, before.p[1], [after.p[1], after.p[2]]));
                assert_eq!(found, due, "{family} {seed} {b} {place}");
                rewritten += usize::from(due.is_some());
            }
        }
        assert!(rewritten > 1000, "{rewritten}");
    }

    #[test]
    fn lengths_are_exact() {
        let [least, most] = [i64::MIN, i64::MAX].map(|v| v as u64);
        assert_eq!(length(2, 4, false), 3);
        assert_eq!(length(2, 4, true), 0);
        assert_eq!(length(u64::MAX, u64::MAX, true), 1);
        assert_eq!(length(least, most, false), 1 << 64);
        assert_eq!(length(least, most, true), 0);
    }
}
