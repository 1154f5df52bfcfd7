//! Seeded procedures near the limits of document 01: of reading, of shortening, of the steps.

use crate::cases::{both_arms, chain, lone_brs_before_other_arm, spent, written_often};
use crate::draft::*;
use crate::generate::{Rng, Shape};
use crate::procedure::Table;
use crate::record::{Place, Record, kind, places};

/// A procedure near a limit of the steps, of few records for the most part.
pub fn of_steps(g: &mut Rng) -> Vec<u8> {
    let d = match g.below(8) {
        0..3 => chain(g.range(4, 8) as u32, g.chance(50)),
        3..5 => both_arms(g.range(2, 6) as u32),
        5 => lone_brs_before_other_arm(g.range(3, 6) as u32),
        _ => near_bound(g),
    };
    disturbed(g, d).bytes()
}

/// A procedure near a limit on the number of records, or with as many as can come out.
pub fn of_records(g: &mut Rng) -> Vec<u8> {
    let d = match g.below(8) {
        0 => many_registers(g),
        1 => many_instructions(g),
        2 => many_blocks(g),
        3 => many_operands(g),
        4 => many_arms(g),
        5 => often_written(g),
        _ => longest(g),
    };
    disturbed(g, d).bytes()
}

fn around(g: &mut Rng, limit: usize) -> usize {
    g.range(limit - 1, limit + 1)
}

fn some_shape(g: &mut Rng) -> Shape {
    match g.below(4) {
        0 => Shape::chains(g),
        1 => Shape { most: 200, blocks: 60, ..Shape::large(g) },
        _ => Shape::small(g),
    }
}

/// A body or another statement at times.
fn disturbed(g: &mut Rng, mut d: Draft) -> Draft {
    if g.chance(15) {
        d.body = Some(g.below(d.blocks.len()) as u32);
    }
    if g.chance(20) {
        let b = g.below(d.blocks.len());
        let at = g.below(d.blocks[b].len());
        d.blocks[b][at].statement = g.draw() as u32;
    }
    d
}

/// Copies until `grown` is near n/2 + 32.
fn near_bound(g: &mut Rng) -> Draft {
    let size = g.range(1, 4);
    let due = 34 * size / (size.max(2) - 1).max(1);
    let takers = g.range(30, 40 + due).min(150);
    spent(takers as u32, g.below(6), size)
}

/// Registers up to a limit, with the ones that are named the last or the first.
fn many_registers(g: &mut Rng) -> Draft {
    let shape = some_shape(g);
    let mut d = shape.draft(g);
    let limit = g.pick(&[480, 480, 480, 756]);
    let n = around(g, limit);
    let more = n.saturating_sub(d.registers.len());
    if g.chance(70) {
        for i in d.blocks.iter_mut().flatten() {
            let all = places(i.kind, i.op).expect("a listed kind");
            let named = |k: &usize| matches!(all[*k], Place::Written | Place::Read | Place::Unread);
            (0..6).filter(named).for_each(|k| i.p[k] += more as u32);
        }
        d.operands.iter_mut().for_each(|r| *r += more as u32);
        d.registers.splice(0..0, vec![0; more]);
    } else {
        d.registers.resize(n.max(d.registers.len()), 0);
    }
    d
}

fn many_instructions(g: &mut Rng) -> Draft {
    let shape = some_shape(g);
    let mut d = shape.draft(g);
    let limit = g.pick(&[480, 480, 480, 756]);
    let n = around(g, limit);
    padded(g, &mut d, n);
    d
}

/// Stmts put in until there are so many instructions, into one block or several.
fn padded(g: &mut Rng, d: &mut Draft, n: usize) {
    let everywhere = g.chance(30);
    let one = g.below(d.blocks.len());
    while d.instructions() < n {
        let b = if everywhere { g.below(d.blocks.len()) } else { one };
        let at = g.below(d.blocks[b].len());
        d.blocks[b].insert(at, Record { statement: 7, ..stmt() });
    }
}

fn many_blocks(g: &mut Rng) -> Draft {
    let n = around(g, 160);
    let shape = Shape { blocks: n, length: 2, lone: 60, most: 480, registers: g.range(1, 5), ..Shape::small(g) };
    let mut d = shape.draft(g);
    while d.blocks.len() < n {
        let to = [0; 2].map(|_| g.below(n) as u32);
        let last = if g.chance(60) { br(to[0]) } else { cond_br(0, to[0], to[1]) };
        d.blocks.push(vec![Record { statement: 9, ..last }]);
    }
    d
}

fn many_operands(g: &mut Rng) -> Draft {
    let mut d = some_shape(g).draft(g);
    let n = around(g, 128);
    while d.operands.len() < n {
        let r = g.below(d.registers.len()) as u32;
        d.operands.push(r);
    }
    let start = g.below(n + 1);
    let length = g.below(n - start + 2);
    let call = if g.chance(50) {
        ins(kind::CALL_NATIVE, 0, &[3, start as u32, length as u32])
    } else {
        ins(kind::MAKE_DOPE, 0, &[0, start as u32, length as u32])
    };
    let b = g.below(d.blocks.len());
    d.blocks[b].insert(0, call);
    d
}

fn many_arms(g: &mut Rng) -> Draft {
    let mut d = some_shape(g).draft(g);
    let blocks = d.blocks.len();
    let n = around(g, 128);
    let used = |d: &Draft| d.tables.iter().map(|t| t.arms.len() + 1).sum::<usize>();
    while used(&d) < n {
        let arms = g.below(n - used(&d)).min(g.pick(&[0, 3, 200]));
        let arms = (0..arms).map(|k| (k as i64, 2 * k as i64, g.below(blocks) as u32)).collect();
        let default = g.below(blocks) as u32;
        d.tables.push(Table { arms, default });
    }
    let b = g.below(blocks);
    let t = g.below(d.tables.len()) as u32;
    *d.blocks[b].last_mut().expect("no block is empty") = ins(kind::CASE, 0, &[0, t]);
    d
}

/// A register of 250 to 260 writes, some three at a time.
fn often_written(g: &mut Rng) -> Draft {
    let n = g.range(250, 260);
    let mut d = written_often(n);
    if g.chance(50) {
        let three = ins(kind::TAKE_BOUNDS, 0, &[1, 1, 1]);
        d.blocks[0].drain(..3);
        d.blocks[0].insert(0, three);
    }
    d
}

/// So many comparisons, each of the one before into a new register, and a branch on the last.
fn small_test(g: &mut Rng, d: &mut Draft, size: usize, [t, f]: [u32; 2]) -> Vec<Record> {
    let mut c = 0;
    let mut block = Vec::new();
    for _ in 0..size {
        d.registers.push(g.below(5) as u8);
        let dst = d.registers.len() as u32 - 1;
        block.push(cmp(g.below(6) as u8, dst, c, 1));
        c = dst;
    }
    block.push(cond_br(c, t, f));
    block
}

/// Small blocks of the most instructions, copied until the bound, and all of it reached: the
/// longest that can come out where the counts are those of the limits.
fn longest(g: &mut Rng) -> Draft {
    let most = g.chance(30);
    let shared = if most { 1 } else { g.range(1, 5) };
    let takers = if most { 157 } else { g.range(20, 100) };
    let mut d = Draft { registers: vec![0; 2], ..Draft::default() };
    let arms = (0..takers.min(127)).map(|k| (k as i64, k as i64, 1 + k as u32)).collect();
    d.tables = vec![Table { arms, default: 1 }];
    d.blocks.push(vec![ins(kind::CASE, 0, &[0, 0])]);
    for _ in 0..takers {
        d.blocks.push(vec![br((1 + takers + g.below(shared)) as u32)]);
    }
    for s in 0..shared {
        let size = if most { 3 } else { g.range(0, 3) };
        let next = 1 + takers + (s + 1) % (shared + 1);
        let arms = [g.below(takers) as u32, next as u32];
        let block = small_test(g, &mut d, size, arms);
        d.blocks.push(block);
    }
    d.blocks.push(vec![ret()]);
    let n = if most { 480 } else { around(g, 480).min(d.instructions() + g.below(400)) };
    let last = d.blocks.len() - 1;
    while d.instructions() < n {
        d.blocks[last].insert(0, stmt());
    }
    if most || g.chance(50) {
        d.registers.resize(480, 0);
    }
    if most {
        d.operands = vec![0; 128];
        d.body = Some(last as u32);
    }
    d.with_statements(10)
}

#[cfg(test)]
mod tests {
    use super::*;
    use crate::read::read;

    /// Files on both sides of each limit on records, and of the smaller ones of shortening.
    #[test]
    fn limits_are_met_and_passed() {
        let files: Vec<Vec<u8>> = (0..2000).map(|seed| of_records(&mut Rng::new(seed))).collect();
        let counts: Vec<[usize; 6]> = files.iter().filter_map(|f| read(f).ok()).collect();
        for (class, limit) in [(0, 480), (0, 756), (1, 160), (3, 480), (3, 756), (4, 128), (5, 128)] {
            assert!(counts.iter().any(|c| c[class] == limit), "class {} at {limit}", class + 1);
        }
        assert!(counts.iter().any(|c| c[0] == 481) && counts.iter().any(|c| c[3] == 481));
        assert!(files.iter().any(|f| read(f) == Err((3, 0))));
    }
}
