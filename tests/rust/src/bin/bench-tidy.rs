//! Times Tidy on tidy files through the C interface beside the Rust implementation.
//! Usage: bench-tidy             all sizes, as a table
//!        bench-tidy c|rust <n>  one file of n instructions asked once, to be counted

#[path = "../c_tidy.rs"]
mod c_tidy;

use checks::bench::{best_of_turns, heading, line};
use checks::file::{inst, Procedure};
use checks::record::{kind, op, Record, RECORD_BYTES};
use checks::tidy;
use std::hint::black_box;

/// Instructions and blocks: in the proportion of the limits, then the most instructions with
/// more and more blocks.
const IN_PROPORTION: [(usize, usize); 4] = [(10, 2), (100, 21), (480, 101), (756, 160)];
const MORE_BLOCKS: [(usize, usize); 5] = [(756, 10), (756, 20), (756, 40), (756, 80), (756, 160)];

/// The ways that the blocks lead.
#[derive(Clone, Copy)]
enum Ways {
    /// Each block to the next, so that all earlier blocks lead to a later one.
    Chain,
    /// Each block to the next two.
    Braid,
    /// None: every block returns.
    Apart,
}

/// A tidy file in which every block writes an address that other blocks read, so that the
/// lead to every block is asked for.
fn procedure(instructions: usize, blocks: usize, ways: Ways) -> Procedure {
    let [free, twice, first_address, first_local] = [0, 1, 2, 2 + blocks as u32];
    let registers = 2 + 2 * blocks;
    let code = |block: usize| {
        let address = first_address + block as u32;
        let before = first_address + block.saturating_sub(1) as u32;
        let local = first_local + block as u32;
        let length = instructions * (block + 1) / blocks - instructions * block / blocks;
        let mut code = vec![inst(kind::ADDR_OF, &[address, 0, 8]).with_op(op::FRAME)];
        let rest = [
            inst(kind::LOAD, &[local, if block == 0 { free } else { before }]).with_op(2),
            inst(kind::CMP, &[twice, local, address]).with_op(1),
            inst(kind::BIN, &[twice, local, free]),
            inst(kind::STORE, &[address, twice]).with_op(2),
        ];
        code.push(rest[0]);
        code.extend(rest[1..].iter().cycle().take(length.saturating_sub(3)));
        code.push(last(block, blocks, ways));
        code
    };
    Procedure {
        registers: vec![0; registers],
        blocks: (0..blocks).map(code).collect(),
        ..Procedure::default()
    }
}

fn last(block: usize, blocks: usize, ways: Ways) -> Record {
    let next = |steps: usize| (block + steps).min(blocks - 1) as u32;
    match ways {
        Ways::Chain if block + 1 < blocks => inst(kind::BR, &[next(1)]),
        Ways::Braid if block + 1 < blocks => inst(kind::COND_BR, &[0, next(1), next(2)]),
        _ => inst(kind::RET, &[]),
    }
}

fn file(instructions: usize, blocks: usize, ways: Ways) -> Vec<u8> {
    let bytes = procedure(instructions, blocks, ways).bytes();
    assert_eq!(tidy(&bytes), (0, 0, 1, 0));
    assert_eq!(c_tidy::tidy(&bytes), (0, 0, 1, 0));
    bytes
}

fn table(name: &str, sizes: &[(usize, usize)], ways: Ways) {
    println!("{}", heading(name));
    for &(instructions, blocks) in sizes {
        let files = vec![file(instructions, blocks, ways)];
        let name = format!("{instructions}, {blocks} ({})", files[0].len() / RECORD_BYTES);
        println!("{}", line(&name, &files, best_of_turns(&files, c_tidy::tidy, tidy)));
    }
}

fn tables() {
    println!("instructions, blocks (records)");
    table("in proportion, chain", &IN_PROPORTION, Ways::Chain);
    table("more blocks, chain", &MORE_BLOCKS, Ways::Chain);
    table("more blocks, braid", &MORE_BLOCKS, Ways::Braid);
    table("more blocks, apart", &MORE_BLOCKS, Ways::Apart);
    println!("The speed ratio is above 1 where Rattle is the faster.");
}

/// The call that callgrind counts.
#[inline(never)]
#[no_mangle]
fn counted_c(bytes: &[u8]) -> (u32, u32, u32, u32) {
    black_box(c_tidy::tidy(bytes))
}

/// The same with the Rust implementation.
#[inline(never)]
#[no_mangle]
fn counted_rust(bytes: &[u8]) -> (u32, u32, u32, u32) {
    black_box(tidy(bytes))
}

fn once(which: &str, instructions: usize) {
    let blocks = (160 * instructions).div_ceil(756);
    let bytes = file(instructions, blocks.min(instructions / 3), Ways::Chain);
    match which {
        "c" => counted_c(black_box(&bytes)),
        _ => counted_rust(black_box(&bytes)),
    };
    println!("{}", bytes.len() / RECORD_BYTES);
}

fn main() {
    let arguments: Vec<String> = std::env::args().skip(1).collect();
    match arguments.as_slice() {
        [] => tables(),
        [which, size] => once(which, size.parse().expect("a number is due")),
        _ => eprintln!("usage: bench-tidy [c|rust <instructions>]"),
    }
}
