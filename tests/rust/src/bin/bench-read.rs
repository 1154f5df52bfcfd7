//! Times the reading of accepted files through the C interface beside the Rust reader.
//! Usage: bench-read             all sizes, as a table
//!        bench-read c|rust <n>  one file of n instructions read once, to be counted

#[path = "../c_read.rs"]
mod c_read;

use checks::bench::{best_of_turns, heading, line};
use checks::generate::{valid, Counts};
use checks::read;
use checks::record::RECORD_BYTES;
use checks::rng::Rng;
use std::hint::black_box;

const SIZES: [usize; 4] = [10, 100, 480, 756];
const FILES_OF_A_SIZE: u64 = 16;

fn file(instructions: usize, seed: u64) -> Vec<u8> {
    let bytes = valid(&mut Rng::new(seed), &Counts::in_proportion(instructions));
    assert_eq!(read(&bytes), (0, 0));
    assert_eq!(c_read::read(&bytes), (0, 0));
    bytes
}

fn table() {
    println!("{}", heading("instructions (records)"));
    for size in SIZES {
        let files: Vec<Vec<u8>> = (0..FILES_OF_A_SIZE).map(|seed| file(size, seed)).collect();
        let name = format!("{size} ({})", files[0].len() / RECORD_BYTES);
        println!("{}", line(&name, &files, best_of_turns(&files, c_read::read, read)));
    }
    println!("The speed ratio is above 1 where Rattle is the faster.");
}

/// The call that callgrind counts.
#[inline(never)]
#[no_mangle]
fn counted_c(bytes: &[u8]) -> (u32, u32) {
    black_box(c_read::read(bytes))
}

/// The same with the Rust reader.
#[inline(never)]
#[no_mangle]
fn counted_rust(bytes: &[u8]) -> (u32, u32) {
    black_box(read(bytes))
}

fn once(which: &str, size: usize) {
    let bytes = file(size, 0);
    match which {
        "c" => counted_c(black_box(&bytes)),
        _ => counted_rust(black_box(&bytes)),
    };
    println!("{}", bytes.len() / RECORD_BYTES);
}

fn main() {
    let arguments: Vec<String> = std::env::args().skip(1).collect();
    match arguments.as_slice() {
        [] => table(),
        [which, size] => once(which, size.parse().expect("a number is due")),
        _ => eprintln!("usage: bench-read [c|rust <instructions>]"),
    }
}
