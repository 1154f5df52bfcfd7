//! What the two comparisons share: files at any address, and the report of differences.

use crate::compact::compact;
use crate::record::RECORD_BYTES;
use std::fmt::Debug;

/// A number from the command line, or another where it isn't given.
pub fn argument(place: usize, otherwise: u64) -> u64 {
    let given = std::env::args().nth(place);
    given.map_or(otherwise, |text| text.parse().expect("a number is due"))
}

/// Room in which a file stands at any address, aligned or not.
#[derive(Default)]
pub struct Room(Vec<u8>);

impl Room {
    /// The file at an address of remainder `shift` by 8.
    pub fn place(&mut self, bytes: &[u8], shift: usize) -> &[u8] {
        self.0.clear();
        self.0.reserve(bytes.len() + 16);
        let start = self.0.as_ptr().align_offset(8) + shift % 8;
        self.0.resize(start, 0);
        self.0.extend_from_slice(bytes);
        &self.0[start..]
    }
}

/// The differences found so far: how many, and the smallest file among them.
#[derive(Default)]
pub struct Differences {
    pub count: usize,
    smallest: Option<(u64, Vec<u8>)>,
}

impl Differences {
    pub fn note(&mut self, seed: u64, bytes: &[u8]) {
        self.count += 1;
        if self.smallest.as_ref().is_none_or(|(_, smallest)| bytes.len() < smallest.len()) {
            self.smallest = Some((seed, bytes.to_vec()));
        }
    }

    /// Prints the smallest file, as made and with all records taken away that don't matter.
    pub fn print<A: Debug + PartialEq>(&self, c: fn(&[u8]) -> A, rust: fn(&[u8]) -> A) {
        let Some((seed, bytes)) = &self.smallest else { return };
        let reduced = reduce(bytes, |bytes| c(bytes) != rust(bytes));
        println!("seed {seed}: C interface {:?}, Rust {:?}", c(bytes), rust(bytes));
        println!("  file {}", compact(bytes));
        println!("reduced: C interface {:?}, Rust {:?}", c(&reduced), rust(&reduced));
        println!("  file {}", compact(&reduced));
    }
}

/// Takes records away as long as the file keeps the property.
fn reduce(bytes: &[u8], keeps: impl Fn(&[u8]) -> bool) -> Vec<u8> {
    let mut file = bytes.to_vec();
    loop {
        let length = file.len();
        for place in (0..file.len() / RECORD_BYTES).rev() {
            let mut less = file.clone();
            less.drain(place * RECORD_BYTES..(place + 1) * RECORD_BYTES);
            if keeps(&less) {
                file = less;
            }
        }
        if file.len() == length {
            return file;
        }
    }
}
