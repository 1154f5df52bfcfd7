//! What a comparison reached.

use crate::probe::{EVENTS, LENGTHS};
use crate::procedure::Procedure;
use crate::record::{RECORD, kind};
use crate::{Answer, read};

#[derive(Default)]
pub struct Tally {
    calls: u64,
    numbers: [u64; 10],
    moved: u64,
    grown: u64,
    fresh: u64,
    rescued: u64,
    /// Calls on accepted files by room.
    rooms: [u64; ROOMS.len()],
    limits: [u64; LIMITS.len()],
    /// Files whose longest row of lone Brs is of six, and of seven.
    chains: [u64; CHAINS.len()],
    most_grown: u32,
    most_fresh: u32,
    most_rescued: u32,
    longest_code: usize,
    longest: usize,
    events: [u64; EVENTS.len()],
    lengths: [u64; LENGTHS.len()],
}

/// The last but one is what every file is asked for with.
const ROOMS: [&str; 5] = ["nothing", "one byte less", "one record less", "just enough", "more"];

const CHAINS: [&str; 2] = ["six lone Brs in a row", "seven"];

/// The longest output that can come out.
const LONGEST: usize = 57_312;

const LIMITS: [&str; 15] = [
    "480 registers",
    "481 registers",
    "480 instructions",
    "481 instructions",
    "756 registers or instructions",
    "160 blocks",
    "128 operands",
    "128 arms",
    "254 writes of a register",
    "255 writes",
    "256 writes",
    "257 writes",
    "258 writes",
    "grown equal to n/2 + 32",
    "grown past it",
];

impl Tally {
    pub fn note(&mut self, bytes: &[u8], a: &Answer) {
        self.numbers[a.number as usize] += 1;
        self.moved += u64::from(a.moved);
        for (count, met) in [(&mut self.grown, a.grown), (&mut self.fresh, a.fresh), (&mut self.rescued, a.rescued)] {
            *count += u64::from(met > 0);
        }
        self.most_grown = self.most_grown.max(a.grown);
        self.most_fresh = self.most_fresh.max(a.fresh);
        self.most_rescued = self.most_rescued.max(a.rescued);
        self.longest = self.longest.max(a.output.len());
        if a.number == 0 && a.output.len() > 600 * RECORD {
            let code = a.output.chunks_exact(RECORD).filter(|r| r[0] == 4).count();
            self.longest_code = self.longest_code.max(code);
        }
        if a.number == 0 {
            self.note_chains(bytes);
        }
        // Fewer records can't be near a limit, save that of the bound for copies.
        if bytes.len() >= 100 * RECORD || a.grown > 32 {
            self.note_limits(bytes, a);
        }
    }

    fn note_limits(&mut self, bytes: &[u8], a: &Answer) {
        let Ok([registers, blocks, _, code, operands, arms]) = read::read(bytes) else { return };
        let bound = (code / 2 + 32) as u32;
        let writes = Procedure::from_bytes(bytes).writes();
        let written = |n: u32| writes.contains(&n);
        let met = [
            registers == 480,
            registers == 481,
            code == 480,
            code == 481,
            registers == 756 || code == 756,
            blocks == 160,
            operands == 128,
            arms == 128,
            written(254),
            written(255),
            written(256),
            written(257),
            written(258),
            a.grown == bound,
            a.grown > bound,
        ];
        met.iter().zip(&mut self.limits).for_each(|(&met, count)| *count += u64::from(met));
    }

    fn note_chains(&mut self, bytes: &[u8]) {
        let next = lone_brs(bytes);
        let row = |b: usize| std::iter::successors(next[b], |&to| next[to]).take(8).count();
        let longest = (0..next.len()).map(row).max().unwrap_or(0);
        (6..8).zip(&mut self.chains).for_each(|(n, count)| *count += u64::from(longest == n));
    }

    /// A call with this room.
    pub fn asked(&mut self, a: &Answer, room: usize) {
        self.calls += 1;
        let length = a.output.len();
        if a.number == 0 {
            let less = length.checked_sub(room);
            let sort = match less {
                None => 4,
                Some(0) => 3,
                Some(1) => 1,
                Some(RECORD) => 2,
                Some(_) => 0,
            };
            assert!(sort != 0 || room == 0, "a room that the tally has no name for");
            self.rooms[sort] += 1;
            self.numbers[9] += u64::from(less.is_some_and(|less| less > 0));
        }
    }

    pub fn calls(&self) -> u64 {
        self.calls
    }

    pub fn events(&mut self, seen: [u64; EVENTS.len()], of_lengths: [u64; LENGTHS.len()]) {
        self.events.iter_mut().zip(seen).for_each(|(count, n)| *count += n);
        self.lengths.iter_mut().zip(of_lengths).for_each(|(count, n)| *count += n);
    }

    pub fn add(&mut self, other: &Tally) {
        let sum = |to: &mut [u64], from: &[u64]| to.iter_mut().zip(from).for_each(|(a, b)| *a += b);
        sum(&mut self.numbers, &other.numbers);
        sum(&mut self.rooms, &other.rooms);
        sum(&mut self.limits, &other.limits);
        sum(&mut self.chains, &other.chains);
        sum(&mut self.events, &other.events);
        sum(&mut self.lengths, &other.lengths);
        self.calls += other.calls;
        self.moved += other.moved;
        self.grown += other.grown;
        self.fresh += other.fresh;
        self.rescued += other.rescued;
        self.most_grown = self.most_grown.max(other.most_grown);
        self.most_fresh = self.most_fresh.max(other.most_fresh);
        self.most_rescued = self.most_rescued.max(other.most_rescued);
        self.longest_code = self.longest_code.max(other.longest_code);
        self.longest = self.longest.max(other.longest);
    }

    /// All counts by name, save those of numbers.
    fn counts(&self) -> impl Iterator<Item = (&'static str, u64)> {
        let files = [self.moved, self.grown, self.fresh, self.rescued];
        let all = ["moved", "grown", "fresh", "rescued"].into_iter().zip(files);
        let named = |names: &[&'static str], counts: &[u64]| -> Vec<_> {
            names.iter().copied().zip(counts.iter().copied()).collect()
        };
        all.chain(named(&ROOMS, &self.rooms))
            .chain(named(&LIMITS, &self.limits))
            .chain(named(&CHAINS, &self.chains))
            .chain(named(&EVENTS, &self.events))
            .chain(named(&LENGTHS, &self.lengths))
    }

    /// What no file reached.
    pub fn missing(&self) -> Vec<String> {
        let numbers = (0..10).filter(|&n| self.numbers[n] == 0).map(|n| format!("number {n}"));
        let others = self.counts().filter(|c| c.1 == 0).map(|c| c.0.to_string());
        let longest = (self.longest < LONGEST).then(|| format!("an output of {LONGEST} bytes"));
        numbers.chain(others).chain(longest).collect()
    }

    pub fn print(&self) {
        let list = |names: &[&str], counts: &[u64]| {
            names.iter().zip(counts).map(|(n, c)| format!("{n} {c}")).collect::<Vec<String>>().join(", ")
        };
        let numbers: Vec<String> = (0..10).map(|n| format!("{n}: {}", self.numbers[n])).collect();
        println!("  files by number {}; calls refused with {}", numbers[..9].join(", "), numbers[9]);
        println!(
            "  files moved {}, grown {}, fresh {}, rescued {}; at most grown {}, fresh {}, rescued {}",
            self.moved, self.grown, self.fresh, self.rescued, self.most_grown, self.most_fresh, self.most_rescued
        );
        println!("  longest output {} bytes, {} instructions", self.longest, self.longest_code);
        println!("  calls by room on accepted files: {}", list(&ROOMS, &self.rooms));
        println!("  files with {}", list(&LIMITS, &self.limits));
        println!("  accepted files with {}", list(&CHAINS, &self.chains));
        println!("  blocks in threading: {}", list(&EVENTS, &self.events));
        println!("  Cmps in slice_tests, and what it noted: {}", list(&LENGTHS, &self.lengths));
    }
}

/// Of each block that is a Br alone, where it goes; of an accepted file.
fn lone_brs(bytes: &[u8]) -> Vec<Option<usize>> {
    let f = Procedure::from_bytes(bytes);
    let lone = |b: usize| match f.block(b) {
        [only] if only.kind == kind::BR => Some(only.p[0] as usize),
        _ => None,
    };
    (0..f.blocks.len()).map(lone).collect()
}

#[cfg(test)]
mod tests {
    use super::*;
    use crate::cases::chain;

    #[test]
    fn rows_of_lone_brs_are_counted() {
        for (n, due) in [(5, [0, 0]), (6, [1, 0]), (7, [0, 1]), (8, [0, 0])] {
            let mut tally = Tally::default();
            tally.note(&chain(n, n % 2 == 0).bytes(), &Answer::default());
            assert_eq!(tally.chains, due, "{n}");
        }
    }

    #[test]
    fn what_is_not_reached_is_missing() {
        let mut tally = Tally::default();
        let all = 10 + 4 + ROOMS.len() + LIMITS.len() + CHAINS.len() + EVENTS.len() + LENGTHS.len() + 1;
        assert_eq!(tally.missing().len(), all);
        tally.note(&[], &Answer::refused(3, 0));
        tally.asked(&Answer { output: vec![0; 64], ..Answer::default() }, 0);
        assert_eq!(tally.missing().len(), all - 3);
    }
}
