//! Asks Tidy of generated files through the C interface and of the Rust implementation.
//! Usage: compare-tidy [files] [first seed]

#[path = "../c_tidy.rs"]
mod c_tidy;

use checks::compare::{argument, Differences, Room};
use checks::damage::damage;
use checks::generate::{valid, Counts};
use checks::generate_tidy::{Clause, TidyFile, CLAUSES};
use checks::rng::Rng;
use checks::tidy;
use std::process::ExitCode;

/// A file of the comparison.
enum Made {
    /// With clauses of Tidy met on purpose.
    Clauses(TidyFile),
    /// Valid, else at random.
    Valid(Vec<u8>),
    /// Damaged.
    Damaged(Vec<u8>),
}

/// The file of a seed: of 20, 17 are made for Tidy, 1 is valid and 2 are damaged.
fn make(seed: u64) -> Made {
    let mut rng = Rng::new(seed);
    let sort = rng.below(20);
    if sort < 17 {
        return Made::Clauses(TidyFile::any(&mut rng));
    }
    let counts = Counts::any(&mut rng);
    let mut bytes = valid(&mut rng, &counts);
    if sort == 17 {
        return Made::Valid(bytes);
    }
    damage(&mut rng, &mut bytes);
    Made::Damaged(bytes)
}

/// How often each clause was met alone, and what the answers were.
#[derive(Default)]
struct Tally {
    alone: [usize; CLAUSES.len()],
    two: usize,
    none: usize,
    farthest: usize,
    yes: usize,
    no: usize,
    refused: [usize; 8],
}

impl Tally {
    fn note_clauses(&mut self, met: &[(Clause, u32, usize)]) {
        match met {
            [] => self.none += 1,
            [(clause, _, distance)] => {
                let place = CLAUSES.iter().position(|other| other == clause);
                self.alone[place.expect("all clauses are listed")] += 1;
                self.farthest = self.farthest.max(*distance);
            }
            _ => self.two += 1,
        }
    }

    fn note_answer(&mut self, (number, _, tidy, _): (u32, u32, u32, u32)) {
        match (number, tidy) {
            (0, 1) => self.yes += 1,
            (0, _) => self.no += 1,
            _ => self.refused[number as usize] += 1,
        }
    }

    fn print(&self) {
        let list = |offends: bool| {
            let wanted = CLAUSES.iter().zip(self.alone).filter(|(c, _)| c.offends() == offends);
            let items: Vec<String> = wanted.map(|(c, count)| format!("{c:?} {count}")).collect();
            items.join(", ")
        };
        println!("  offend by one clause alone: {}", list(true));
        println!("  read without offence: {}", list(false));
        println!("  the farthest block that leads: {} targets away", self.farthest);
        println!("  two reads put in: {}, none: {}", self.two, self.none);
        let refused: Vec<String> = (1..8).map(|n| format!("{n}: {}", self.refused[n])).collect();
        println!("  answers: yes {}, no {}, refused {}", self.yes, self.no, refused.join(", "));
    }
}

fn due(file: &TidyFile) -> (u32, u32, u32, u32) {
    match file.due() {
        None => (0, 0, 1, 0),
        Some(register) => (0, 0, 0, register),
    }
}

fn main() -> ExitCode {
    let files = argument(1, 1_000_000);
    let first_seed = argument(2, 1);
    let mut tally = Tally::default();
    let mut differences = Differences::default();
    let mut not_due = 0;
    let mut room = Room::default();
    for seed in first_seed..first_seed + files {
        let made = make(seed);
        let bytes = match &made {
            Made::Clauses(file) => file.procedure.bytes(),
            Made::Valid(bytes) | Made::Damaged(bytes) => bytes.clone(),
        };
        let answer = tidy(&bytes);
        tally.note_answer(answer);
        if let Made::Clauses(file) = &made {
            tally.note_clauses(&file.met);
            if answer != due(file) {
                not_due += 1;
                println!("seed {seed}: due {:?}, Rust {answer:?}", due(file));
            }
        }
        if c_tidy::tidy(room.place(&bytes, seed as usize)) != answer {
            differences.note(seed, &bytes);
        }
    }
    println!(
        "compare-tidy: {files} files, {} differences, {not_due} answers not those put in",
        differences.count
    );
    tally.print();
    differences.print(c_tidy::tidy, tidy);
    if differences.count == 0 && not_due == 0 {
        ExitCode::SUCCESS
    } else {
        ExitCode::FAILURE
    }
}
