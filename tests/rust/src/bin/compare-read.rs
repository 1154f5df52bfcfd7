//! Reads generated and damaged files through the C interface and with the Rust reader.
//! Usage: compare-read [files] [first seed]

#[path = "../c_read.rs"]
mod c_read;

use checks::compare::{argument, Differences, Room};
use checks::damage::damage;
use checks::generate::{valid, Counts};
use checks::read;
use checks::rng::Rng;
use std::process::ExitCode;

/// The file of a seed: one in eight is left valid.
fn file(seed: u64) -> Vec<u8> {
    let mut rng = Rng::new(seed);
    let counts = Counts::any(&mut rng);
    let mut bytes = valid(&mut rng, &counts);
    if !rng.chance(1, 8) {
        damage(&mut rng, &mut bytes);
    }
    bytes
}

fn main() -> ExitCode {
    let files = argument(1, 4_000_000);
    let first_seed = argument(2, 1);
    let mut answers = [0usize; 8];
    let mut total_bytes = 0;
    let mut differences = Differences::default();
    let mut room = Room::default();
    for seed in first_seed..first_seed + files {
        let bytes = file(seed);
        let answer = read(&bytes);
        answers[answer.0 as usize] += 1;
        total_bytes += bytes.len();
        if c_read::read(room.place(&bytes, seed as usize)) != answer {
            differences.note(seed, &bytes);
        }
    }
    let counts: Vec<String> =
        answers.iter().enumerate().map(|(number, count)| format!("{number}: {count}")).collect();
    println!(
        "compare-read: {files} files, {total_bytes} bytes, {} differences; by answer {}",
        differences.count,
        counts.join(", ")
    );
    differences.print(c_read::read, read);
    if differences.count == 0 {
        ExitCode::SUCCESS
    } else {
        ExitCode::FAILURE
    }
}
