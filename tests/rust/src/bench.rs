//! Two functions over the same files, timed in turns.

use std::hint::black_box;
use std::time::{Duration, Instant};

/// How long one turn lasts, about.
const TURN: Duration = Duration::from_millis(20);
const TURNS: usize = 15;

/// The best time of each for one pass over the files.
pub fn best_of_turns<A, B>(
    files: &[Vec<u8>],
    one: impl Fn(&[u8]) -> A,
    other: impl Fn(&[u8]) -> B,
) -> (Duration, Duration) {
    let passes = passes_in_a_turn(files, &other);
    let mut best = (Duration::MAX, Duration::MAX);
    for _ in 0..TURNS {
        best.0 = best.0.min(time(files, passes, &one));
        best.1 = best.1.min(time(files, passes, &other));
    }
    best
}

fn passes_in_a_turn<A>(files: &[Vec<u8>], function: impl Fn(&[u8]) -> A) -> u32 {
    let once = time(files, 10, &function);
    (TURN.as_nanos() / once.as_nanos().max(1)).max(1) as u32
}

/// The mean time of a pass over the files.
fn time<A>(files: &[Vec<u8>], passes: u32, function: &impl Fn(&[u8]) -> A) -> Duration {
    let start = Instant::now();
    for _ in 0..passes {
        for file in files {
            black_box(function(black_box(file)));
        }
    }
    start.elapsed() / passes
}

/// One line: files and bytes per second of both, their ratio, and time per record of both.
pub fn line(name: &str, files: &[Vec<u8>], (c, rust): (Duration, Duration)) -> String {
    let bytes: usize = files.iter().map(Vec::len).sum();
    let per_second = |amount: usize, time: Duration| amount as f64 / time.as_secs_f64();
    let per_record = |time: Duration| time.as_secs_f64() * 1e9 * 32.0 / bytes as f64;
    format!(
        "{name:>28} {:>11.0} {:>11.0} {:>9.0} {:>9.0} {:>7.2} {:>8.2} {:>8.2}",
        per_second(files.len(), c),
        per_second(files.len(), rust),
        per_second(bytes, c) / 1e6,
        per_second(bytes, rust) / 1e6,
        rust.as_secs_f64() / c.as_secs_f64(),
        per_record(c),
        per_record(rust),
    )
}

/// The heading over such lines.
pub fn heading(name: &str) -> String {
    format!(
        "{name:>28} {:>11} {:>11} {:>9} {:>9} {:>7} {:>8} {:>8}\n{:>28} {:>11} {:>11} {:>9} {:>9} {:>7} {:>8} {:>8}",
        "files/s", "files/s", "MB/s", "MB/s", "speed", "ns/rec.", "ns/rec.",
        "", "Rattle", "Rust", "Rattle", "Rust", "ratio", "Rattle", "Rust"
    )
}
