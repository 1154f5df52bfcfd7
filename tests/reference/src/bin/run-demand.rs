//! Demand 3 by running: tidy files, shortened by a library, both forms on document 01's machine.
//! Usage: run-demand [files] [first seed] [--form NAME]
//! HALIVOMUE_LIBRARY names the shared object. With --form that form of a file (sent, threaded, sliced) is run beside it
//! instead of what the library writes; HALIVOMUE_STEPS names the shared object of the crate `bench_c`. Where a test of a
//! length was rewritten, the claim goes as far as the lengths are right; what was rewritten is seen beside the threaded form,
//! which is that of HALIVOMUE_STEPS, or without it that of the published Rust. From ten thousand files on it fails where
//! something of the tally was not reached.

use halivomue_reference::answers::packed;
use halivomue_reference::cores::on_all_cores;
use halivomue_reference::forms;
use halivomue_reference::library::{Library, Shortening};
use halivomue_reference::machine::{Claim, End, Met, demand_3};
use halivomue_reference::measured::Measured;
use halivomue_reference::procedure::Procedure;
use halivomue_reference::reduce::{reduced, told};
use halivomue_reference::{Shorten, generate, level, read, reference, tidy};
use std::process::ExitCode;

/// More than any result needs.
const ROOM: usize = 65_536;

/// Pairs of runs of each file, and the original's instructions in each.
const RUNS: u64 = 3;
const LENGTH: usize = 120;

/// So many files reach all of the tally.
const ENOUGH: u64 = 10_000;

/// Of 100 files, how many of each family.
const SHARES: [(&str, u64); 7] = [
    ("tidy", 48),
    ("tidy-chains", 13),
    ("tidy-process", 13),
    ("tidy-known", 8),
    ("tidy-large", 2),
    ("tidy-budget", 1),
    ("tidy-lengths", 15),
];

/// Where a form of a file comes from.
#[derive(Clone, Copy)]
enum Form {
    Shorten(Library),
    Named(forms::Form),
    /// The threaded form of the published Rust.
    Rust(Shorten),
}

impl Form {
    fn write(self, bytes: &[u8], out: &mut [u8]) -> Shortening {
        match self {
            Form::Shorten(library) => library.shorten(bytes, out),
            Form::Named(form) => form.of(bytes, out),
            Form::Rust(shorten) => {
                let answer = level::with(&["thread"], || shorten(bytes, out.len()));
                out[..answer.output.len()].copy_from_slice(&answer.output);
                Shortening::from(&answer)
            }
        }
    }

    fn of(self, bytes: &[u8]) -> Result<(Shortening, Procedure), String> {
        let mut out = [0; ROOM];
        let told = self.write(bytes, &mut out);
        if told.number != 0 {
            return Ok((told, Procedure::default()));
        }
        let written = out.get(..told.length).ok_or("a length past the room")?;
        read::read(written).map_err(|(number, record)| format!("what was written is refused: {number} {record}"))?;
        Ok((told, Procedure::from_bytes(written)))
    }
}

/// The form that is run beside a file, and the one that shows which Cmps were rewritten in it.
#[derive(Clone, Copy)]
struct Source {
    form: Form,
    threaded: Form,
}

impl Source {
    fn from_environment(name: Option<&String>) -> Result<Source, String> {
        let form = match name {
            Some(name) => Form::Named(forms::Form::from_environment(name)?),
            None => Form::Shorten(Library::from_environment()?),
        };
        let threaded = match (forms::Form::from_environment("threaded"), reference()) {
            (Ok(form), _) => Form::Named(form),
            (Err(_), Some(shorten)) => Form::Rust(shorten),
            (Err(why), None) => return Err(format!("{why}; nor was the published Rust found when this was built")),
        };
        Ok(Source { form, threaded })
    }
}

fn file(seed: u64) -> Vec<u8> {
    let mut place = seed % 100;
    let family = SHARES.iter().find(|(_, share)| {
        let here = place < *share;
        place = place.wrapping_sub(*share);
        here
    });
    generate::file(family.expect("the shares make 100").0, seed)
}

const FILES: [&str; 5] = ["above the limits (not run)", "moved", "grown", "fresh", "rescued"];
const PAIRS: [&str; 13] = [
    "ended by Ret",
    "by Unreachable",
    "by the outside",
    "not ended",
    "with acts",
    "into block 0 again",
    "and with rescued constants",
    "an act with the last instruction of the bound",
    "with a rewritten Cmp",
    "of an empty range",
    "of another range",
    "up to a wrong length",
    "up to one of 2^63 or more",
];
/// So many of these don't speak of lengths.
const OTHERS: usize = 8;

/// What one thread found.
#[derive(Default)]
struct Found {
    files: [u64; FILES.len()],
    pairs: [u64; PAIRS.len()],
    failed: u64,
    smallest: Option<(u64, Vec<u8>, String)>,
}

impl Found {
    fn note_pair(&mut self, met: &Met, rescued: u32) {
        let again = met.entries > 1;
        let seen = [
            matches!(met.end, Some(End::Ret(..))),
            matches!(met.end, Some(End::Unreachable(..))),
            matches!(met.end, Some(End::Outside)),
            met.end.is_none(),
            met.acts > 0,
            again,
            again && rescued > 0,
            met.at_bound,
            met.tested != [0; 2],
            met.tested[0] > 0,
            met.tested[1] > 0,
            met.wrong,
            met.too_long,
        ];
        seen.iter().zip(&mut self.pairs).for_each(|(&seen, count)| *count += u64::from(seen));
    }

    fn note_failure(&mut self, seed: u64, bytes: Vec<u8>, why: String) {
        self.failed += 1;
        if self.smallest.as_ref().is_none_or(|s| bytes.len() < s.1.len()) {
            self.smallest = Some((seed, bytes, why));
        }
    }

    fn with(mut self, other: Found) -> Found {
        let sum = |to: &mut [u64], from: &[u64]| to.iter_mut().zip(from).for_each(|(a, b)| *a += b);
        sum(&mut self.files, &other.files);
        sum(&mut self.pairs, &other.pairs);
        self.failed += other.failed;
        let known = self.smallest.iter().chain(&other.smallest).min_by_key(|s| s.1.len()).cloned();
        Found { smallest: known, ..self }
    }
}

/// A tidy file and its form, and so many pairs of runs.
fn tried(source: Source, bytes: &[u8], seed: u64, runs: u64, found: &mut Found) -> Result<(), String> {
    let (told, short) = source.form.of(bytes)?;
    match told.number {
        0 => {}
        8 => return Ok(found.files[0] += 1),
        n => return Err(format!("refused with {n}")),
    }
    let sent = Procedure::from_bytes(bytes);
    let measured = Measured::between(&source.threaded.of(bytes)?.1, &short);
    let claim = Claim { shortened: &short, rescued: told.rescued, measured: &measured };
    for (k, count) in [told.moved, told.grown, told.fresh, told.rescued].into_iter().enumerate() {
        found.files[1 + k] += u64::from(count > 0);
    }
    for run in 0..runs {
        let met = demand_3(&sent, &claim, seed * RUNS + run, LENGTH).map_err(|why| format!("run {run}: {why}"))?;
        found.note_pair(&met, told.rescued);
    }
    Ok(())
}

fn ran(source: Source, seeds: impl Iterator<Item = u64>) -> Found {
    let mut found = Found::default();
    for seed in seeds {
        let bytes = file(seed);
        if let Err(why) = tried(source, &bytes, seed, RUNS, &mut found) {
            found.note_failure(seed, bytes, why);
        }
    }
    found
}

/// The file, and what is left of it when all goes that doesn't matter and it stays tidy.
fn print(source: Source, (seed, bytes, why): &(u64, Vec<u8>, String)) {
    println!("the smallest file, seed {seed}: {why}\n  file {}", packed(bytes));
    let tidy = |less: &[u8]| read::read(less).is_ok() && tidy::offender(&Procedure::from_bytes(less)).is_none();
    let fails = |less: &[u8]| tried(source, less, *seed, 20, &mut Found::default()).err();
    let less = reduced(bytes, |less| tidy(less) && fails(less).is_some());
    println!("reduced: {}\n  file {}", fails(&less).unwrap_or("not seen again".into()), packed(&less));
    print!("{}", told(&less));
}

/// How many files, the first seed, and the name of a form, from the command line.
fn arguments() -> (u64, u64, Option<String>) {
    let mut numbers = Vec::new();
    let mut form = None;
    let mut words = std::env::args().skip(1);
    while let Some(word) = words.next() {
        match word.as_str() {
            "--form" => form = Some(words.next().expect("a form's name is due")),
            _ => numbers.push(word.parse().expect("a number is due")),
        }
    }
    let number = |place: usize, otherwise| numbers.get(place).copied().unwrap_or(otherwise);
    (number(0, 100_000), number(1, 1), form)
}

fn main() -> ExitCode {
    let (files, first, form) = arguments();
    let source = match Source::from_environment(form.as_ref()) {
        Ok(source) => source,
        Err(why) => {
            eprintln!("{why}");
            return ExitCode::FAILURE;
        }
    };
    let shares = on_all_cores(first, files, |seeds| ran(source, seeds));
    let found = shares.into_iter().fold(Found::default(), Found::with);
    let list = |names: &[&str], counts: &[u64]| {
        names.iter().zip(counts).map(|(n, c)| format!("{n} {c}")).collect::<Vec<String>>().join(", ")
    };
    let pairs: u64 = found.pairs[..4].iter().sum();
    println!("run-demand: {files} tidy files, {pairs} pairs of runs, demand 3 fails on {}", found.failed);
    println!("  files: {}", list(&FILES, &found.files));
    println!("  pairs of runs: {}", list(&PAIRS, &found.pairs));
    if let Some(smallest) = &found.smallest {
        print(source, smallest);
        return ExitCode::FAILURE;
    }
    // The file as sent has no counts to reach, and the threaded form no lengths.
    let pairs = if form.as_deref() == Some("threaded") { OTHERS } else { PAIRS.len() };
    let all = form.as_deref() != Some("sent");
    if all && files >= ENOUGH && found.files[1..].iter().chain(&found.pairs[..pairs]).any(|&count| count == 0) {
        println!("run-demand: something of this was not reached");
        return ExitCode::FAILURE;
    }
    ExitCode::SUCCESS
}
