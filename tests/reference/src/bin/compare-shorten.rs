//! Asks a library's `halivomue_shorten` and the reference for the same generated files, and on a tenth of them holds
//! its `halivomue_provision` to its `halivomue_tidy` and `halivomue_shorten`, on another tenth its `halivomue_shorten_for`
//! to its `halivomue_shorten`.
//! Usage: compare-shorten [files] [first seed] [all]
//! HALIVOMUE_LIBRARY names the shared object. Every named case is asked for too, with all rooms. From a hundred
//! thousand files on, or with the word `all`, it fails where something of the tally was not reached.

use halivomue_reference::answers::packed;
use halivomue_reference::buffer::{Buffer, Finding, ask};
use halivomue_reference::cores::{argument, on_all_cores};
use halivomue_reference::generate::{self, Rng};
use halivomue_reference::library::{Library, Provisioning};
use halivomue_reference::record::RECORD;
use halivomue_reference::reduce::{reduced, told};
use halivomue_reference::shop::Shops;
use halivomue_reference::tally::Tally;
use halivomue_reference::{Answer, Shorten, cases, limits, probe, reference};
use std::process::ExitCode;

/// So many files reach all of the tally.
const ENOUGH: u64 = 100_000;

/// Of so many files one is asked of `halivomue_provision` too, and another of `halivomue_shorten_for`: in each thousand another
/// of ten.
const PROVISIONED: u64 = 10;

/// Bytes around a buffer that no call may change.
const GUARD: usize = 64;

/// Of 1000 files, how many of each family.
const SHARES: [(&str, usize); 15] = [
    ("small", 250),
    ("chains", 110),
    ("process", 110),
    ("kinds", 80),
    ("known", 70),
    ("tidy", 50),
    ("damaged", 70),
    ("lengths", 60),
    ("lengths-split", 60),
    ("tidy-lengths", 30),
    ("of steps", 60),
    ("of records", 30),
    ("budget", 8),
    ("large", 9),
    ("tidy-large", 3),
];

fn file(seed: u64) -> Vec<u8> {
    let mut place = (seed % 1000) as usize;
    let family = SHARES.iter().find(|(_, share)| {
        let here = place < *share;
        place = place.wrapping_sub(*share);
        here
    });
    let family = family.expect("the shares make 1000").0;
    match family {
        "of steps" => limits::of_steps(&mut Rng::new(seed)),
        "of records" => limits::of_records(&mut Rng::new(seed)),
        _ => generate::file(family, seed),
    }
}

/// The rooms to ask with: always just enough, and others in turn.
fn rooms(answer: &Answer, seed: u64) -> [usize; 2] {
    let length = answer.output.len();
    let all = [0, length.saturating_sub(1), length.saturating_sub(RECORD), length + 1, length + RECORD, 61_728, 65_536];
    [length, all[(seed / 1000 % all.len() as u64) as usize]]
}

/// What one thread found.
#[derive(Default)]
struct Found {
    tally: Tally,
    differences: usize,
    smallest: Option<(u64, Vec<u8>, usize)>,
    /// Calls of `halivomue_provision` by whether the file is tidy and by number; seed and room of those that differ.
    provisions: [[u64; 10]; 2],
    unlike: Vec<(u64, usize)>,
    shops: Shops,
}

impl Found {
    fn provisioned(&mut self, told: Provisioning, alike: bool, seed: u64, room: usize) {
        self.provisions[usize::from(told.tidy == 1)][(told.number as usize).min(9)] += 1;
        if !alike {
            self.unlike.push((seed, room));
        }
    }

    /// What no call of `halivomue_provision` answered.
    fn unprovisioned(&self) -> Vec<String> {
        let [other, tidy] = self.provisions;
        let read: u64 = other[1..8].iter().sum();
        let told = [
            ("accepted and tidy", tidy[0]),
            ("accepted and not tidy", other[0]),
            ("one of Read's refusals", read),
            ("8", tidy[8] + other[8]),
            ("9 and tidy", tidy[9]),
            ("9 and not tidy", other[9]),
        ];
        told.iter().filter(|t| t.1 == 0).map(|t| format!("halivomue_provision answering {}", t.0)).collect()
    }

    fn note(&mut self, seed: u64, bytes: &[u8], room: usize) {
        self.differences += 1;
        if self.smallest.as_ref().is_none_or(|s| bytes.len() < s.1.len()) {
            self.smallest = Some((seed, bytes.to_vec(), room));
        }
    }

    fn with(mut self, other: Found) -> Found {
        self.tally.add(&other.tally);
        self.differences += other.differences;
        self.provisions.iter_mut().flatten().zip(other.provisions.iter().flatten()).for_each(|(a, b)| *a += b);
        self.unlike.extend(&other.unlike);
        self.shops.add(&other.shops);
        let known = self.smallest.iter().chain(&other.smallest).min_by_key(|s| s.1.len()).cloned();
        Found { smallest: known, ..self }
    }
}

fn compared(library: Library, shorten: Shorten, seeds: impl Iterator<Item = u64>) -> Found {
    let (mut found, mut buffer) = (Found::default(), Buffer::default());
    for seed in seeds {
        let bytes = file(seed);
        let answer = shorten(&bytes, usize::MAX);
        found.tally.note(&bytes, &answer);
        for room in rooms(&answer, seed) {
            found.tally.asked(&answer, room);
            if ask(library, &mut buffer, &bytes, room, &answer, seed as usize).is_err() {
                found.note(seed, &bytes, room);
            }
            if seed % PROVISIONED == seed / 1000 % PROVISIONED
                && let Some((told, alike)) = provisioned(library, &bytes, room)
            {
                found.provisioned(told, alike, seed, room);
            }
            if (seed + 1) % PROVISIONED == seed / 1000 % PROVISIONED {
                found.shops.ask(library, &bytes, room, seed);
            }
        }
    }
    found.tally.events(probe::events(), probe::lengths());
    found
}

/// What `halivomue_provision` says, and whether that and all it writes is what `halivomue_tidy` and
/// `halivomue_shorten` say and write; nothing where the library doesn't have them.
fn provisioned(library: Library, bytes: &[u8], room: usize) -> Option<(Provisioning, bool)> {
    let (mut out, mut due) = (vec![0x5a; room + 2 * GUARD], vec![0x5a; room + 2 * GUARD]);
    let told = library.provision(bytes, &mut out[GUARD..GUARD + room])?;
    let tidiness = library.tidy(bytes)?;
    let shortening = library.shorten(bytes, &mut due[GUARD..GUARD + room]);
    Some((told, told == Provisioning::of(tidiness, shortening) && out == due))
}

/// The named cases with every room; their differences have seed 0.
fn named(library: Library, shorten: Shorten) -> Found {
    let (mut found, mut buffer) = (Found::default(), Buffer::default());
    for case in cases::cases() {
        let answer = shorten(&case.bytes, usize::MAX);
        found.tally.note(&case.bytes, &answer);
        for turn in 0..7 {
            for room in rooms(&answer, 1000 * turn) {
                found.tally.asked(&answer, room);
                if ask(library, &mut buffer, &case.bytes, room, &answer, turn as usize).is_err() {
                    found.note(0, &case.bytes, room);
                }
            }
        }
    }
    found
}

/// The differing file, and what is left of it when all goes that doesn't matter.
fn print(library: Library, shorten: Shorten, (seed, bytes, room): &(u64, Vec<u8>, usize)) {
    // The room follows the length: as much more or less as it was.
    let length = shorten(bytes, usize::MAX).output.len();
    let at = |bytes: &[u8]| (*room + shorten(bytes, usize::MAX).output.len()).saturating_sub(length);
    let differs = |bytes: &[u8], room: usize| -> Option<Finding> {
        let answer = shorten(bytes, usize::MAX);
        ask(library, &mut Buffer::default(), bytes, room, &answer, 0).err()
    };
    println!("the smallest file that differs, seed {seed}:");
    tell(bytes, *room, differs(bytes, *room));
    let less = reduced(bytes, |less| differs(less, at(less)).is_some());
    println!("reduced:");
    tell(&less, at(&less), differs(&less, at(&less)));
    print!("{}", told(&less));
}

fn tell(bytes: &[u8], room: usize, finding: Option<Finding>) {
    println!("  room {room}, file {}", packed(bytes));
    match finding {
        Some(f) => println!("  library {:?}\n  due     {:?}\n  {}", f.told, f.due, f.buffer),
        None => println!("  not seen again"),
    }
}

fn main() -> ExitCode {
    let (files, first) = (argument(1, 2_000_000), argument(2, 1));
    let Some(shorten) = reference() else {
        eprintln!("the published Rust wasn't found when this was built: nothing to compare with");
        return ExitCode::FAILURE;
    };
    let library = match Library::from_environment() {
        Ok(library) => library,
        Err(why) => {
            eprintln!("{why}");
            return ExitCode::FAILURE;
        }
    };
    probe::tally();
    let shares = on_all_cores(first, files, |seeds| compared(library, shorten, seeds));
    let found = shares.into_iter().fold(named(library, shorten), Found::with);
    println!(
        "compare-shorten: {files} files and the named ones, {} calls, {} differ",
        found.tally.calls(),
        found.differences
    );
    found.tally.print();
    let provisions: u64 = found.provisions.iter().flatten().sum();
    println!("  halivomue_provision: {provisions} calls, {} differ", found.unlike.len());
    if let Some((seed, room)) = found.unlike.iter().min() {
        println!("the first: seed {seed}, room {room}, file {}", packed(&file(*seed)));
        return ExitCode::FAILURE;
    }
    found.shops.print();
    if let Some((seed, room, tally)) = found.shops.first_unlike() {
        println!("the first: seed {seed}, room {room}, tally {tally}, file {}", packed(&file(seed)));
        return ExitCode::FAILURE;
    }
    if let Some(smallest) = &found.smallest {
        print(library, shorten, smallest);
        return ExitCode::FAILURE;
    }
    let missing = [found.tally.missing(), found.unprovisioned(), found.shops.missing(library)].concat();
    if !missing.is_empty() && (files >= ENOUGH || std::env::args().any(|word| word == "all")) {
        println!("compare-shorten: not reached: {}", missing.join(", "));
        return ExitCode::FAILURE;
    }
    ExitCode::SUCCESS
}
