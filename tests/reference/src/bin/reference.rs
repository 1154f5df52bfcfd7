//! The reference's commands; see README.md.

use halivomue_reference::answers::{self, Stored};
use halivomue_reference::generate::{self, FAMILIES};
use halivomue_reference::listing::listing;
use halivomue_reference::measured::Measured;
use halivomue_reference::procedure::Procedure;
use halivomue_reference::stream::{Request, read_request, write_reply, write_request};
use halivomue_reference::{Answer, Shorten, cases, level, machine, read, reference, self_test, tidy};
use std::io::{self, BufReader, BufWriter, Read, Write, stdin, stdout};
use std::panic::{AssertUnwindSafe, catch_unwind};
use std::process::exit;
use std::{env, fs};

/// More than any result needs.
const ROOM: usize = 65_536;

const USAGE: &str = "reference list [FILE]             the listing of a file, or of standard input
reference form CALLS FILE         the same with these calls of `run`, as thread,slice_tests,dead_defs,coalesce
reference stream                  requests on standard input, replies on standard output
reference generate FAMILY FROM N  N requests of a family, from seed FROM
reference self-test [DOCUMENT]    document 01's examples; DOCUMENT holds the printed listing
reference replay ANSWERS          the stored answers against this reference
reference demand-3 FROM N         demand 3 on N tidy files, three runs each
reference pool REQUESTS NAMES     candidates for the list of answers
reference digests                 requests to one digest a line
reference store NAMES CHOSEN      requests to lines of the list; CHOSEN names those to keep";

fn main() -> io::Result<()> {
    let args: Vec<String> = env::args().skip(1).collect();
    let args: Vec<&str> = args.iter().map(String::as_str).collect();
    match args[..] {
        ["list"] => list(stdin()),
        ["list", path] => list(fs::File::open(path)?),
        ["form", calls, path] => form(calls, fs::File::open(path)?),
        ["stream"] => stream(),
        ["generate", family, from, n] => generated(family, number(from), number(n)),
        ["self-test"] => self_tested(None),
        ["self-test", document] => self_tested(Some(fs::read_to_string(document)?)),
        ["replay", path] => replay(&fs::read_to_string(path)?),
        ["demand-3", from, n] => demand_3(number(from), number(n)),
        ["pool", requests, names] => pool(requests, names),
        ["digests"] => digests(),
        ["store", names, chosen] => store(&fs::read_to_string(names)?, &fs::read_to_string(chosen)?),
        _ => fail(USAGE),
    }
}

fn fail(why: &str) -> ! {
    eprintln!("{why}");
    exit(1)
}

fn number(s: &str) -> u64 {
    s.parse().unwrap_or_else(|_| fail(USAGE))
}

fn shorten() -> Shorten {
    reference().unwrap_or_else(|| fail("the published Rust wasn't found when this was built: there is no reference"))
}

fn list(mut from: impl Read) -> io::Result<()> {
    let mut bytes = Vec::new();
    from.read_to_end(&mut bytes)?;
    print!("{}", listing(&shorten()(&bytes, ROOM)));
    Ok(())
}

fn form(calls: &str, from: impl Read) -> io::Result<()> {
    let calls: Vec<&str> = calls.split(',').collect();
    if calls.iter().any(|c| !level::ALL.contains(c)) {
        fail(USAGE);
    }
    level::set(&calls);
    list(from)
}

fn stream() -> io::Result<()> {
    let shorten = shorten();
    let (mut from, mut to) = (BufReader::new(stdin()), BufWriter::new(stdout()));
    while let Some(r) = read_request(&mut from)? {
        write_reply(&mut to, &shorten(&r.bytes, r.room))?;
        if from.buffer().is_empty() {
            to.flush()?;
        }
    }
    to.flush()
}

fn generated(family: &str, from: u64, n: u64) -> io::Result<()> {
    if !FAMILIES.contains(&family) {
        fail(&format!("families: {}", FAMILIES.join(" ")));
    }
    let mut to = BufWriter::new(stdout());
    for seed in from..from + n {
        write_request(&mut to, &Request { room: ROOM, bytes: generate::file(family, seed) })?;
    }
    to.flush()
}

fn self_tested(document: Option<String>) -> io::Result<()> {
    match self_test::run(shorten(), document.as_deref()) {
        Ok(n) => println!("self-test: {n} examples as document 01 has them"),
        Err(why) => fail(&format!("self-test: {why}")),
    }
    Ok(())
}

/// Every stored answer against the reference, or against Read alone where there is none.
fn replay(text: &str) -> io::Result<()> {
    let all: Vec<Stored> = text.lines().filter(|l| !l.starts_with('#')).map(answers::parse).collect();
    let wrong: Vec<&str> = all.iter().filter(|s| !stands(s)).map(|s| s.name.as_str()).collect();
    if !wrong.is_empty() {
        fail(&format!("{} of {} stored answers differ: {}", wrong.len(), all.len(), wrong.join(" ")));
    }
    let small = all.iter().filter(|s| s.small).count();
    let how = if reference().is_some() { "equal the reference's" } else { "agree with Read (no reference here)" };
    println!("replay: {} stored answers {how}, {small} of them small", all.len());
    Ok(())
}

fn stands(s: &Stored) -> bool {
    match (reference(), read::read(&s.bytes)) {
        (Some(shorten), _) => shorten(&s.bytes, s.room) == s.answer,
        (None, Err((number, record))) => s.answer == Answer::refused(number, record),
        (None, Ok(_)) if s.answer.number == 0 => read::read(&s.answer.output).is_ok(),
        (None, Ok(_)) => [8, 9].map(|n| Answer::refused(n, 0)).contains(&s.answer),
    }
}

fn demand_3(from: u64, n: u64) -> io::Result<()> {
    let shorten = shorten();
    let (mut runs, mut moved) = (0, 0);
    for seed in from..from + n {
        let family = match seed % 50 {
            0 => "tidy-large",
            1..10 => "tidy-lengths",
            _ => "tidy",
        };
        let bytes = generate::file(family, seed);
        let sent = Procedure::from_bytes(&bytes);
        let a = shorten(&bytes, ROOM);
        if a.number != 0 || tidy::offender(&sent).is_some() {
            continue;
        }
        moved += a.moved;
        let short = Procedure::from_bytes(&a.output);
        let threaded = Procedure::from_bytes(&level::with(&["thread"], || shorten(&bytes, ROOM)).output);
        let measured = Measured::between(&threaded, &short);
        let claim = machine::Claim { shortened: &short, rescued: a.rescued, measured: &measured };
        for run in 0..3 {
            if let Err(why) = machine::demand_3(&sent, &claim, seed * 3 + run, 120) {
                fail(&format!("demand 3 fails on {family} {seed}, run {run}: {why}"));
            }
            runs += 1;
        }
    }
    println!("demand 3: {runs} runs of tidy files without a counterexample, {moved} files moved");
    Ok(())
}

/// Seeds of each family in the pool.
const POOL: [(&str, u64); 13] = [
    ("small", 3000),
    ("chains", 2000),
    ("process", 2000),
    ("kinds", 1500),
    ("known", 1500),
    ("tidy", 600),
    ("large", 30),
    ("tidy-large", 10),
    ("budget", 60),
    ("damaged", 1500),
    ("lengths", 1500),
    ("lengths-split", 1500),
    ("tidy-lengths", 500),
];

fn pool(requests: &str, names: &str) -> io::Result<()> {
    let mut all: Vec<(String, Request)> =
        cases::cases().into_iter().map(|c| (c.name, Request { room: ROOM, bytes: c.bytes })).collect();
    for (family, n) in POOL {
        for seed in 0..n {
            let request = Request { room: ROOM, bytes: generate::file(family, seed) };
            all.push((format!("{family}-{seed}"), request));
        }
    }
    let (mut to, mut list) = (BufWriter::new(fs::File::create(requests)?), BufWriter::new(fs::File::create(names)?));
    for (name, request) in all {
        write_request(&mut to, &request)?;
        writeln!(list, "{name}")?;
    }
    to.flush()?;
    list.flush()
}

/// One digest a line, written as soon as it is known; `panic` where the run panics.
fn digests() -> io::Result<()> {
    std::panic::set_hook(Box::new(|_| {}));
    let shorten = shorten();
    let mut from = BufReader::new(stdin());
    while let Some(r) = read_request(&mut from)? {
        match catch_unwind(AssertUnwindSafe(|| shorten(&r.bytes, r.room))) {
            Ok(a) => println!("{:016x}", digest(&a)),
            Err(_) => println!("panic"),
        }
    }
    Ok(())
}

/// FNV-1a.
fn digest(a: &Answer) -> u64 {
    let numbers = a.numbers().into_iter().flat_map(u32::to_le_bytes);
    numbers
        .chain(a.output.iter().copied())
        .fold(0xcbf2_9ce4_8422_2325, |h, b| (h ^ u64::from(b)).wrapping_mul(0x100_0000_01b3))
}

/// A line for each name in `chosen`, in the pool's order. A name may carry `:exact` or `:short`,
/// which asks for it with room for just the result, or for one byte less.
fn store(names: &str, chosen: &str) -> io::Result<()> {
    let shorten = shorten();
    let chosen: Vec<&str> = chosen.lines().collect();
    let mut from = BufReader::new(stdin());
    for name in names.lines() {
        let r = read_request(&mut from)?.expect("a request for each name");
        let length = shorten(&r.bytes, r.room).output.len();
        let rooms = [("", r.room), (":exact", length), (":short", length.saturating_sub(1))];
        for (suffix, room) in rooms {
            let name = format!("{name}{suffix}");
            if chosen.contains(&name.as_str()) {
                let answer = shorten(&r.bytes, room);
                let small = answer.number == 0 && (6..=24).contains(&Procedure::from_bytes(&r.bytes).code.len());
                println!("{}", answers::line(&Stored { name, small, room, bytes: r.bytes.clone(), answer }));
            }
        }
    }
    Ok(())
}
