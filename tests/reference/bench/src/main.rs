//! Times a library's `halivomue_shorten` beside the published Rust with a plain reader and writer.
//! Usage: bench-shorten                             all sorts of files and sizes, as tables
//!        bench-shorten billed                      the second table alone: with accounts and without
//!        bench-shorten library|rust|billed|near <sort> <n> [times]  files of n instructions, the first or so many in turn, to be counted
//! HALIVOMUE_LIBRARY names the shared object, HALIVOMUE_STEPS that of the steps alone. To be built with `--profile speed`.

mod billed;
mod steps;

use checks::reader;
use halivomue_reference::library::{Accounts, Billing, Library, Shortening};
use halivomue_reference::plain::{self, Ready};
use halivomue_reference::read::Refusal;
use halivomue_reference::record::RECORD;
use halivomue_reference::sorts::{SIZES, SORTS, files, more_files};
use std::ffi::c_int;
use std::hint::black_box;
use std::time::Duration;
use steps::{Opened, Steps};

/// The counts of classes 1 to 6, from the Rust reader that Read is timed beside.
fn read(bytes: &[u8]) -> Result<[usize; 6], Refusal> {
    match reader::Procedure::read(bytes) {
        Ok(p) => Ok([p.registers, p.blocks, p.bodies, p.code, p.operands, p.arms].map(<[_]>::len)),
        Err(refusal) => Err((refusal.number, refusal.record)),
    }
}

fn shorten_into(bytes: &[u8], out: &mut [u8]) -> Shortening {
    plain::shorten_into(read, bytes, out)
}

const TURN: Duration = Duration::from_millis(50);
const TURNS: usize = 3;
/// How often all is put into memory anew: where it lies makes a call of a few dozen nanoseconds up to twice as long.
const LAYOUTS: usize = 4;

/// The best time of each for one pass over the files, taken in turns.
fn best<const N: usize>(functions: [&dyn Fn(); N]) -> [Duration; N] {
    let passes = functions.map(|f| {
        let once = time(10, f);
        (TURN.as_nanos() / once.as_nanos().max(1)).clamp(1, 1_000_000) as u32
    });
    let mut best = [Duration::MAX; N];
    for _ in 0..TURNS {
        for k in 0..N {
            best[k] = best[k].min(time(passes[k], functions[k]));
        }
    }
    best
}

fn time(passes: u32, function: &dyn Fn()) -> Duration {
    let start = processor_time();
    (0..passes).for_each(|_| function());
    (processor_time() - start) / passes
}

/// What this thread has taken of a processor: other programs on the machine don't count.
fn processor_time() -> Duration {
    #[repr(C)]
    struct Time {
        seconds: i64,
        nanoseconds: i64,
    }
    unsafe extern "C" {
        fn clock_gettime(clock: c_int, time: *mut Time) -> c_int;
    }
    const THREAD: c_int = 3;
    let mut time = Time { seconds: 0, nanoseconds: 0 };
    // On 64-bit Linux a timespec is two such numbers.
    let failed = unsafe { clock_gettime(THREAD, &mut time) };
    assert_eq!(failed, 0, "no clock");
    Duration::new(time.seconds as u64, time.nanoseconds as u32)
}

/// Times of one file, in nanoseconds.
struct Row {
    library: f64,
    rust: f64,
    /// The library's steps, where the shared object of the steps is there.
    library_steps: Option<f64>,
    run: f64,
}

/// The library, the Rust, the library's steps with opening and opening alone, the Rust's `run` with copying and copying
/// alone: times of one pass over the files.
fn times(library: Library, steps: Option<Steps>, files: &[Vec<u8>]) -> [Duration; 6] {
    let files = files.to_vec();
    let out = std::cell::RefCell::new(vec![0; 65_536]);
    let ready: Vec<Ready> = files.iter().map(|f| Ready::new(f)).collect();
    let opened: Vec<Opened> = files.iter().map(|f| Opened::new(f)).collect();
    let each = |f: &dyn Fn(&[u8], &mut [u8]) -> Shortening| {
        files.iter().for_each(|file| {
            black_box(f(black_box(file), &mut out.borrow_mut()));
        })
    };
    let with_steps = |o: &Opened| {
        o.open();
        steps.and_then(|s| o.steps(s))
    };
    for (o, file) in opened.iter().zip(&files) {
        if let Some(length) = with_steps(o) {
            assert_eq!(length, library.shorten(file, &mut out.borrow_mut()).length, "other steps than the library's");
        }
    }
    best([
        &|| each(&|bytes, out| library.shorten(bytes, out)),
        &|| each(&shorten_into),
        &|| {
            opened.iter().for_each(|o| {
                black_box(with_steps(black_box(o)));
            })
        },
        &|| opened.iter().for_each(|o| black_box(o).open()),
        &|| ready.iter().for_each(|r| drop(black_box(black_box(r).copy_and_run()))),
        &|| ready.iter().for_each(|r| drop(black_box(black_box(r).copy()))),
    ])
}

fn row(library: Library, steps: Option<Steps>, files: &[Vec<u8>]) -> Row {
    let [library_time, rust, open_and_step, open, copy_and_run, copy] = (0..LAYOUTS)
        .map(|_| times(library, steps, files))
        .reduce(|a, b| std::array::from_fn(|k| a[k].min(b[k])))
        .expect("a layout");
    let each = |time: Duration| time.as_secs_f64() * 1e9 / files.len() as f64;
    Row {
        library: each(library_time),
        rust: each(rust),
        library_steps: steps.map(|_| each(open_and_step) - each(open)),
        run: each(copy_and_run) - each(copy),
    }
}

/// All sorts and sizes.
fn table(library: Library) {
    let steps = Steps::from_environment();
    println!("{:>16} {:>23} {:>6} {:>24} {:>6}", "", "(a) bytes to bytes, ns", "ratio", "(b) steps, ns", "ratio");
    println!(
        "{:>8} {:>7} {:>11} {:>11} {:>6} {:>12} {:>11} {:>6}",
        "files", "instr.", "library", "Rust", "", "library", "run", ""
    );
    // The smallest ratios of (a) and (b), and the largest growth of (c).
    let mut worst = [f64::INFINITY, f64::INFINITY, 0.0];
    for sort in SORTS {
        let mut by_size = Vec::new();
        for n in SIZES {
            let r = row(library, steps, &files(sort, n));
            let told =
                r.library_steps.map_or(("-".into(), "-".into()), |s| (format!("{s:.0}"), format!("{:.2}", r.run / s)));
            println!(
                "{:>8} {n:>7} {:>11.0} {:>11.0} {:>6.2} {:>12} {:>11.0} {:>6}",
                format!("{sort:?}").to_lowercase(),
                r.library,
                r.rust,
                r.rust / r.library,
                told.0,
                r.run,
                told.1
            );
            worst[0] = worst[0].min(r.rust / r.library);
            worst[1] = worst[1].min(r.library_steps.map_or(f64::INFINITY, |s| r.run / s));
            by_size.push(r);
        }
        // The processor learns the branches of files that come again and again, fewer of more code. So the files of 240
        // instructions are as many as have the code of those of 480; with 16 of each, both sides grow more.
        let half = row(library, None, &more_files(sort, SIZES[3], 32));
        let grows = |f: &dyn Fn(&Row) -> f64, half: &Row| f(&by_size[4]) / f(half);
        let (library_grows, rust_grows) = (grows(&|r| r.library, &half), grows(&|r| r.rust, &half));
        println!("{:>8} (c) from 240 to 480: library {library_grows:.2}, Rust {rust_grows:.2}", "");
        println!(
            "{:>8}     with as many files of each: library {:.2}, Rust {:.2}",
            "",
            grows(&|r| r.library, &by_size[3]),
            grows(&|r| r.rust, &by_size[3])
        );
        worst[2] = worst[2].max(library_grows);
    }
    println!(
        "A ratio is above 1 where the library is the faster. Its steps are `run`, emit where a block was edited, slice_tests where the gate is open, and the writing of the result where something was edited."
    );
    let [bytes, steps, grows] = worst;
    let steps = if steps.is_finite() { format!("{steps:.2}") } else { "not told".into() };
    println!(
        "smallest ratio of (a) {bytes:.2}, asked 2.0; of (b) {steps}, asked 1.0; largest of (c) {grows:.2}, asked at most 2.2"
    );
}

/// The call with accounts, to be counted.
#[inline(never)]
#[unsafe(no_mangle)]
fn counted_billed(library: Library, accounts: &mut Accounts, bytes: &[u8], out: &mut [u8]) -> Billing {
    black_box(library.shorten_for(accounts, bytes, out))
}

/// The call that callgrind counts.
#[inline(never)]
#[unsafe(no_mangle)]
fn counted_library(library: Library, bytes: &[u8], out: &mut [u8]) -> Shortening {
    black_box(library.shorten(bytes, out))
}

/// The same with the Rust.
#[inline(never)]
#[unsafe(no_mangle)]
fn counted_rust(_: Library, bytes: &[u8], out: &mut [u8]) -> Shortening {
    black_box(shorten_into(bytes, out))
}

/// So many files shortened, the same ones over and over, to be counted; prints the instructions and records of the first.
fn again(library: Library, which: &str, sort: &str, n: usize, times: usize) {
    let sort = SORTS.into_iter().find(|s| format!("{s:?}").to_lowercase() == sort).expect("a sort of files");
    let files = files(sort, n);
    let mut out = vec![0; 65_536];
    for bytes in files.iter().cycle().take(times) {
        let bytes = black_box(bytes);
        match which {
            "library" => drop(counted_library(library, bytes, &mut out)),
            "billed" => drop(counted_billed(library, &mut billed::accounts(billed::FAR), bytes, &mut out)),
            "near" => drop(counted_billed(library, &mut billed::accounts(billed::NEAR), bytes, &mut out)),
            _ => drop(counted_rust(library, bytes, &mut out)),
        };
    }
    println!("{n} {}", files[0].len() / RECORD);
}

fn main() {
    let library = Library::from_environment().unwrap_or_else(|why| panic!("{why}"));
    let arguments: Vec<String> = std::env::args().skip(1).collect();
    let number = |text: &String| text.parse().expect("a number is due");
    match arguments.as_slice() {
        [] => {
            table(library);
            billed::table(library);
        }
        [which] if which == "billed" => billed::table(library),
        [which, sort, n] => again(library, which, sort, number(n), 1),
        [which, sort, n, times] => again(library, which, sort, number(n), number(times)),
        _ => eprintln!("usage: bench-shorten [billed | library|rust|billed|near <sort> <instructions> [times]]"),
    }
}
