//! A row of seeds, shared among all cores.

use std::iter::StepBy;
use std::ops::Range;
use std::thread;

/// For each thread, far more than a call needs.
const STACK: usize = 64 << 20;

/// What the work found in each core's share of so many seeds.
pub fn on_all_cores<T: Send>(first: u64, seeds: u64, work: impl Fn(StepBy<Range<u64>>) -> T + Sync) -> Vec<T> {
    let threads = thread::available_parallelism().map_or(1, |n| n.get());
    let work = &work;
    thread::scope(|scope| {
        let start = |t: usize| {
            let share = (first + t as u64..first + seeds).step_by(threads);
            let thread = thread::Builder::new().stack_size(STACK);
            thread.spawn_scoped(scope, move || work(share)).expect("a thread")
        };
        let running: Vec<_> = (0..threads).map(start).collect();
        running.into_iter().map(|one| one.join().expect("a thread that ends")).collect()
    })
}

/// Word `place` of the command line as a number.
pub fn argument(place: usize, otherwise: u64) -> u64 {
    std::env::args().nth(place).map_or(otherwise, |text| text.parse().expect("a number is due"))
}
