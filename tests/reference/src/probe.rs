//! What the insertions of substitutions.txt report of one run, and of all runs while a tally is asked for.

use std::cell::{Cell, RefCell};
use std::sync::atomic::{AtomicBool, Ordering::Relaxed};

#[derive(Clone, Copy, Default)]
pub struct Counts {
    pub grown: u32,
    pub fresh: u32,
    pub rescued: u32,
}

/// How often each thing happened to a block in threading; the first nine end its hops.
pub const EVENTS: [&str; 11] = [
    "Br to its own block",
    "Br to the body",
    "body and a constant's register",
    "grown past n/2 + 32",
    "target not small",
    "latch",
    "CondBr as it was",
    "CondBr over a lone CondBr or copy",
    "six hops",
    "known CondBr made a Br",
    "copied with grown equal to n/2 + 32",
];
const KEPT: usize = 6;
const TURNED: usize = 7;
const SIX_HOPS: usize = 8;
const DECIDED: usize = 9;
const AT_BOUND: usize = 10;

/// How often each thing happened in slice_tests and at its gate.
pub const LENGTHS: [&str; 25] = [
    "Eq",
    "Ne",
    "Lt or Ge, which stays",
    "Le",
    "Gt",
    "by BoundsLen",
    "by DopeLen",
    "up",
    "down",
    "0 single only after emptying",
    "writes what it tests or compares",
    "not compared with 0",
    "bound overwritten",
    "length overwritten",
    "block's register overwritten",
    "block's register of a length overwritten",
    "MakeDope that replaces bounds",
    "MakeDope that leaves other bounds",
    "dim not 0",
    "direction not constant",
    "direction not 0 or 1",
    "direction single only after emptying",
    "gate shut by no back edge",
    "by no MakeDope or BoundsLen",
    "by no DopeLen or BoundsLen",
];
const BY_BOUNDS: usize = 5;
const UP: usize = 7;
const EMPTIED_ZERO: usize = 9;
const OWN: usize = 10;
const NO_ZERO: usize = 11;
const OVERWRITTEN: usize = 12;
const REPLACES: usize = 16;
const LEAVES: usize = 17;
const OTHER_DIM: usize = 18;
const NO_DIRECTION: usize = 19;
const OTHER_DIRECTION: usize = 20;
const EMPTIED_DIRECTION: usize = 21;
const SHUT: usize = 22;
const STAYS: usize = 2;

thread_local! {
    static SLICED: Cell<[u64; LENGTHS.len()]> = const { Cell::new([0; LENGTHS.len()]) };
    /// How often the file as sent writes each register.
    static SENT: RefCell<Vec<u8>> = const { RefCell::new(Vec::new()) };
    static COUNTS: Cell<Counts> = const { Cell::new(Counts { grown: 0, fresh: 0, rescued: 0 }) };
    static SEEN: Cell<[u64; EVENTS.len()]> = const { Cell::new([0; EVENTS.len()]) };
    /// The block, its hops so far, and whether the last of them goes on.
    static HOPS: Cell<(usize, u32, bool)> = const { Cell::new((0, 0, false)) };
}

static TALLIED: AtomicBool = AtomicBool::new(false);

pub fn threaded(grown: usize, fresh: usize) {
    COUNTS.set(Counts { grown: grown as u32, fresh: fresh as u32, ..COUNTS.get() });
}

pub fn rescued(n: u32) {
    COUNTS.set(Counts { rescued: n, ..COUNTS.get() });
}

/// The counts since the last call.
pub fn take() -> Counts {
    leave();
    COUNTS.take()
}

/// From now on, events are counted.
pub fn tally() {
    TALLIED.store(true, Relaxed);
}

/// How often each event was seen in this thread's runs.
pub fn events() -> [u64; EVENTS.len()] {
    leave();
    SEEN.get()
}

fn tallied() -> bool {
    TALLIED.load(Relaxed)
}

fn see(event: usize) {
    let mut seen = SEEN.get();
    seen[event] += 1;
    SEEN.set(seen);
}

/// A block's hops are over.
fn leave() {
    let (_, hops, goes_on) = HOPS.take();
    if hops == 6 && goes_on {
        see(SIX_HOPS);
    }
}

pub fn hop(block: usize) {
    if !tallied() {
        return;
    }
    if HOPS.get().0 != block {
        leave();
    }
    HOPS.set((block, HOPS.get().1 + 1, false));
}

fn goes_on() {
    let (block, hops, _) = HOPS.get();
    HOPS.set((block, hops, true));
}

/// The conditions under which a Br stays, in their order, and whether `grown` is at its bound.
pub fn br(conditions: impl FnOnce() -> ([bool; 6], bool)) {
    if !tallied() {
        return;
    }
    let (conditions, at_bound) = conditions();
    match conditions.iter().position(|&c| c) {
        Some(first) => see(first),
        None => {
            goes_on();
            if at_bound {
                see(AT_BOUND);
            }
        }
    }
}

/// A CondBr on a known value.
pub fn decided() {
    if tallied() {
        see(DECIDED);
        goes_on();
    }
}

/// A CondBr stays as it was.
pub fn kept() {
    if tallied() {
        see(KEPT);
    }
}

/// A CondBr was changed and stays one.
pub fn turned() {
    if tallied() {
        see(TURNED);
    }
}

/// How often each thing of lengths was seen in this thread's runs.
pub fn lengths() -> [u64; LENGTHS.len()] {
    SLICED.get()
}

fn count(event: usize, seen: bool) {
    let mut all = SLICED.get();
    all[event] += u64::from(seen);
    SLICED.set(all);
}

/// Asked after the equal-arms step.
pub fn sent(writes: impl FnOnce() -> Vec<u8>) {
    if tallied() {
        SENT.set(writes());
    }
}

/// Is this register, which one Const writes now, written more than once in the file as sent?
fn only_now(register: u32) -> bool {
    SENT.with_borrow(|writes| writes.get(register as usize).is_some_and(|&n| n > 1))
}

/// The three parts of the gate: each is counted where it alone is missing.
pub fn gate(parts: impl FnOnce() -> [bool; 3]) {
    if tallied() {
        let parts = parts();
        let open = parts.iter().filter(|&&part| part).count();
        (0..3).for_each(|k| count(SHUT + k, open == 2 && !parts[k]));
    }
}

/// A Cmp of a length with known bounds: is it compared with the constant 0, and has it an op that stays? Always true.
pub fn bounded(how: impl FnOnce() -> [bool; 2]) -> bool {
    if tallied() {
        let [zero, stays] = how();
        count(NO_ZERO, !zero);
        count(STAYS, zero && stays);
    }
    true
}

pub fn sliced(op: usize, by_bounds: bool, down: bool, zero: u32, own: bool) {
    if tallied() {
        count(op, true);
        count(BY_BOUNDS + usize::from(!by_bounds), true);
        count(UP + usize::from(down), true);
        count(EMPTIED_ZERO, only_now(zero));
        count(OWN, own);
    }
}

/// A written register: is it a bound, a length, a block's register, that of a length?
pub fn overwritten(what: impl FnOnce() -> [bool; 4]) {
    if tallied() {
        what().into_iter().enumerate().for_each(|(k, seen)| count(OVERWRITTEN + k, seen));
    }
}

/// Is it a MakeDope of a register that has bounds, or a DopeLen of such a register in another dimension?
pub fn before_noting(what: impl FnOnce() -> [bool; 2]) {
    if tallied() {
        let [made, dim] = what();
        count(LEAVES, made);
        count(OTHER_DIM, dim);
    }
}

/// A MakeDope is noted, and replaces bounds.
pub fn made(again: bool) {
    if tallied() && again {
        let mut all = SLICED.get();
        all[LEAVES] -= 1;
        all[REPLACES] += 1;
        SLICED.set(all);
    }
}

/// The direction of a BoundsLen or MakeDope, if it is a constant. Always true.
pub fn direction(known: Option<i64>, register: u32) -> bool {
    if tallied() {
        count(NO_DIRECTION, known.is_none());
        count(OTHER_DIRECTION, known.is_some_and(|v| v != 0 && v != 1));
        count(EMPTIED_DIRECTION, known.is_some_and(|v| v == 0 || v == 1) && only_now(register));
    }
    true
}
