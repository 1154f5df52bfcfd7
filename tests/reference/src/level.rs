//! Which calls of the published `run` are carried out, by name. A request of document 02 that
//! brings one in adds its name to CALLS, and nothing else changes here.

use std::cell::Cell;

/// What Shorten is compared with: `thread` by document 01, `slice_tests` by document 02, 2.1.
pub const CALLS: &[&str] = &["thread", "slice_tests"];

/// All of them, in their order.
pub const ALL: [&str; 4] = ["thread", "slice_tests", "dead_defs", "coalesce"];

thread_local! {
    static ON: Cell<u8> = const { Cell::new(bits(CALLS)) };
}

const fn same(a: &str, b: &str) -> bool {
    let (a, b) = (a.as_bytes(), b.as_bytes());
    let mut k = 0;
    while k < a.len() && k < b.len() && a[k] == b[k] {
        k += 1;
    }
    a.len() == b.len() && k == a.len()
}

const fn bit(call: &str) -> u8 {
    let mut k = 0;
    while k < ALL.len() && !same(ALL[k], call) {
        k += 1;
    }
    assert!(k < ALL.len(), "no such call");
    1 << k
}

const fn bits(calls: &[&str]) -> u8 {
    let (mut all, mut k) = (0, 0);
    while k < calls.len() {
        all |= bit(calls[k]);
        k += 1;
    }
    all
}

/// Has this thread carry out these calls from now on, and no others.
pub fn set(calls: &[&str]) {
    ON.set(bits(calls));
}

/// What is asked with these calls carried out, and no others.
pub fn with<T>(calls: &[&str], asked: impl FnOnce() -> T) -> T {
    let before = ON.replace(bits(calls));
    let told = asked();
    ON.set(before);
    told
}

pub fn slice_tests() -> bool {
    ON.get() & const { bit("slice_tests") } != 0
}

pub fn dead_defs() -> bool {
    ON.get() & const { bit("dead_defs") } != 0
}

pub fn coalesce() -> bool {
    ON.get() & const { bit("coalesce") } != 0
}
