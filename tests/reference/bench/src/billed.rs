//! Times `halivomue_shorten_for` beside `halivomue_shorten`: far from the ceiling, and in the last 233 cents below it.

use crate::{LAYOUTS, best};
use halivomue_reference::library::{Accounts, Library};
use halivomue_reference::sorts::{SIZES, SORTS, Sort, files};
use std::cell::RefCell;
use std::hint::black_box;
use std::time::Duration;

const CEILING: u32 = 9_999_999;
const DEAREST: u32 = 233;
pub const FAR: u32 = 0;
/// Above the point from which every file passes. All but the dearest pass from here.
pub const NEAR: u32 = CEILING - DEAREST + 1;

pub fn accounts(tally: u32) -> Accounts {
    let mut accounts = [0; 128];
    accounts[0] = tally;
    accounts
}

/// Without accounts, far from the ceiling, near it: nanoseconds for a file.
fn row(library: Library, sort: Sort, n: usize) -> [f64; 3] {
    let best = (0..LAYOUTS)
        .map(|_| times(library, &files(sort, n)))
        .reduce(|a, b| std::array::from_fn(|k| a[k].min(b[k])))
        .expect("a layout");
    best.map(|time| time.as_secs_f64() * 1e9 / files(sort, n).len() as f64)
}

fn times(library: Library, files: &[Vec<u8>]) -> [Duration; 3] {
    let files = files.to_vec();
    let (out, shop) = (RefCell::new(vec![0; 65_536]), RefCell::new(accounts(0)));
    // The tally is put back before each call, or a million calls would meet the ceiling.
    let billed = |tally: u32| {
        let (mut out, mut shop) = (out.borrow_mut(), shop.borrow_mut());
        files.iter().for_each(|file| {
            shop[0] = black_box(tally);
            black_box(library.shorten_for(&mut shop, black_box(file), &mut out));
        })
    };
    let unbilled = || {
        let mut out = out.borrow_mut();
        files.iter().for_each(|file| {
            black_box(library.shorten(black_box(file), &mut out));
        })
    };
    best([&unbilled, &|| billed(FAR), &|| billed(NEAR)])
}

/// All sorts and sizes, with how much of what is asked each takes at most: 1.03 times and 15 ns far from the ceiling, 1.25 times and
/// 3 us near it.
pub fn table(library: Library) {
    if !library.has_accounts() {
        println!("the library has no halivomue_shorten_for: it isn't timed");
        return;
    }
    println!("{:>16} {:>34} {:>23}", "", "(e) without and with accounts, ns", "near the ceiling, ns");
    println!(
        "{:>8} {:>7} {:>11} {:>11} {:>10} {:>12} {:>10}",
        "files", "instr.", "without", "with", "of asked", "", "of asked"
    );
    let mut worst = [0f64; 2];
    for (sort, n) in SORTS.into_iter().flat_map(|sort| SIZES.map(|n| (sort, n))) {
        let [without, far, near] = row(library, sort, n);
        let shares = [far / (1.03 * without + 15.0), near / (1.25 * without + 3000.0)];
        worst = std::array::from_fn(|k| worst[k].max(shares[k]));
        println!(
            "{:>8} {n:>7} {without:>11.1} {far:>11.1} {:>10.3} {near:>12.1} {:>10.3}",
            format!("{sort:?}").to_lowercase(),
            shares[0],
            shares[1]
        );
    }
    println!(
        "largest share of (e) {:.3} of 1.03 times and 15 ns, near the ceiling {:.3} of 1.25 times and 3 us; asked at most 1",
        worst[0], worst[1]
    );
}
