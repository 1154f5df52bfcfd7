//! Runs of document 01's machine on stored procedures with stored outsides, told step by step.
//! Usage: run-stored LIST
//! tests/machine holds what is told to the definitions. The papers aren't needed.

mod due;
mod stored;
mod tally;

use halivomue_reference::machine::{End, Run, loaded, single};
use halivomue_reference::procedure::Procedure;
use halivomue_reference::read;
use std::fmt::Display;
use stored::{Rules, Stored, parse};
use tally::{Tally, Watch};

/// Instructions asked for after the end, when nothing more is done.
const PAST: usize = 2;

fn row<T: Display>(items: impl IntoIterator<Item = T>) -> String {
    items.into_iter().map(|n| format!(" {n}")).collect()
}

fn told_end(end: Option<End>) -> String {
    match end {
        None => "none".into(),
        Some(End::Ret(None, statement)) => format!("ret {statement}"),
        Some(End::Ret(Some(v), statement)) => format!("ret {statement} {v}"),
        Some(End::Unreachable(what, statement)) => format!("unreachable {statement} {what}"),
        Some(End::Outside) => "outside".into(),
    }
}

/// What there is to see after so many instructions.
fn tell_after(n: usize, run: &Run<Rules>) {
    let end = told_end(run.end);
    println!("after {n} acts {} entries {} end {end}", run.acts.len(), run.entries);
    if run.end.is_none() {
        println!("at left {} words{}", run.left().len(), row(&run.registers));
    }
}

fn carry_out(run: &mut Run<Rules>, watch: &mut Watch, tally: &mut Tally) {
    tally.note_before(watch, run);
    let (next, acts) = (run.left().first().copied(), run.acts.len());
    run.step();
    if run.acts.len() > acts {
        tally.note_act(watch, run, &next.expect("an instruction was left"));
    }
}

fn tell(s: &Stored, tally: &mut Tally) {
    read::read(&s.bytes).unwrap_or_else(|(n, r)| panic!("{}: refused {n} {r}", s.name));
    let f = Procedure::from_bytes(&s.bytes);
    assert!(s.words.len() == f.registers.len(), "{}: a word for each register", s.name);
    println!("run {}", s.name);
    for (r, value) in single(&f, &s.rules).into_iter().enumerate() {
        println!("single {r}{}", row(value));
    }
    let mut run = Run::new(&f, s.rules.clone(), loaded(&f, &s.rules, s.words.clone()));
    let mut watch = Watch::new(s, &f);
    tally.note_start(&watch);
    let (mut n, mut at_end) = (0, 0);
    loop {
        tell_after(n, &run);
        at_end += usize::from(run.end.is_some());
        if n == s.limit || at_end > PAST {
            break;
        }
        carry_out(&mut run, &mut watch, tally);
        n += 1;
    }
    tally.note_end(&watch, &run, at_end);
    for a in &run.acts {
        println!("act {} {} {} numbers{} values{}", a.kind, a.op, a.statement, row(&a.plain), row(&a.read));
    }
}

fn main() {
    let path = std::env::args().nth(1).expect("usage: run-stored LIST");
    let runs = parse(&std::fs::read_to_string(path).expect("a list of runs"));
    let mut tally = Tally::new();
    runs.iter().for_each(|s| tell(s, &mut tally));
    tally.print();
}
