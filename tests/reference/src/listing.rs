//! Document 01's listing of an answer.

use crate::answer::Answer;
use crate::procedure::Procedure;
use std::fmt::Write;

pub fn listing(a: &Answer) -> String {
    if a.number != 0 {
        return format!("refused {} {}\n", a.number, a.record);
    }
    let f = Procedure::from_bytes(&a.output);
    let mut s = format!("moved {} grown {} fresh {} rescued {}\n", a.moved, a.grown, a.fresh, a.rescued);
    for (r, kind) in f.registers.iter().enumerate() {
        writeln!(s, "reg {r} {kind}").unwrap();
    }
    for (b, (start, end)) in f.blocks.iter().enumerate() {
        writeln!(s, "block {b} {start} {end}").unwrap();
    }
    for (at, i) in f.code.iter().enumerate() {
        let [p1, p2, p3, p4, p5, p6] = i.p;
        writeln!(s, "code {at} {} {} {} {p1} {p2} {p3} {p4} {p5} {p6}", i.kind, i.op, i.statement).unwrap();
    }
    s
}
