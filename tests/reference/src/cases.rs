//! Named files: document 01's examples, limits, bounds and mistakes.

use crate::draft::*;
use crate::generate::{Rng, Shape};
use crate::procedure::Table;
use crate::record::{ARM, BODY, Place, RECORD, REGISTER, Record, kind, places};

pub struct Case {
    pub name: String,
    pub bytes: Vec<u8>,
}

pub fn cases() -> Vec<Case> {
    let mut all = Vec::new();
    let mut add = |name: &str, bytes: Vec<u8>| all.push(Case { name: name.into(), bytes });
    add("P1", p1().bytes());
    add("P2", p2());
    add("P3", printed(vec![constant(1, 7), cond_br(0, 1, 3)]).bytes());
    add("P4", printed(vec![cmp(0, 1, 0, 0), cond_br(1, 1, 3)]).bytes());
    add("P5", lone_brs_before_other_arm(4).bytes());
    add("P6", lone_brs_before_other_arm(5).bytes());
    add("P7", Vec::new());
    add("P8", vec![0; 33]);
    for n in [5, 6, 7] {
        add(&format!("instructions-{n}"), of_length(n).bytes());
    }
    for n in 1..=8 {
        add(&format!("chain-{n}"), chain(n, false).bytes());
        add(&format!("chain-reversed-{n}"), chain(n, true).bytes());
    }
    for n in 3..=6 {
        add(&format!("arms-cross-{n}"), both_arms(n).bytes());
    }
    for (takers, pad, size) in [(90, 0, 1), (90, 1, 1), (60, 0, 2), (60, 1, 2), (60, 1, 4), (100, 5, 3)] {
        add(&format!("budget-{takers}-{pad}-{size}"), spent(takers, pad, size).bytes());
    }
    for (n, d) in mistakes() {
        add(n, d.with_statements(10).bytes());
    }
    for n in [1, 2, 254, 255, 256, 257] {
        add(&format!("writes-{n}"), written_often(n).bytes());
    }
    for (name, d) in limits() {
        add(&name, d.with_statements(10).bytes());
    }
    for seed in 1..=4 {
        add(&format!("full-{seed}"), full(seed).bytes());
    }
    add("full-of-lengths", full_of_lengths().bytes());
    for n in [31, 32 * 2048, 32 * 2049, 65_535] {
        add(&format!("bytes-{n}"), repeated_register(n));
    }
    for (name, bytes) in refusals() {
        add(name, bytes);
    }
    for (name, d) in roles() {
        add(&name, d.with_statements(10).bytes());
    }
    for op in 0..4 {
        for (x, y) in [(0, 0), (0, 5), (5, 0), (5, 1)] {
            add(&format!("bool-{op}-{x}-{y}"), decided_by_bool(op, x, y).bytes());
        }
    }
    for n in 0..=3 {
        add(&format!("ring-{n}"), ring(n).bytes());
    }
    for (name, d) in decided() {
        add(name, d.with_statements(10).bytes());
    }
    for (name, d) in lengths().into_iter().chain(wrong_lengths()) {
        add(name, d.with_statements(10).bytes());
    }
    all
}

/// The printed procedure.
fn p1() -> Draft {
    printed(vec![cond_br(0, 1, 3)])
}

/// The printed procedure with another block 2.
fn printed(third: Vec<Record>) -> Draft {
    let registers = vec![0; third.len()];
    let blocks = vec![vec![stmt(), br(2)], vec![stmt(), br(2)], third, vec![ret()]];
    Draft { registers, blocks, ..Draft::default() }.with_statements(10)
}

/// The printed procedure without its first Stmt; the statements stay.
fn p2() -> Vec<u8> {
    let mut d = p1();
    d.blocks[0].remove(0);
    d.bytes()
}

fn body(b: u32) -> Record {
    Record::new(BODY, 0, 0, 0, &[b])
}

fn with_records(bytes: &[u8], at: usize, records: &[Record]) -> Vec<u8> {
    let mut out = bytes[..at * RECORD].to_vec();
    records.iter().for_each(|r| r.write(&mut out));
    out.extend(&bytes[at * RECORD..]);
    out
}

/// CondBr, `n` lone Brs on its other arm, and the block where both meet.
pub(crate) fn lone_brs_before_other_arm(n: u32) -> Draft {
    let mut blocks = vec![vec![cond_br(0, n + 1, 1)]];
    blocks.extend((1..=n).map(|b| vec![br(b + 1)]));
    blocks.push(vec![ret()]);
    Draft { registers: vec![0], blocks, ..Draft::default() }.with_statements(10)
}

/// Both arms reach one block over `n` lone Brs each.
pub(crate) fn both_arms(n: u32) -> Draft {
    let mut blocks = vec![vec![stmt(), cond_br(0, 1, n + 1)]];
    let end = 2 * n + 1;
    blocks.extend((1..=2 * n).map(|b| vec![br(if b == n { end } else { b + 1 })]));
    blocks.push(vec![stmt(), cond_br(0, 0, end)]);
    Draft { registers: vec![0], blocks, ..Draft::default() }.with_statements(10)
}

/// A loop of a test and a Br back to it, entered by a Br, `n` instructions in all.
fn of_length(n: usize) -> Draft {
    let mut first = vec![stmt(); n - 4];
    first.push(br(1));
    let blocks = vec![first, vec![cond_br(0, 2, 3)], vec![br(1)], vec![ret()]];
    Draft { registers: vec![0], blocks, ..Draft::default() }.with_statements(10)
}

/// Stmt and Br to a chain of `n` lone Brs, which leads to a block too long to copy; the chain
/// stands in the file's order or against it.
pub(crate) fn chain(n: u32, reversed: bool) -> Draft {
    let link = |k: u32| if reversed { n + 1 - k } else { k };
    let mut blocks = vec![vec![stmt(), br(link(1))]];
    for b in 1..=n {
        let next = if reversed { n + 2 - b } else { b + 1 };
        blocks.push(vec![br(if next > n { n + 1 } else { link(next) })]);
    }
    blocks.push(vec![stmt(), stmt(), stmt(), stmt(), cond_br(0, 0, n + 2)]);
    blocks.push(vec![ret()]);
    Draft { registers: vec![0], blocks, ..Draft::default() }.with_statements(10)
}

/// `takers` lone Brs to one block of `size` instructions, more than the budget lets copy, and
/// `pad` Stmts.
pub(crate) fn spent(takers: u32, pad: usize, size: usize) -> Draft {
    let mut blocks: Vec<Vec<Record>> = (0..takers).map(|_| vec![br(takers)]).collect();
    let mut shared = vec![mov(0, 1); size - 1];
    shared.push(ret());
    blocks.push(shared);
    let mut last = vec![stmt(); pad];
    last.push(cond_br(0, 0, takers));
    blocks.push(last);
    Draft { registers: vec![0; 2], blocks, ..Draft::default() }.with_statements(10)
}

/// Where each mistake that document 01 lists would show.
fn mistakes() -> Vec<(&'static str, Draft)> {
    let draft = |registers: Vec<u8>, blocks| Draft { registers, blocks, ..Draft::default() };
    vec![
        (
            // Block 1 was edited before block 2 reads it.
            "targets-as-first-sent",
            draft(
                vec![0],
                vec![vec![stmt(), br(1)], vec![br(3)], vec![stmt(), br(1)], vec![cond_br(0, 2, 4)], vec![ret()]],
            ),
        ),
        (
            "constant-twice-written",
            draft(
                vec![0; 2],
                vec![
                    vec![stmt(), br(2)],
                    vec![constant(1, 7), br(2)],
                    vec![constant(1, 7), cond_br(0, 1, 3)],
                    vec![ret()],
                ],
            ),
        ),
        (
            // The first CondBr reads r1 only until it is joined.
            "uses-before-equal-arms",
            draft(
                vec![0; 2],
                vec![
                    vec![stmt(), cond_br(1, 1, 1)],
                    vec![stmt(), br(2)],
                    vec![cmp(0, 1, 0, 0), cond_br(1, 1, 3)],
                    vec![ret()],
                ],
            ),
        ),
        (
            // r1 is written twice, so it keeps its number.
            "written-twice-in-copy",
            draft(
                vec![0; 2],
                vec![
                    vec![stmt(), br(2)],
                    vec![stmt(), br(2)],
                    vec![cmp(0, 1, 0, 0), cmp(1, 1, 1, 0), cond_br(1, 1, 3)],
                    vec![ret()],
                ],
            ),
        ),
        (
            // Block 3 holds block 2's copies: r1's new numbers are of no use there.
            "copy-of-a-copy",
            draft(
                vec![0; 3],
                vec![
                    vec![stmt(), br(3)],
                    vec![stmt(), br(3)],
                    vec![cmp(0, 1, 0, 0), mov(2, 1), cond_br(1, 1, 4)],
                    vec![br(2)],
                    vec![ret()],
                ],
            ),
        ),
        (
            // Block 2 isn't reached and was edited before: its first statement is another's.
            "emptied-after-edit",
            draft(
                vec![0],
                vec![vec![stmt(), br(1)], vec![br(3)], vec![br(1)], vec![cond_br(0, 3, 4)], vec![stmt(), ret()]],
            ),
        ),
    ]
}

/// r1 is written `n` times by Const, one of these in a block that isn't reached.
pub(crate) fn written_often(n: usize) -> Draft {
    let mut first = vec![constant(1, 7); n - 1];
    first.extend([stmt(), br(2)]);
    let blocks = vec![first, vec![constant(1, 7), br(2)], vec![cond_br(0, 0, 3)], vec![ret()]];
    Draft { registers: vec![0; 2], blocks, ..Draft::default() }.with_statements(10)
}

/// The printed procedure with one thing wrong.
fn refusals() -> Vec<(&'static str, Vec<u8>)> {
    let good = p1();
    let bytes = good.bytes();
    let block = |b: usize, start: u32, end: u32| {
        let mut p = good.procedure();
        p.blocks[b] = (start, end);
        p.bytes()
    };
    let code = |at: usize, i: Record| {
        let mut p = good.procedure();
        p.code[at] = i;
        p.bytes()
    };
    let arms = |arms: &[(u8, u32, u32)]| {
        let records: Vec<Record> =
            arms.iter().map(|&(kind, table, to)| Record::new(ARM, kind, 0, 0, &[table, 0, 0, 0, 0, to])).collect();
        with_records(&bytes, bytes.len() / RECORD, &records)
    };
    vec![
        ("two-bodies", with_records(&bytes, 5, &[body(0), body(0)])),
        ("body-unknown", with_records(&bytes, 5, &[body(4)])),
        ("body-last", with_records(&bytes, 5, &[body(3)])),
        ("class-falls", with_records(&bytes, 8, &[body(0)])),
        ("block-late", block(0, 1, 2)),
        ("block-empty", block(1, 2, 2)),
        ("block-overlaps", block(1, 1, 4)),
        ("block-past-code", block(3, 5, 7)),
        ("code-left-over", with_records(&bytes, 11, &[stmt()])),
        ("terminator-missing", code(1, stmt())),
        ("terminator-early", code(0, ret())),
        ("register-unknown", code(4, cond_br(1, 1, 3))),
        ("block-unknown", code(4, cond_br(0, 1, 4))),
        ("table-unknown", code(5, ins(kind::CASE, 0, &[0, 0]))),
        ("list-unknown", code(0, ins(kind::CALL_NATIVE, 0, &[0, 0, 1]))),
        ("list-past-words", code(0, ins(kind::CALL_NATIVE, 0, &[0, u32::MAX, 1]))),
        ("unread-unknown", code(0, boolean(3, 0, 0, 1))),
        ("unread-known", code(0, boolean(3, 0, 0, 0))),
        ("op-unknown", code(0, boolean(4, 0, 0, 0))),
        ("dim-256", code(0, ins(kind::DOPE_LEN, 0, &[0, 0, 256]))),
        ("up-256", code(0, ins(kind::ADDR_OF, 1, &[0, 256, 0]))),
        ("pkg-256", code(0, ins(kind::ADDR_OF, 3, &[0, 256, 0]))),
        ("frame-numbered", code(0, ins(kind::ADDR_OF, 0, &[0, 1, 0]))),
        ("ret-unused", code(5, ins(kind::RET, 0, &[1]))),
        ("table-skipped", arms(&[(1, 1, 0)])),
        ("table-late", arms(&[(0, 0, 0), (0, 1, 0), (1, 1, 0)])),
        ("default-missing", arms(&[(1, 0, 0), (0, 1, 0), (0, 1, 0)])),
        ("arm-unknown", arms(&[(0, 0, 3), (1, 0, 4)])),
        ("table-unread", arms(&[(0, 0, 3), (1, 0, 3), (1, 1, 0)])),
    ]
}

/// P4's file with one more instruction, which names r1 in one of its places: what is read or
/// written there decides whether r1 gets new numbers.
fn roles() -> Vec<(String, Draft)> {
    let mut all = Vec::new();
    for k in 0..=kind::STMT {
        for op in (0..=u8::MAX).take_while(|&op| places(k, op).is_some()) {
            let listed = places(k, op).unwrap();
            let before = op.checked_sub(1).and_then(|o| places(k, o));
            for at in (0..6).filter(|&at| before.is_none_or(|b| b[at] != listed[at])) {
                if matches!(listed[at], Place::Written | Place::Read | Place::Unread | Place::List) {
                    all.push((format!("role-{k}-{op}-p{}", at + 1), with_role(k, op, at)));
                }
            }
        }
    }
    all
}

fn with_role(k: u8, op: u8, at: usize) -> Draft {
    let mut d = printed(vec![cmp(0, 1, 0, 0), cond_br(1, 1, 3)]);
    let mut i = ins(k, op, &[]);
    if places(k, op).unwrap()[at] == Place::List {
        (d.operands, i.p[at + 1]) = (vec![1], 1);
    } else {
        i.p[at] = 1;
    }
    if k == kind::CASE {
        d.tables = vec![Table { arms: Vec::new(), default: 0 }];
    }
    if i.is_terminator() {
        d.blocks[3] = vec![i];
    } else {
        d.blocks[3].insert(0, i);
    }
    d
}

/// A branch on a Bool of two known values.
fn decided_by_bool(op: u8, x: i64, y: i64) -> Draft {
    let load = |r: u32| ins(kind::LOAD, 2, &[r, r]);
    let blocks = vec![
        vec![constant(1, x), constant(2, y), boolean(op, 0, 1, 2), cond_br(0, 1, 2)],
        vec![cond_br(0, 0, 2)],
        vec![load(0), load(1), load(2), ret()],
    ];
    Draft { registers: vec![0; 3], blocks, ..Draft::default() }.with_statements(10)
}

/// Block 1 takes over block 3 three times before block 4 copies it. r1 is written once in the
/// file and read once besides `n` list operands: with two of these it gets three new numbers.
fn ring(n: u32) -> Draft {
    let call = ins(kind::CALL_NATIVE, 0, &[0, 0, n]);
    let blocks = vec![vec![call, br(1)], vec![br(3)], vec![br(3)], vec![cmp(0, 1, 1, 0), br(2)], vec![stmt(), br(1)]];
    let operands = vec![1; n as usize];
    Draft { registers: vec![0; 2], blocks, operands, ..Draft::default() }.with_statements(10)
}

/// Points that the Rust decides; see docs/DIFFERENCES.md.
fn decided() -> Vec<(&'static str, Draft)> {
    let draft = |registers: &[u8], blocks| Draft { registers: registers.to_vec(), blocks, ..Draft::default() };
    let long = || vec![stmt(), stmt(), stmt(), stmt()];
    let after = |mut code: Vec<Record>, last: Record| {
        code.push(last);
        code
    };
    vec![
        ("self-loop", draft(&[0], vec![after(long(), br(1)), vec![br(1)]])),
        ("one-arm-twice", draft(&[0], vec![vec![stmt(), stmt(), stmt(), cond_br(0, 1, 1)], vec![br(2)], vec![ret()]])),
        ("ring-of-lone-brs", draft(&[0], vec![after(long(), cond_br(0, 1, 2)), vec![br(2)], vec![br(1)]])),
        (
            "gate-without-edit",
            draft(&[0; 2], vec![vec![stmt(), stmt(), stmt(), cond_br(0, 1, 2)], vec![cond_br(1, 0, 2)], vec![ret()]]),
        ),
        (
            "copy-is-an-edit",
            draft(
                &[0; 2],
                vec![vec![mov(1, 0), stmt(), stmt(), cond_br(1, 1, 2)], vec![cond_br(1, 0, 2)], vec![ret()]],
            ),
        ),
        (
            "not-of-itself",
            draft(
                &[0; 2],
                vec![
                    vec![constant(0, 1), boolean(3, 0, 0, 0), cond_br(0, 1, 2)],
                    vec![cond_br(1, 0, 2)],
                    vec![constant(0, 1), ret()],
                ],
            ),
        ),
        (
            "constant-of-another-block",
            draft(
                &[0; 2],
                vec![vec![stmt(), stmt(), cond_br(0, 1, 2)], vec![cond_br(1, 0, 2)], vec![constant(0, 1), ret()]],
            ),
        ),
        (
            "body-passed-over",
            with_body(
                1,
                draft(
                    &[0],
                    vec![vec![stmt(), stmt(), br(2)], vec![stmt(), br(2)], vec![cond_br(0, 0, 3)], vec![ret()]],
                ),
            ),
        ),
        (
            "bounds-forget-copies",
            draft(
                &[0; 3],
                vec![
                    vec![mov(1, 0), ins(kind::TAKE_BOUNDS, 0, &[2, 2, 2]), stmt(), cond_br(1, 1, 2)],
                    vec![cond_br(2, 0, 2)],
                    vec![ret()],
                ],
            ),
        ),
        (
            "bounds-forget-values",
            draft(
                &[0; 3],
                vec![
                    vec![constant(0, 1), ins(kind::TAKE_BOUNDS, 0, &[2, 2, 2]), cond_br(0, 1, 2)],
                    vec![constant(0, 1), cond_br(2, 0, 2)],
                    vec![ret()],
                ],
            ),
        ),
        (
            "body-is-lone",
            with_body(
                1,
                draft(&[0], vec![vec![stmt(), stmt(), stmt(), cond_br(0, 1, 2)], vec![cond_br(0, 0, 2)], vec![ret()]]),
            ),
        ),
        (
            "arm-to-body",
            with_body(
                2,
                draft(
                    &[0],
                    vec![
                        vec![stmt(), stmt(), cond_br(0, 1, 3)],
                        vec![cond_br(0, 2, 3)],
                        vec![stmt(), br(0)],
                        vec![ret()],
                    ],
                ),
            ),
        ),
        ("constant-unread", with_body(2, draft(&[0; 2], constant_in_test(3)))),
        ("constant-read", with_body(2, draft(&[0; 2], constant_in_test(0)))),
        (
            "latch-forward",
            draft(
                &[0; 2],
                vec![
                    vec![stmt(), br(1)],
                    vec![cond_br(0, 2, 3)],
                    vec![ins(kind::BIN, 0, &[1, 1, 1]), br(3)],
                    vec![br(0)],
                ],
            ),
        ),
        ("latch-wide", with_body(3, draft(&[0; 2], checked_step()))),
        ("latch-narrow", draft(&[0; 2], checked_step())),
        (
            "up-rescued",
            draft(
                &[0, 2],
                vec![
                    vec![stmt(), br(2)],
                    vec![ins(kind::ADDR_OF, 1, &[1, 3, 4]), br(2)],
                    vec![cond_br(0, 0, 3)],
                    vec![ret()],
                ],
            ),
        ),
        (
            // The first CondBr's c is a copy of another kind: known, not copied.
            "copy-of-another-kind",
            draft(
                &[0, 2],
                vec![
                    vec![constant(0, 1), mov(1, 0), cond_br(1, 1, 2)],
                    vec![constant(0, 0), cond_br(1, 0, 2)],
                    vec![constant(1, 0), ret()],
                ],
            ),
        ),
    ]
}

/// Lengths and their tests, one point of `slice_tests` in each; `table.py` makes a table of the definition from them. r0 and r1 are
/// the bounds, r2 is the constant 0, r4 the length, r5 what the test gives, r6 the register of a descriptor.
fn lengths() -> Vec<(&'static str, Draft)> {
    let looped = |code: &[Record], operands: &[u32]| {
        let mut block = vec![constant(2, 0)];
        block.extend_from_slice(code);
        block.push(stmt());
        block.push(br(0));
        Draft { registers: vec![0; 7], blocks: vec![block], operands: operands.to_vec(), ..Draft::default() }
    };
    let spans = |dst, left, right, dir| ins(kind::BOUNDS_LEN, 0, &[dst, left, right, dir]);
    let makes = |at, start, len| ins(kind::MAKE_DOPE, 0, &[at, start, len]);
    let measures = |dst, dim| ins(kind::DOPE_LEN, 0, &[dst, 6, dim]);
    let up = [0, 1, 2];
    let twice = [0, 1, 2, 1, 0, 2];
    let once_unknown = [0, 1, 2, 1, 0, 0];
    vec![
        ("length-up", looped(&[spans(4, 0, 1, 2), cmp(0, 5, 4, 2), cmp(3, 5, 4, 2)], &[])),
        ("length-down", looped(&[constant(3, 1), spans(4, 0, 1, 3), cmp(1, 5, 4, 2), cmp(4, 5, 4, 2)], &[])),
        ("length-two-ops", looped(&[spans(4, 0, 1, 2), cmp(2, 5, 4, 2), cmp(5, 5, 4, 2)], &[])),
        ("length-direction-2", looped(&[constant(3, 2), spans(4, 0, 1, 3), cmp(0, 5, 4, 2)], &[])),
        ("length-not-zero", looped(&[constant(3, 1), spans(4, 0, 1, 2), cmp(0, 5, 4, 3)], &[])),
        (
            "length-over-its-left",
            looped(&[spans(0, 0, 1, 2), cmp(0, 5, 0, 2), spans(1, 0, 1, 2), cmp(0, 5, 1, 2)], &[]),
        ),
        ("length-bound-written", looped(&[spans(4, 0, 1, 2), mov(1, 0), cmp(0, 5, 4, 2)], &[])),
        ("length-written", looped(&[spans(4, 0, 1, 2), cmp(0, 4, 4, 2), cmp(0, 5, 4, 2)], &[])),
        ("length-of-dope", looped(&[makes(6, 0, 3), measures(4, 0), cmp(0, 5, 4, 2)], &up)),
        ("length-of-dim-1", looped(&[makes(6, 0, 3), measures(4, 1), cmp(0, 5, 4, 2)], &up)),
        (
            "length-of-dope-made-twice",
            looped(&[makes(6, 0, 3), measures(4, 0), makes(6, 3, 3), cmp(1, 5, 4, 2)], &twice),
        ),
        (
            "length-of-dope-unknown",
            looped(&[makes(6, 0, 3), measures(4, 0), makes(6, 3, 3), cmp(0, 5, 4, 2)], &once_unknown),
        ),
        ("length-of-dope-of-two", looped(&[makes(6, 0, 2), measures(4, 0), cmp(0, 5, 4, 2)], &up)),
        ("length-of-dope-at-its-bound", looped(&[makes(6, 0, 3), measures(4, 0), cmp(0, 5, 4, 2)], &[0, 6, 2])),
        ("length-of-dope-written", looped(&[makes(6, 0, 3), measures(4, 0), mov(6, 0), cmp(0, 5, 4, 2)], &up)),
        (
            "length-of-next-block",
            Draft {
                registers: vec![0; 6],
                blocks: vec![
                    vec![constant(2, 0), spans(4, 0, 1, 2), stmt(), stmt(), stmt(), br(1)],
                    vec![cmp(0, 5, 4, 2), stmt(), stmt(), stmt(), stmt(), br(0)],
                ],
                ..Draft::default()
            },
        ),
        (
            "length-loop-threaded-away",
            Draft {
                registers: vec![0; 6],
                blocks: vec![
                    vec![constant(2, 0), spans(4, 0, 1, 2), cmp(0, 5, 4, 2), br(2)],
                    vec![ret()],
                    vec![stmt(), br(1)],
                ],
                ..Draft::default()
            },
        ),
        (
            "length-without-loop",
            Draft {
                registers: vec![0; 6],
                blocks: vec![vec![constant(2, 0), spans(4, 0, 1, 2), cmp(0, 5, 4, 2), stmt(), stmt(), ret()]],
                ..Draft::default()
            },
        ),
        (
            "length-zero-once-emptied",
            Draft {
                registers: vec![0; 3],
                blocks: vec![
                    vec![spans(2, 1, 1, 0), cmp(0, 1, 2, 0), constant(0, 0), br(2)],
                    vec![cmp(0, 1, 2, 0), constant(0, 0), ret()],
                    vec![cmp(0, 2, 0, 0), br(0)],
                ],
                ..Draft::default()
            },
        ),
    ]
}

/// Tidy files whose runs differ from their sliced forms' where the outside's lengths are wrong, or don't fit in 63 bits.
fn wrong_lengths() -> Vec<(&'static str, Draft)> {
    let draft = |registers: usize, blocks| Draft { registers: vec![0; registers], blocks, ..Draft::default() };
    let spans = |dst, left, right, dir| ins(kind::BOUNDS_LEN, 0, &[dst, left, right, dir]);
    let again = || vec![mov(0, 0), ret()];
    let inexact = vec![spans(2, 0, 0, 1), cmp(0, 0, 2, 1), br(0)];
    let too_long = vec![constant(3, 0), constant(2, 0), spans(1, 0, 3, 2), cmp(4, 0, 1, 3), br(0)];
    vec![
        ("inexact-length", draft(3, vec![inexact, again(), vec![constant(1, 0), ret()]])),
        ("too-long-length", draft(4, vec![too_long, again()])),
    ]
}

fn with_body(b: u32, d: Draft) -> Draft {
    Draft { body: Some(b), ..d }
}

/// A block that names the constant r1 in a Bool.
fn constant_in_test(op: u8) -> Vec<Vec<Record>> {
    vec![vec![constant(1, 1), br(1)], vec![boolean(op, 0, 0, 1), cond_br(0, 0, 2)], vec![stmt(), stmt(), ret()]]
}

/// A loop whose step block moves and subtracts with a check.
fn checked_step() -> Vec<Vec<Record>> {
    vec![
        vec![stmt(), br(1)],
        vec![cond_br(0, 2, 3)],
        vec![mov(1, 0), ins(kind::BIN_RANGE, 1, &[1, 1, 1]), br(1)],
        vec![ret()],
    ]
}

fn limits() -> Vec<(String, Draft)> {
    let mut all = Vec::new();
    let base = p1();
    for n in [479, 480, 481, 756, 757] {
        all.push((format!("instructions-{n}"), of_length(n)));
        let registers = vec![0; n];
        all.push((format!("registers-{n}"), Draft { registers, ..base.clone() }));
    }
    for n in [159u32, 160, 161] {
        let mut blocks: Vec<Vec<Record>> = (1..n).map(|b| vec![br(b)]).collect();
        blocks.push(vec![cond_br(0, 0, n - 1)]);
        all.push((format!("blocks-{n}"), Draft { blocks, ..base.clone() }));
    }
    for n in [127, 128, 129] {
        let mut d = base.clone();
        d.operands = vec![0; n];
        d.blocks[0].insert(0, ins(kind::CALL_NATIVE, 0, &[3, 1, n as u32 - 1]));
        all.push((format!("operands-{n}"), d));
        let mut d = base.clone();
        d.tables = vec![Table { arms: vec![(1, 0, 3); n - 1], default: 1 }];
        d.blocks[3] = vec![ins(kind::CASE, 0, &[0, 0])];
        all.push((format!("arms-{n}"), d));
    }
    all
}

/// A generated file filled up to 480 registers and 480 instructions.
fn full(seed: u64) -> Draft {
    let mut g = Rng::new(seed);
    let shape = Shape { blocks: 150, registers: 300, length: 4, lone: 45, ..Shape::large(&mut g) };
    let mut d = shape.draft(&mut g);
    while d.instructions() < 480 {
        d.blocks[0].insert(0, stmt());
    }
    d.registers.resize(480, 0);
    d
}

/// The same with lengths and their tests in its first block, by the last registers.
fn full_of_lengths() -> Draft {
    let mut d = full(1);
    let stmts = d.blocks[0].iter().take_while(|i| i.kind == kind::STMT).count();
    let pairs = (0..).flat_map(|k| {
        let length = 470 + k % 4;
        let span = ins(kind::BOUNDS_LEN, 0, &[length, 475, 476, 479]);
        [span, cmp(k as u8 % 6, 477, length, 479)]
    });
    let code = std::iter::once(constant(479, 0)).chain(pairs);
    d.blocks[0].iter_mut().take(stmts).zip(code).for_each(|(stmt, i)| *stmt = i);
    d
}

fn repeated_register(n: usize) -> Vec<u8> {
    let mut out = Vec::new();
    let r = Record::new(REGISTER, 0, 0, 0, &[]);
    while out.len() < n {
        r.write(&mut out);
    }
    out.truncate(n);
    out
}
