//! Writes the sample files, or with --check compares the stored ones with them.
//! Usage: make-samples [--check] <directory>

use checks::file::{arm, default, inst, Procedure};
use checks::record::{kind, op, Record};
use checks::tidy;
use std::path::Path;
use std::process::ExitCode;

const I64: u8 = 0;
const F64: u8 = 1;
const PTR: u8 = 2;

const EQ: u8 = 0;
const LT: u8 = 2;
const ADD: u8 = 0;
const B8: u8 = 2;

/// The procedure that the paper prints.
fn printed() -> Procedure {
    Procedure {
        registers: vec![I64],
        blocks: vec![
            vec![inst(kind::STMT, &[]).at(10), inst(kind::BR, &[2]).at(11)],
            vec![inst(kind::STMT, &[]).at(12), inst(kind::BR, &[2]).at(13)],
            vec![inst(kind::COND_BR, &[0, 1, 3]).at(14)],
            vec![inst(kind::RET, &[]).at(15)],
        ],
        ..Procedure::default()
    }
}

fn numbered(block: Vec<Record>, statement: u32) -> Vec<Record> {
    block.into_iter().zip(statement..).map(|(record, statement)| record.at(statement)).collect()
}

/// A call that is put through by the hour of the day, tried again until it is answered.
fn forwarding() -> Procedure {
    // Registers.
    let [frame, tries, most_tries, one, volume] = [0, 1, 2, 3, 4];
    let [hour, address, again, answered, tone, tone_length] = [5, 6, 7, 8, 9, 10];
    // Blocks.
    let [next_try, choose, by_day, by_night, tried, done, given_up] = [1, 2, 3, 4, 5, 6, 7];
    // Natives, and messages of checks.
    let [clock, ring, play, hang_up] = [1, 2, 3, 4];
    let [bad_hour, no_answer] = [40, 41];
    // Lists: ring takes the address and the volume, the tone has bounds, play takes all three.
    let operands = vec![address, volume, one, most_tries, one, tone, tone_length, volume];
    let [rung, bounds, played] = [(0, 2), (2, 3), (5, 3)];

    let start = vec![
        inst(kind::STMT, &[]),
        inst(kind::ADDR_OF, &[frame, 0, 16]).with_op(op::FRAME),
        inst(kind::CONST, &[most_tries, 5, 0]),
        inst(kind::CONST, &[one, 1, 0]),
        inst(kind::CONST_F, &[volume, 0, (0.5f64.to_bits() >> 32) as u32]),
        inst(kind::CONST, &[tries, 0, 0]),
        inst(kind::BR, &[next_try]),
    ];
    let head = vec![
        inst(kind::STMT, &[]),
        inst(kind::CMP, &[again, tries, most_tries]).with_op(LT),
        inst(kind::COND_BR, &[again, choose, given_up]),
    ];
    let switch = vec![
        inst(kind::CALL_NATIVE, &[clock, 0, 0, hour]).with_op(op::WITH),
        inst(kind::CHECK, &[hour, one, most_tries, bad_hour]).with_op(op::RANGE),
        inst(kind::CASE, &[hour, 0]),
    ];
    let day = vec![
        inst(kind::LOAD, &[address, frame]).with_op(B8),
        inst(kind::CALL_NATIVE, &[ring, rung.0, rung.1, answered]).with_op(op::WITH),
        inst(kind::BR, &[tried]),
    ];
    let night = vec![
        inst(kind::ADDR_OF, &[tone, 3, 128]).with_op(op::PKG),
        inst(kind::MAKE_DOPE, &[tone, bounds.0, bounds.1]),
        inst(kind::DOPE_LEN, &[tone_length, tone, 0]),
        inst(kind::CALL_NATIVE, &[play, played.0, played.1, answered]).with_op(op::WITH),
        inst(kind::BR, &[tried]),
    ];
    let count = vec![
        inst(kind::BIN, &[tries, tries, one]).with_op(ADD),
        inst(kind::STORE, &[frame, tries]).with_op(B8),
        inst(kind::CASE, &[answered, 1]),
    ];
    let end = vec![inst(kind::STMT, &[]), inst(kind::RET, &[answered]).with_op(op::WITH)];
    let fail =
        vec![inst(kind::CALL_NATIVE, &[hang_up, 0, 0]), inst(kind::UNREACHABLE, &[no_answer])];
    let blocks = [start, head, switch, day, night, count, end, fail];
    Procedure {
        registers: vec![PTR, I64, I64, I64, F64, I64, PTR, I64, I64, PTR, I64],
        blocks: blocks.into_iter().zip(1..).map(|(code, n)| numbered(code, 10 * n)).collect(),
        body: Some(next_try),
        operands,
        arms: vec![
            arm(0, 8, 17, by_day),
            arm(0, 0, 7, by_night),
            arm(0, 18, 23, by_night),
            default(0, given_up),
            arm(1, 0, 0, next_try),
            default(1, done),
        ],
    }
}

/// Compares with a register that isn't there.
fn refused() -> Procedure {
    let mut procedure = printed();
    procedure.blocks[2].insert(0, inst(kind::CMP, &[1, 0, 0]).with_op(EQ).at(14));
    procedure
}

/// Keeps the hour in its register for the block after, which is not tidy.
fn untidy() -> Procedure {
    let mut procedure = forwarding();
    let [hour, again] = [5, 7];
    procedure.blocks[3].insert(0, inst(kind::CMP, &[again, hour, hour]).with_op(EQ).at(39));
    procedure
}

/// Number, record, tidy and register.
type Answer = (u32, u32, u32, u32);

const YES: Answer = (0, 0, 1, 0);

/// Each sample with what Tidy says of it.
fn samples() -> [(&'static str, Procedure, Answer); 4] {
    [
        ("printed.call", printed(), YES),
        ("forwarding.call", forwarding(), YES),
        ("untidy.call", untidy(), (0, 0, 0, 5)),
        ("refused.call", refused(), (7, 9, 0, 0)),
    ]
}

fn make(name: &str, bytes: &[u8], directory: &Path, only_check: bool) -> Result<(), String> {
    let path = directory.join(name);
    let error = |error: std::io::Error| format!("{name}: {error}");
    if !only_check {
        return std::fs::write(path, bytes).map_err(error);
    }
    match std::fs::read(path).map_err(error)? {
        stored if stored == bytes => Ok(()),
        _ => Err(format!("{name}: the stored file is not the one made")),
    }
}

fn run() -> Result<String, String> {
    let arguments: Vec<String> = std::env::args().skip(1).collect();
    let (only_check, directory) = match arguments.as_slice() {
        [directory] => (false, directory),
        [flag, directory] if flag == "--check" => (true, directory),
        _ => return Err("usage: make-samples [--check] <directory>".to_string()),
    };
    let samples = samples();
    for (name, procedure, due) in &samples {
        let bytes = procedure.bytes();
        if tidy(&bytes) != *due {
            return Err(format!("{name}: due {due:?}, the Rust code says {:?}", tidy(&bytes)));
        }
        make(name, &bytes, Path::new(directory), only_check)?;
    }
    let done = if only_check { "stand" } else { "written" };
    Ok(format!("make-samples: {} samples {done}", samples.len()))
}

fn main() -> ExitCode {
    match run() {
        Ok(line) => {
            println!("{line}");
            ExitCode::SUCCESS
        }
        Err(line) => {
            eprintln!("make-samples: {line}");
            ExitCode::FAILURE
        }
    }
}
