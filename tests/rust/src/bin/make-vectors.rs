//! Writes a list of vectors, or with --check compares the stored list with them.
//! Usage: make-vectors [--check] read|tidy <list>

use checks::compact::{compact, expand};
use checks::tidy_vectors::{tidy_vectors, TidyVector};
use checks::vectors::{read_vectors, Vector};
use checks::{read, tidy};
use std::collections::HashSet;
use std::process::ExitCode;

const READ_HEADER: &str = "\
# Vectors of Read, one to a line: name, file, number and record of the answer, parted by
# single spaces.";

const TIDY_HEADER: &str = "\
# Vectors of Tidy, one to a line: name, file, number, record, tidy and register of the answer,
# parted by single spaces.";

const FORM: &str = "
# A file is written as items parted by points. An item is bytes in hex, and with a star and a
# decimal count after it these bytes so many times. A lone minus sign is the empty file. Lines
# that begin with a number sign are left out.
";

/// A line of a list: the answers are written with spaces.
struct Line {
    name: String,
    bytes: Vec<u8>,
    due: String,
    answer: String,
}

fn read_lines() -> Vec<Line> {
    let text = |(number, record): (u32, u32)| format!("{number} {record}");
    let line = |Vector { name, bytes, due }| {
        let answer = text(read(&bytes));
        Line { name, bytes, due: text(due), answer }
    };
    read_vectors().into_iter().map(line).collect()
}

fn tidy_lines() -> Vec<Line> {
    let text = |(number, record, tidy, register): (u32, u32, u32, u32)| {
        format!("{number} {record} {tidy} {register}")
    };
    let line = |TidyVector { name, bytes, due }| {
        let answer = text(tidy(&bytes));
        Line { name, bytes, due: text(due), answer }
    };
    tidy_vectors().into_iter().map(line).collect()
}

/// Fails where an answer isn't the one due, or a name or text is no good.
fn check(lines: &[Line]) -> Result<(), String> {
    let mut names = HashSet::new();
    for Line { name, bytes, due, answer } in lines {
        if answer != due {
            return Err(format!("{name}: due {due}, the Rust code says {answer}"));
        }
        if expand(&compact(bytes)).as_ref() != Some(bytes) {
            return Err(format!("{name}: the text is not the file"));
        }
        if name.contains(' ') || !names.insert(name) {
            return Err(format!("{name}: the name is no good"));
        }
    }
    Ok(())
}

fn text(header: &str, lines: &[Line]) -> String {
    let line = |line: &Line| format!("{} {} {}\n", line.name, compact(&line.bytes), line.due);
    [header, FORM].concat() + &lines.iter().map(line).collect::<String>()
}

fn run() -> Result<String, String> {
    let arguments: Vec<String> = std::env::args().skip(1).collect();
    let words: Vec<&str> = arguments.iter().map(String::as_str).collect();
    let (only_check, which, path) = match words.as_slice() {
        ["--check", which, path] => (true, *which, path),
        [which, path] => (false, *which, path),
        _ => return Err("usage: make-vectors [--check] read|tidy <list>".to_string()),
    };
    let (header, lines) = match which {
        "read" => (READ_HEADER, read_lines()),
        "tidy" => (TIDY_HEADER, tidy_lines()),
        _ => return Err(format!("there are no vectors of {which}")),
    };
    check(&lines)?;
    let text = text(header, &lines);
    if !only_check {
        std::fs::write(path, &text).map_err(|error| error.to_string())?;
        return Ok(format!("make-vectors {which}: {} vectors written", lines.len()));
    }
    match std::fs::read_to_string(path) {
        Ok(stored) if stored == text => {
            Ok(format!("make-vectors {which}: the {} stored vectors stand", lines.len()))
        }
        Ok(_) => Err("the stored list is not the one made".to_string()),
        Err(error) => Err(error.to_string()),
    }
}

fn main() -> ExitCode {
    match run() {
        Ok(line) => {
            println!("{line}");
            ExitCode::SUCCESS
        }
        Err(line) => {
            eprintln!("make-vectors: {line}");
            ExitCode::FAILURE
        }
    }
}
