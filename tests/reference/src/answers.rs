//! The stored list: one answer a line, fields parted by single spaces. README.md says more.

use crate::Answer;
use std::fmt::Write;

pub struct Stored {
    pub name: String,
    pub small: bool,
    pub room: usize,
    pub bytes: Vec<u8>,
    pub answer: Answer,
}

pub fn parse(line: &str) -> Stored {
    let fields: Vec<&str> = line.split(' ').collect();
    let [name, tag, room, input, number, record, moved, grown, fresh, rescued, length, output] = fields[..] else {
        panic!("twelve fields due: {name}", name = fields[0]);
    };
    let n = |s: &str| s.parse::<u32>().expect("a number");
    let bytes = unpacked(input);
    let output = if output == "=" { bytes.clone() } else { unpacked(output) };
    assert!(output.len() == n(length) as usize, "{name}: length");
    let answer = Answer {
        number: n(number),
        record: n(record),
        moved: n(moved),
        grown: n(grown),
        fresh: n(fresh),
        rescued: n(rescued),
        output,
    };
    Stored { name: name.into(), small: tag == "small", room: n(room) as usize, bytes, answer }
}

pub fn line(s: &Stored) -> String {
    let tag = if s.small { "small" } else { "-" };
    let numbers = s.answer.numbers().map(|n| n.to_string()).join(" ");
    let same = s.answer.output == s.bytes && !s.bytes.is_empty();
    let output = if same { "=".into() } else { packed(&s.answer.output) };
    format!("{} {tag} {} {} {numbers} {output}", s.name, s.room, packed(&s.bytes))
}

/// Bytes in hexadecimal; `z` and two digits stand for that many zero bytes (1 to 255), `-` for
/// no bytes at all.
pub fn packed(bytes: &[u8]) -> String {
    let mut s = String::new();
    let mut at = 0;
    while at < bytes.len() {
        let zeros = bytes[at..].iter().take(255).take_while(|&&b| b == 0).count();
        if zeros > 1 {
            write!(s, "z{zeros:02x}").unwrap();
            at += zeros;
        } else {
            write!(s, "{:02x}", bytes[at]).unwrap();
            at += 1;
        }
    }
    if s.is_empty() { "-".into() } else { s }
}

fn unpacked(s: &str) -> Vec<u8> {
    let hex = |at: usize| u8::from_str_radix(&s[at..at + 2], 16).expect("two hexadecimal digits");
    let mut out = Vec::new();
    let mut at = if s == "-" { 1 } else { 0 };
    while at < s.len() {
        if s.as_bytes()[at] == b'z' {
            out.resize(out.len() + hex(at + 1) as usize, 0);
            at += 3;
        } else {
            out.push(hex(at));
            at += 2;
        }
    }
    out
}

#[cfg(test)]
mod tests {
    use super::*;

    #[test]
    fn every_stored_line_reads_back() {
        let lines = include_str!("../answers.txt").lines();
        lines.for_each(|text| assert_eq!(line(&parse(text)), text));
    }
}
