//! Files as one word of text: items parted by points, an item being bytes in hex or, with a
//! star and a count after it, these bytes so many times. The empty file is a minus sign.

use crate::record::RECORD_BYTES;
use std::fmt::Write;

/// The fewest zero bytes of one record that are written as a count.
const SHORTEST_RUN: usize = 4;

pub fn compact(bytes: &[u8]) -> String {
    let pieces: Vec<&[u8]> = bytes.chunks(RECORD_BYTES).collect();
    let mut items = Vec::new();
    for equal in pieces.chunk_by(|a, b| a == b) {
        match equal.len() {
            1 => record_items(equal[0], &mut items),
            count => items.push(format!("{}*{count}", hex(equal[0]))),
        }
    }
    if items.is_empty() {
        return "-".to_string();
    }
    items.join(".")
}

fn record_items(record: &[u8], items: &mut Vec<String>) {
    let mut written = Vec::new();
    for run in record.chunk_by(|a, b| a == b) {
        if run[0] != 0 || run.len() < SHORTEST_RUN {
            written.extend_from_slice(run);
            continue;
        }
        if !written.is_empty() {
            items.push(hex(&written));
            written.clear();
        }
        items.push(format!("00*{}", run.len()));
    }
    if !written.is_empty() {
        items.push(hex(&written));
    }
}

fn hex(bytes: &[u8]) -> String {
    bytes.iter().fold(String::new(), |mut text, byte| {
        write!(text, "{byte:02x}").expect("a string takes all");
        text
    })
}

/// The bytes of a compact text; none where it is not of that form.
pub fn expand(text: &str) -> Option<Vec<u8>> {
    let mut bytes = Vec::new();
    if text == "-" {
        return Some(bytes);
    }
    for item in text.split('.') {
        let (digits, count) = match item.split_once('*') {
            Some((digits, count)) => (digits, count.parse().ok()?),
            None => (item, 1),
        };
        bytes.extend(unhex(digits)?.repeat(count));
    }
    Some(bytes)
}

fn unhex(digits: &str) -> Option<Vec<u8>> {
    if digits.is_empty() || !digits.len().is_multiple_of(2) || !digits.is_ascii() {
        return None;
    }
    let byte = |at: usize| u8::from_str_radix(&digits[at..at + 2], 16).ok();
    (0..digits.len()).step_by(2).map(byte).collect()
}

#[cfg(test)]
mod tests {
    use super::*;

    #[test]
    fn expanding_gives_the_bytes_back() {
        for bytes in [vec![], vec![7], vec![0; 33], vec![1; 100], (0..=255).collect()] {
            assert_eq!(expand(&compact(&bytes)), Some(bytes));
        }
    }

    #[test]
    fn other_texts_are_no_files() {
        for text in ["", "0", "0g", "00*", "*3", "00..00"] {
            assert_eq!(expand(text), None, "{text}");
        }
    }
}
