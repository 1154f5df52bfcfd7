//! Stored runs: a procedure, the words that its registers start with, an address rule, an outside and a limit.

use halivomue_reference::machine::{Act, Outside};
use halivomue_reference::record::Record;

pub struct Stored {
    pub name: String,
    pub bytes: Vec<u8>,
    pub words: Vec<u64>,
    pub rules: Rules,
    /// Instructions, at most.
    pub limit: usize,
}

/// The outside and AddrOf's rule, as tests/machine/Rules.antt has them too.
#[derive(Clone)]
pub struct Rules {
    address: [u64; 4],
    outside: Rule,
}

#[derive(Clone)]
enum Rule {
    /// An answer for each act, in order; past the last the run is ended.
    Listed(Vec<Option<Vec<u64>>>),
    /// From a digest of all acts: it ends on one act in `patience`, or gives up to four words, some of `words`.
    Drawn { seed: u64, patience: u64, words: Vec<u64> },
}

impl Rules {
    /// The values that the outside gives, whatever the number of registers written.
    pub fn given(&self, earlier: &[Act], act: &Act) -> Option<Vec<u64>> {
        match &self.outside {
            Rule::Listed(answers) => answers.get(earlier.len()).cloned().flatten(),
            Rule::Drawn { seed, patience, words } => {
                let d = earlier.iter().chain([act]).fold(*seed, digest);
                if (d >> 33).is_multiple_of(*patience) {
                    return None;
                }
                let word = |k: u64| *words.get(((d >> 45) + k) as usize % (words.len() + 1)).unwrap_or(&d);
                Some((0..(d >> 40) % 5).rev().map(word).collect())
            }
        }
    }

    pub fn sort(&self) -> &'static str {
        match self.outside {
            Rule::Listed(_) => "listed",
            Rule::Drawn { .. } => "drawn",
        }
    }
}

fn digest(before: u64, a: &Act) -> u64 {
    let head = [u64::from(a.kind), u64::from(a.op), u64::from(a.statement), a.plain.len() as u64];
    let words = head.into_iter().chain(a.plain.iter().map(|&n| u64::from(n))).chain(a.read.iter().copied());
    words.fold(before, |d, w| {
        d.wrapping_add(w).wrapping_mul(6_364_136_223_846_793_005).wrapping_add(1_442_695_040_888_963_407)
    })
}

impl Outside for Rules {
    fn answer(&mut self, earlier: &[Act], act: &Act, _: usize) -> Option<Vec<u64>> {
        self.given(earlier, act)
    }

    fn address(&self, space: u8, number: u32, off: u32) -> u64 {
        let [a, b, c, d] = self.address;
        let part = |factor: u64, n: u64| factor.wrapping_mul(n);
        part(a, space.into()).wrapping_add(part(b, number.into())).wrapping_add(part(c, off.into())).wrapping_add(d)
    }
}

/// The runs of a list, whose form tests/machine/README.md describes.
pub fn parse(text: &str) -> Vec<Stored> {
    let lines: Vec<&str> = text.lines().filter(|l| !l.is_empty() && !l.starts_with('#')).collect();
    assert!(lines.len().is_multiple_of(6), "six lines for each run");
    lines.chunks(6).map(stored).collect()
}

fn stored(lines: &[&str]) -> Stored {
    let field = |at: usize, name: &str| {
        let rest = lines[at].strip_prefix(name).unwrap_or_else(|| panic!("{name} due, not {}", lines[at]));
        rest.trim_start()
    };
    let mut bytes = Vec::new();
    field(1, "file").split('/').for_each(|r| record(&numbers(r)).write(&mut bytes));
    let address = numbers(field(3, "address")).try_into().expect("four numbers of an address rule");
    Stored {
        name: field(0, "run").into(),
        bytes,
        words: numbers(field(2, "words")),
        rules: Rules { address, outside: rule(field(4, "outside")) },
        limit: numbers(field(5, "limit"))[0] as usize,
    }
}

fn numbers(text: &str) -> Vec<u64> {
    text.split_whitespace().map(|n| n.parse().unwrap_or_else(|_| panic!("a word due, not {n}"))).collect()
}

/// Class, kind, op, statement, p1 to p6; zeros at the end are left out.
fn record(numbers: &[u64]) -> Record {
    let at = |k: usize| u32::try_from(*numbers.get(k).unwrap_or(&0)).expect("32 bits");
    let byte = |k: usize| u8::try_from(at(k)).expect("a byte");
    let places: Vec<u32> = (4..10).map(at).collect();
    Record::new(byte(0), byte(1), byte(2), at(3), &places)
}

fn rule(text: &str) -> Rule {
    if let Some(rest) = text.strip_prefix("drawn") {
        let all = numbers(rest);
        return Rule::Drawn { seed: all[0], patience: all[1], words: all[2..].to_vec() };
    }
    let rest = text.strip_prefix("listed").expect("an outside: listed or drawn").trim();
    let answer = |text: &str| match text.trim() {
        "end" => None,
        "-" => Some(Vec::new()),
        words => Some(numbers(words)),
    };
    Rule::Listed(if rest.is_empty() { Vec::new() } else { rest.split('/').map(answer).collect() })
}
