//! All that the stored runs have to meet, by name.

use halivomue_reference::record::{Place, kind, places};

/// Words at the edges of their signed and unsigned order.
pub const EDGES: [u64; 5] = [0, 1, i64::MAX as u64, 1 << 63, u64::MAX];

/// Sorts of arms, and where a value may lie beside one.
const ARMS: [(&str, &[&str]); 8] = [
    ("of one value", &["at low", "one below", "one above"]),
    ("negative", &["at low", "at high", "one below", "one above", "between"]),
    ("across 0", &["at low", "at high", "one below", "one above", "between"]),
    ("positive", &["at low", "at high", "one below", "one above", "between"]),
    ("from the least", &["at low", "at high", "one above", "between"]),
    ("to the greatest", &["at low", "at high", "one below", "between"]),
    ("of all", &["at low", "at high", "between"]),
    ("of none", &["at low", "at high", "between"]),
];

/// Groups and their names.
const OTHERS: [(&str, &[&str]); 11] = [
    ("Case", &["arm 0", "arm 1", "arm 2", "default past arms", "default alone", "two arms hold it"]),
    ("Case table", &["first", "later"]),
    ("into block 0", &["start", "Br", "CondBr, c not 0", "CondBr, c 0", "Case, arm", "Case, default"]),
    ("end", &["none", "Ret", "Ret with value", "Unreachable", "outside, first act", "outside, later act"]),
    ("outside", &["listed", "drawn"]),
    ("budget", &["0", "at the end", "past the end"]),
    ("TakeBounds", &["two alike", "three alike"]),
    ("reads what it writes", &["no act", "act"]),
    ("list", &["from the middle", "to the last operand", "empty, past the last operand", "a register twice"]),
    ("ConstF", &["quiet NaN", "signalling NaN", "negative NaN", "-0.0", "0.0", "infinity", "subnormal", "number"]),
    ("read before a write", &["single constant", "and never written", "constant written again", "written once"]),
];

/// The places of an instruction that name nothing, and the greatest number that each may have.
pub fn plain_places(k: u8, op: u8) -> Vec<(usize, u32)> {
    let most = |place| match place {
        Place::Plain => Some(u32::MAX),
        Place::Byte => Some(255),
        _ => None,
    };
    let all = places(k, op).unwrap_or([Place::Unused; 6]);
    (0..6).filter_map(|at| Some((at, most(all[at])?))).collect()
}

pub fn due() -> Vec<String> {
    let mut all = Vec::new();
    let mut put = |group: &str, name: &str| all.push(format!("{group}: {name}"));
    ARMS.iter().for_each(|(sort, names)| names.iter().for_each(|name| put(&format!("arm {sort}"), name)));
    OTHERS.iter().for_each(|(group, names)| names.iter().for_each(|name| put(group, name)));
    (0..5).for_each(|k| put("register kind", &format!("{k}")));
    [0, u32::MAX].iter().for_each(|s| put("statement", &format!("{s}")));
    for (written, given) in [(0, 0), (0, 1), (1, 0), (1, 1), (1, 2), (3, 0), (3, 1), (3, 2), (3, 3), (3, 4)] {
        put(&format!("values for {written}"), &format!("{given}"));
    }
    for n in ["0", "1", "more"] {
        ["MakeDope", "CallNative", "CallNative with dst"].iter().for_each(|name| put(&format!("list of {name}"), n));
    }
    for (k, op) in (0..24).flat_map(|k| (0..8).map(move |op| (k, op))).filter(|&(k, op)| places(k, op).is_some()) {
        put(&format!("kind {k}"), &format!("op {op}"));
        plain_places(k, op)
            .iter()
            .for_each(|(at, most)| put(&format!("kind {k} op {op} p{}", at + 1), &format!("{most}")));
        if [kind::CONST, kind::CONST_F, kind::ADDR_OF].contains(&k) {
            put("single constant", &format!("kind {k} op {op}"));
        }
    }
    for a in EDGES {
        ["Select", "CondBr", "Case"].iter().for_each(|name| put(name, &format!("{a}")));
        for b in EDGES {
            (0..6).for_each(|op| put(&format!("Cmp {op}"), &format!("{a} {b}")));
            (0..4).for_each(|op| put(&format!("Bool {op}"), &format!("{a} {b}")));
        }
    }
    all
}
