//! What the stored runs have met of all that is due.

use crate::due::{due, plain_places};
use crate::stored::{Rules, Stored};
use halivomue_reference::machine::{End, Run};
use halivomue_reference::procedure::Procedure;
use halivomue_reference::record::{Place, Record, kind, places};
use std::collections::BTreeMap;
use std::num::FpCategory;

pub struct Tally {
    counts: BTreeMap<String, u64>,
}

/// How a file writes a register.
#[derive(Clone, Copy, PartialEq)]
enum Writes {
    Single,
    /// By Const, ConstF or AddrOf, and again.
    Again,
    /// Once, by another kind.
    Once,
    Other,
}

/// One run as it goes on.
pub struct Watch<'a> {
    stored: &'a Stored,
    f: &'a Procedure,
    writes: Vec<Writes>,
    written: Vec<bool>,
    /// Read as a single constant before a write.
    read: Vec<bool>,
}

fn is_fixed(i: &Record) -> bool {
    [kind::CONST, kind::CONST_F, kind::ADDR_OF].contains(&i.kind)
}

fn writes(f: &Procedure) -> Vec<Writes> {
    let mut all = vec![Writes::Other; f.registers.len()];
    let counts = f.writes();
    for i in &f.code {
        for r in f.written(i).map(|r| r as usize) {
            all[r] = match (is_fixed(i), counts[r]) {
                (true, 1) => Writes::Single,
                (true, _) => Writes::Again,
                (false, 1) => Writes::Once,
                (false, _) => all[r],
            };
        }
    }
    all
}

fn real(bits: u64) -> &'static str {
    let x = f64::from_bits(bits);
    match x.classify() {
        FpCategory::Nan if x.is_sign_negative() => "negative NaN",
        FpCategory::Nan if bits & 1 << 51 == 0 => "signalling NaN",
        FpCategory::Nan => "quiet NaN",
        FpCategory::Zero if x.is_sign_negative() => "-0.0",
        FpCategory::Zero => "0.0",
        FpCategory::Infinite => "infinity",
        FpCategory::Subnormal => "subnormal",
        FpCategory::Normal => "number",
    }
}

/// Where v lies beside an arm.
fn beside(low: i64, high: i64, v: i64) -> (&'static str, &'static str) {
    let sort = match (low, high) {
        _ if low > high => "of none",
        _ if low == high => "of one value",
        (i64::MIN, i64::MAX) => "of all",
        (i64::MIN, _) => "from the least",
        (_, i64::MAX) => "to the greatest",
        _ if high < 0 => "negative",
        _ if low < 0 => "across 0",
        _ => "positive",
    };
    let place = match v {
        _ if v == low => "at low",
        _ if v == high => "at high",
        _ if v.checked_add(1) == Some(low) => "one below",
        _ if v.checked_sub(1) == Some(high) => "one above",
        _ if low.min(high) < v && v < low.max(high) => "between",
        _ => "outside",
    };
    (sort, place)
}

impl<'a> Watch<'a> {
    pub fn new(stored: &'a Stored, f: &'a Procedure) -> Watch<'a> {
        let none = vec![false; f.registers.len()];
        Watch { stored, f, writes: writes(f), written: none.clone(), read: none }
    }
}

impl Tally {
    pub fn new() -> Tally {
        Tally { counts: due().into_iter().map(|name| (name, 0)).collect() }
    }

    /// Some names aren't due, as most pairs of words.
    fn note(&mut self, group: &str, name: &str) {
        if let Some(count) = self.counts.get_mut(&format!("{group}: {name}")) {
            *count += 1;
        }
    }

    pub fn note_start(&mut self, w: &Watch) {
        self.note("outside", w.stored.rules.sort());
        self.note("into block 0", "start");
        w.f.registers.iter().for_each(|k| self.note("register kind", &k.to_string()));
        for i in w.f.code.iter().filter(|i| is_fixed(i) && w.writes[i.p[0] as usize] == Writes::Single) {
            self.note("single constant", &format!("kind {} op {}", i.kind, i.op));
            if i.kind == kind::CONST_F {
                self.note("ConstF", real(i.wide(2)));
            }
        }
    }

    /// An instruction that is about to be carried out.
    pub fn note_before(&mut self, w: &mut Watch, run: &Run<Rules>) {
        let Some(i) = run.left().first().filter(|_| run.end.is_none()) else { return };
        self.note(&format!("kind {}", i.kind), &format!("op {}", i.op));
        self.note("statement", &i.statement.to_string());
        for (at, _) in plain_places(i.kind, i.op) {
            self.note(&format!("kind {} op {} p{}", i.kind, i.op, at + 1), &i.p[at].to_string());
        }
        self.note_words(w.f, i, &run.registers);
        self.note_list(w.f, i);
        self.note_registers(w, i);
    }

    /// The words that it looks at, and where it goes.
    fn note_words(&mut self, f: &Procedure, i: &Record, registers: &[u64]) {
        let word = |k: usize| registers[i.p[k - 1] as usize];
        match i.kind {
            kind::CMP => self.note(&format!("Cmp {}", i.op), &format!("{} {}", word(2), word(3))),
            kind::BOOL => self.note(&format!("Bool {}", i.op), &format!("{} {}", word(2), word(3))),
            kind::SELECT => self.note("Select", &word(2).to_string()),
            kind::BR if i.p[0] == 0 => self.note("into block 0", "Br"),
            kind::COND_BR => {
                self.note("CondBr", &word(1).to_string());
                match word(1) {
                    0 if i.p[2] == 0 => self.note("into block 0", "CondBr, c 0"),
                    c if c != 0 && i.p[1] == 0 => self.note("into block 0", "CondBr, c not 0"),
                    _ => {}
                }
            }
            kind::CASE => self.note_case(f, i.p[1] as usize, word(1)),
            _ => {}
        }
    }

    fn note_case(&mut self, f: &Procedure, table: usize, v: u64) {
        self.note("Case", &v.to_string());
        self.note("Case table", if table == 0 { "first" } else { "later" });
        let (t, v) = (&f.tables[table], v as i64);
        if let Some(arm) = t.arms.first() {
            let (sort, place) = beside(arm.0, arm.1, v);
            self.note(&format!("arm {sort}"), place);
        }
        let holding: Vec<usize> = (0..t.arms.len()).filter(|&k| (t.arms[k].0..=t.arms[k].1).contains(&v)).collect();
        match holding.first() {
            Some(&k) => self.note("Case", &format!("arm {k}")),
            None => self.note("Case", if t.arms.is_empty() { "default alone" } else { "default past arms" }),
        }
        if holding.len() > 1 && t.arms[holding[0]].2 != t.arms[holding[1]].2 {
            self.note("Case", "two arms hold it");
        }
        match holding.first() {
            Some(&k) if t.arms[k].2 == 0 => self.note("into block 0", "Case, arm"),
            None if t.default == 0 => self.note("into block 0", "Case, default"),
            _ => {}
        }
    }

    fn note_list(&mut self, f: &Procedure, i: &Record) {
        let all = places(i.kind, i.op).expect("an instruction that Read accepted");
        let Some(at) = all.iter().position(|&place| place == Place::List) else { return };
        let (start, length) = (i.p[at] as usize, i.p[at + 1] as usize);
        let name = match (i.kind, i.op) {
            (kind::MAKE_DOPE, _) => "MakeDope",
            (_, 0) => "CallNative",
            _ => "CallNative with dst",
        };
        let n = ["0", "1", "more"][length.min(2)];
        self.note(&format!("list of {name}"), n);
        let (list, last) = (&f.operands[start..start + length], f.operands.len());
        if length > 0 && start > 0 && start + length < last {
            self.note("list", "from the middle");
        }
        if length > 0 && start + length == last {
            self.note("list", "to the last operand");
        }
        if length == 0 && start == last && last > 0 {
            self.note("list", "empty, past the last operand");
        }
        if (1..length).any(|k| list[..k].contains(&list[k])) {
            self.note("list", "a register twice");
        }
    }

    fn note_registers(&mut self, w: &mut Watch, i: &Record) {
        let written: Vec<u32> = w.f.written(i).collect();
        let is_act = (kind::BIN..=kind::CALL_NATIVE).contains(&i.kind);
        for r in w.f.read(i) {
            if written.contains(&r) {
                self.note("reads what it writes", if is_act { "act" } else { "no act" });
            }
            let at = r as usize;
            if w.written[at] {
                continue;
            }
            match w.writes[at] {
                Writes::Single => w.read[at] = true,
                Writes::Again => self.note("read before a write", "constant written again"),
                Writes::Once => self.note("read before a write", "written once"),
                Writes::Other => {}
            }
        }
        if i.kind == kind::TAKE_BOUNDS {
            let alike = [(0, 1), (0, 2), (1, 2)].iter().filter(|&&(a, b)| written[a] == written[b]).count();
            self.note("TakeBounds", ["", "two alike", "", "three alike"][alike]);
        }
        written.iter().for_each(|&r| w.written[r as usize] = true);
    }

    /// The act that was just done: how many registers it writes, and how many values the outside gave.
    pub fn note_act(&mut self, w: &Watch, run: &Run<Rules>, i: &Record) {
        let (act, earlier) = run.acts.split_last().expect("an act was done");
        if let Some(values) = w.stored.rules.given(earlier, act) {
            let written = w.f.written(i).count();
            self.note(&format!("values for {written}"), &values.len().min(written + 1).to_string());
        }
    }

    /// The run is over, after so many budgets at or past its end.
    pub fn note_end(&mut self, w: &Watch, run: &Run<Rules>, at_end: usize) {
        let name = match run.end {
            None => "none",
            Some(End::Ret(None, _)) => "Ret",
            Some(End::Ret(Some(_), _)) => "Ret with value",
            Some(End::Unreachable(..)) => "Unreachable",
            Some(End::Outside) if run.acts.len() == 1 => "outside, first act",
            Some(End::Outside) => "outside, later act",
        };
        self.note("end", name);
        self.note("budget", "0");
        ["at the end", "past the end"][..at_end.min(2)].iter().for_each(|name| self.note("budget", name));
        for (&read, &written) in w.read.iter().zip(&w.written) {
            if read {
                self.note("read before a write", if written { "single constant" } else { "and never written" });
            }
        }
    }

    pub fn print(&self) {
        self.counts.iter().for_each(|(name, count)| println!("met {count} {name}"));
    }
}
