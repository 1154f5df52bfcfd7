//! Damage to files: each function makes one edit of its own sort. All have one type.

#![allow(clippy::ptr_arg)]

use crate::file;
use crate::record::{class, is_terminator, kind, op, Raw, Record};
use crate::record::{DEFAULT, KINDS, LIMITS, RECORD_BYTES, SHAPES};
use crate::rng::Rng;

type Damage = fn(&mut Rng, &mut Vec<u8>);

/// Every sort of damage with its weight.
const DAMAGES: [(usize, Damage); 19] = [
    (5, flip_bit),
    (5, edit_byte),
    (4, edit_field),
    (6, edit_op),
    (2, edit_byte_field),
    (4, set_unused_place),
    (3, swap_records),
    (3, delete_record),
    (3, repeat_record),
    (9, change_length),
    (3, change_class),
    (3, change_kind),
    (3, random_bytes),
    (3, random_records),
    (8, fill_class),
    (12, edit_block),
    (12, edit_terminator),
    (12, edit_tables),
    (24, name_missing),
];

/// Damages a file once, at times twice or three times.
pub fn damage(rng: &mut Rng, bytes: &mut Vec<u8>) {
    let times = match rng.below(8) {
        0 => 3,
        1 | 2 => 2,
        _ => 1,
    };
    for _ in 0..times {
        any_damage(rng)(rng, bytes);
    }
}

fn any_damage(rng: &mut Rng) -> Damage {
    let whole = DAMAGES.iter().map(|(weight, _)| weight).sum();
    let mut left = rng.below(whole);
    for (weight, damage) in DAMAGES {
        if left < weight {
            return damage;
        }
        left -= weight;
    }
    unreachable!("the weights sum to the whole")
}

fn record_count(bytes: &[u8]) -> usize {
    bytes.len() / RECORD_BYTES
}

/// The first record of a class and how many there are, where classes ascend.
fn section(bytes: &[u8], class: u8) -> (usize, usize) {
    let (records, _) = bytes.as_chunks::<RECORD_BYTES>();
    let first = records.iter().filter(|raw| raw[0] < class).count();
    let count = records.iter().filter(|raw| raw[0] == class).count();
    (first.min(records.len() - count), count)
}

fn count(bytes: &[u8], class: u8) -> usize {
    section(bytes, class).1
}

fn any_record(rng: &mut Rng, bytes: &[u8]) -> Option<usize> {
    match record_count(bytes) {
        0 => None,
        records => Some(rng.below(records)),
    }
}

/// A record where the section of a class is; its first or last one at times.
fn record_of(rng: &mut Rng, bytes: &[u8], class: u8) -> Option<usize> {
    let (first, count) = section(bytes, class);
    match (count, rng.below(4)) {
        (0, _) => None,
        (_, 0) => Some(first),
        (_, 1) => Some(first + count - 1),
        _ => Some(first + rng.below(count)),
    }
}

fn record_at(bytes: &[u8], place: usize) -> Record {
    let (records, _) = bytes.as_chunks::<RECORD_BYTES>();
    Record::decode(&records[place])
}

fn edit(bytes: &mut [u8], place: usize, change: impl FnOnce(&mut Record)) {
    let (records, _) = bytes.as_chunks_mut::<RECORD_BYTES>();
    let mut record = Record::decode(&records[place]);
    change(&mut record);
    records[place] = record.encode();
}

fn insert(bytes: &mut Vec<u8>, place: usize, record: &Record) {
    let at = place * RECORD_BYTES;
    bytes.splice(at..at, record.encode());
}

fn remove(bytes: &mut Vec<u8>, place: usize) {
    let at = place * RECORD_BYTES;
    bytes.drain(at..at + RECORD_BYTES);
}

fn flip_bit(rng: &mut Rng, bytes: &mut Vec<u8>) {
    if !bytes.is_empty() {
        let at = rng.below(bytes.len());
        bytes[at] ^= 1 << rng.below(8);
    }
}

fn edit_byte(rng: &mut Rng, bytes: &mut Vec<u8>) {
    if !bytes.is_empty() {
        let at = rng.below(bytes.len());
        bytes[at] = match rng.below(4) {
            0 => rng.word() as u8,
            1 => bytes[at].wrapping_add(1),
            2 => bytes[at].wrapping_sub(1),
            _ => rng.pick(&[0, 1, 127, 128, 255]),
        };
    }
}

fn edit_field(rng: &mut Rng, bytes: &mut Vec<u8>) {
    if let Some(place) = any_record(rng, bytes) {
        let field = rng.below(6);
        let value = edge(rng, bytes);
        edit(bytes, place, |record| record.p[field] = value);
    }
}

/// A number at some edge: of a byte, of a count, of 32 bits.
fn edge(rng: &mut Rng, bytes: &[u8]) -> u32 {
    let class = rng.between(1, 6) as u8;
    let count = count(bytes, class) as u32;
    match rng.below(6) {
        0 => count.wrapping_sub(1),
        1 => count,
        2 => count + 1,
        3 => rng.pick(&[255, 256]),
        4 => rng.pick(&[0, 1]),
        _ => rng.number(),
    }
}

fn edit_op(rng: &mut Rng, bytes: &mut Vec<u8>) {
    if let Some(place) = record_of(rng, bytes, class::INSTRUCTION) {
        edit(bytes, place, |record| {
            let ops = SHAPES[(record.kind % KINDS) as usize].ops;
            record.op = rng.pick(&[0, 1, ops - 1, ops, ops + 1]);
        });
    }
}

/// Sets dim or Up's number at the edge of a byte.
fn edit_byte_field(rng: &mut Rng, bytes: &mut Vec<u8>) {
    let (records, _) = bytes.as_chunks::<RECORD_BYTES>();
    let holds_byte = |raw: &Raw| {
        raw[0] == class::INSTRUCTION && [kind::ADDR_OF, kind::DOPE_LEN].contains(&raw[1])
    };
    if let Some(place) = records.iter().position(holds_byte) {
        let value = rng.pick(&[255, 256, 257, 1 << 16]);
        edit(bytes, place, |record| match record.kind {
            kind::ADDR_OF => *record = record.with_op(op::UP).with_field(1, value),
            _ => record.p[2] = value,
        });
    }
}

fn set_unused_place(rng: &mut Rng, bytes: &mut Vec<u8>) {
    if let Some(place) = any_record(rng, bytes) {
        edit(bytes, place, |record| {
            let used = match record.class {
                class::BLOCK => 2,
                class::BODY | class::OPERAND => 1,
                class::INSTRUCTION => SHAPES[(record.kind % KINDS) as usize].fields,
                class::ARM => 1,
                _ => 0,
            };
            match rng.below(5) {
                0 => record.zero = 1,
                1 => record.op = 1,
                2 => record.statement = 1,
                _ => record.p[rng.between(used.min(5), 5)] = rng.pick(&[1, 256, 1 << 16, 1 << 31]),
            }
        });
    }
}

fn swap_records(rng: &mut Rng, bytes: &mut Vec<u8>) {
    if let Some(one) = any_record(rng, bytes) {
        let other = match rng.below(2) {
            0 => (one + 1) % record_count(bytes),
            _ => rng.below(record_count(bytes)),
        };
        let (records, _) = bytes.as_chunks_mut::<RECORD_BYTES>();
        records.swap(one, other);
    }
}

fn delete_record(rng: &mut Rng, bytes: &mut Vec<u8>) {
    let class = rng.between(1, 6) as u8;
    if let Some(place) = record_of(rng, bytes, class) {
        remove(bytes, place);
    }
}

fn repeat_record(rng: &mut Rng, bytes: &mut Vec<u8>) {
    let class = rng.between(1, 6) as u8;
    if let Some(place) = record_of(rng, bytes, class) {
        let record = record_at(bytes, place);
        insert(bytes, place, &record);
    }
}

fn change_length(rng: &mut Rng, bytes: &mut Vec<u8>) {
    let length = bytes.len();
    match rng.below(16) {
        0 => bytes.resize(rng.pick(&[65_536, 65_537, 65_568, 65_535, 70_000]), 0),
        1 => bytes.resize(length + RECORD_BYTES, 0),
        2 => bytes.truncate(rng.between(0, record_count(bytes)) * RECORD_BYTES),
        3 => bytes.clear(),
        4..=8 => bytes.resize(length + rng.between(1, 31), rng.word() as u8),
        _ => bytes.truncate(rng.between(0, length)),
    }
}

fn change_class(rng: &mut Rng, bytes: &mut Vec<u8>) {
    if let Some(place) = any_record(rng, bytes) {
        let class = rng.pick(&[0, 1, 2, 3, 4, 5, 6, 7, 255]);
        edit(bytes, place, |record| record.class = class);
    }
}

fn change_kind(rng: &mut Rng, bytes: &mut Vec<u8>) {
    if let Some(place) = any_record(rng, bytes) {
        let kind = rng.between(0, KINDS as usize) as u8;
        edit(bytes, place, |record| record.kind = kind);
    }
}

fn random_bytes(rng: &mut Rng, bytes: &mut Vec<u8>) {
    let length = match rng.below(4) {
        0 => rng.below(200),
        _ => rng.below(8) * RECORD_BYTES,
    };
    bytes.clear();
    bytes.extend((0..length).map(|_| rng.word() as u8));
}

/// Records in the order of their classes whose fields are small.
fn random_records(rng: &mut Rng, bytes: &mut Vec<u8>) {
    let mut classes: Vec<u8> = (0..rng.below(8)).map(|_| rng.between(1, 6) as u8).collect();
    classes.sort_unstable();
    bytes.clear();
    for class in classes {
        let mut record = Record { class, ..Record::default() };
        match class {
            class::REGISTER => record.kind = rng.below(5) as u8,
            class::INSTRUCTION => {
                record.kind = rng.below(KINDS as usize) as u8;
                let shape = &SHAPES[record.kind as usize];
                record.op = rng.below(shape.ops as usize) as u8;
                record.p[..shape.fields].fill_with(|| rng.below(3) as u32);
            }
            class::ARM => record.kind = rng.below(2) as u8,
            class::BLOCK => record.p[1] = rng.below(3) as u32,
            _ => record.p[0] = rng.below(2) as u32,
        }
        bytes.extend_from_slice(&record.encode());
    }
}

/// Fills a class up to its limit, one short of it, or one or two past it.
fn fill_class(rng: &mut Rng, bytes: &mut Vec<u8>) {
    let class = rng.pick(&[1, 2, 2, 3, 3, 4, 5, 5, 6, 6]);
    if class == class::BLOCK && rng.chance(1, 2) {
        return remove_class(bytes, class);
    }
    let (first, count) = section(bytes, class);
    let wanted = LIMITS[class as usize] + rng.pick(&[0, 1, 1, 2]) - rng.below(2);
    if count < wanted {
        let at = first * RECORD_BYTES;
        let added = filler(class, count == 0).encode();
        bytes.splice(at..at, added.repeat(wanted - count));
    }
}

/// A record that may stand before the others of its class any number of times.
fn filler(class: u8, alone: bool) -> Record {
    match class {
        class::REGISTER => file::register(0),
        class::BLOCK => file::block(0, 1),
        class::BODY => file::body(0),
        class::INSTRUCTION => file::inst(kind::STMT, &[]),
        class::OPERAND => file::operand(0),
        _ if alone => file::default(0, 0),
        _ => file::arm(0, 0, 0, 0),
    }
}

fn remove_class(bytes: &mut Vec<u8>, class: u8) {
    let (first, count) = section(bytes, class);
    let start = first * RECORD_BYTES;
    bytes.drain(start..start + count * RECORD_BYTES);
}

fn edit_block(rng: &mut Rng, bytes: &mut Vec<u8>) {
    let Some(place) = record_of(rng, bytes, class::BLOCK) else { return };
    let code = count(bytes, class::INSTRUCTION) as u32;
    edit(bytes, place, |record| {
        let [start, end, ..] = &mut record.p;
        match rng.below(8) {
            0 => *start = start.wrapping_add(1),
            1 => *start = start.wrapping_sub(1),
            2 => *end = end.wrapping_add(1),
            3 => *end = end.wrapping_sub(1),
            4 => *end = *start,
            5 => *end = rng.pick(&[code, code + 1, u32::MAX, 1 << 16, 0]),
            6 => (*start, *end) = (*end, *start),
            _ => *start = rng.number(),
        }
    });
    if rng.chance(1, 4) && place + 1 < record_count(bytes) {
        let end = record_at(bytes, place).p[1];
        edit(bytes, place + 1, |next| next.p[0] = end);
    }
}

fn edit_terminator(rng: &mut Rng, bytes: &mut Vec<u8>) {
    let Some(place) = record_of(rng, bytes, class::INSTRUCTION) else { return };
    let statement = record_at(bytes, place).statement;
    let record = match is_terminator(record_at(bytes, place).kind) {
        true => file::inst(kind::STMT, &[]),
        false => file::inst(rng.pick(&[kind::BR, kind::RET, kind::UNREACHABLE]), &[]),
    };
    edit(bytes, place, |old| *old = record.at(statement));
}

fn edit_tables(rng: &mut Rng, bytes: &mut Vec<u8>) {
    let Some(place) = record_of(rng, bytes, class::ARM) else {
        let place = record_count(bytes);
        let added = if rng.chance(1, 2) { file::arm(0, 1, 2, 0) } else { file::default(1, 0) };
        return insert(bytes, place, &added);
    };
    match rng.below(6) {
        0 => edit(bytes, place, |arm| arm.p[0] = arm.p[0].wrapping_add(1)),
        1 => edit(bytes, place, |arm| arm.p[0] = arm.p[0].wrapping_sub(1)),
        2 => edit(bytes, place, |arm| arm.kind = 0),
        3 => edit(bytes, place, |arm| *arm = file::default(arm.p[0], arm.p[5])),
        4 => remove(bytes, place),
        _ => edit(bytes, place, |arm| arm.p[0] = rng.number()),
    }
}

/// Makes one field name something that is just missing, or just there.
fn name_missing(rng: &mut Rng, bytes: &mut Vec<u8>) {
    let class = rng.pick(&[3, 4, 4, 4, 4, 4, 4, 5, 6]);
    let Some(place) = record_of(rng, bytes, class) else { return };
    let record = record_at(bytes, place);
    let (field, count) = match class {
        class::BODY => (0, count(bytes, class::BLOCK)),
        class::OPERAND => (0, count(bytes, class::REGISTER)),
        class::ARM => (5, count(bytes, class::BLOCK)),
        _ => match instruction_name(rng, bytes, &record) {
            Some(name) => name,
            None => return,
        },
    };
    let count = count as u32;
    let value =
        rng.pick(&[count, count, count + 1, count.wrapping_sub(1), count | 1 << 16, u32::MAX]);
    edit(bytes, place, |record| record.p[field] = value);
}

/// A field of an instruction that names something, and how many of that there are.
fn instruction_name(rng: &mut Rng, bytes: &[u8], instruction: &Record) -> Option<(usize, usize)> {
    let registers = |from: usize, to: usize| (from, to, class::REGISTER);
    let blocks = |from: usize, to: usize| (from, to, class::BLOCK);
    let list = (1, 3, class::OPERAND);
    let (from, to, named) = match (instruction.kind, rng.below(2)) {
        (kind::CONST | kind::CONST_F | kind::ADDR_OF, _) => registers(0, 1),
        (kind::MOVE | kind::LOAD | kind::STORE | kind::ALLOC | kind::DOPE_LEN, _) => {
            registers(0, 2)
        }
        (kind::CMP | kind::BOOL | kind::BIN | kind::CHECK | kind::TAKE_BOUNDS, _) => {
            registers(0, 3)
        }
        (kind::SELECT | kind::BOUNDS_LEN, _) => registers(0, 4),
        (kind::BIN_RANGE, _) => registers(0, 5),
        (kind::MAKE_DOPE, 0) => registers(0, 1),
        (kind::MAKE_DOPE, _) => list,
        (kind::CALL_NATIVE, 0) if instruction.op == op::WITH => registers(3, 4),
        (kind::CALL_NATIVE, _) => list,
        (kind::BR, _) => blocks(0, 1),
        (kind::COND_BR, 0) => registers(0, 1),
        (kind::COND_BR, _) => blocks(1, 3),
        (kind::CASE, 0) => registers(0, 1),
        (kind::CASE, _) => return Some((1, tables(bytes))),
        (kind::RET, _) if instruction.op == op::WITH => registers(0, 1),
        _ => return None,
    };
    Some((rng.between(from, to - 1), count(bytes, named)))
}

fn tables(bytes: &[u8]) -> usize {
    let (records, _) = bytes.as_chunks::<RECORD_BYTES>();
    records.iter().filter(|raw| raw[0] == class::ARM && raw[1] == DEFAULT).count()
}
