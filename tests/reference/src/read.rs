//! The Read operation of document 01: its seven conditions, in order.

use crate::record::*;

/// A refusal's number and record.
pub type Refusal = (u32, u32);

pub const MAX_BLOCKS: usize = 160;
/// Reading limits of classes 1 to 6.
pub const LIMITS: [usize; 6] = [756, MAX_BLOCKS, 1, 756, 128, 128];

/// The counts of classes 1 to 6 in an accepted file.
pub fn read(bytes: &[u8]) -> Result<[usize; 6], Refusal> {
    if !bytes.len().is_multiple_of(RECORD) || bytes.len() > MAX_FILE {
        return Err((1, 0));
    }
    let records: Vec<Record> = bytes.chunks_exact(RECORD).map(Record::from_bytes).collect();
    refuse(2, first_wrong_record(&records))?;
    let count = [1, 2, 3, 4, 5, 6].map(|c| records.iter().filter(|r| r.class == c).count());
    if count.iter().zip(LIMITS).any(|(&n, limit)| n > limit) || count[1] == 0 {
        return Err((3, 0));
    }
    let (blocks, code, arms) = (of_class(&records, BLOCK), of_class(&records, INSTRUCTION), of_class(&records, ARM));
    let class_start = |class: u8| count[..class as usize - 1].iter().sum::<usize>();
    refuse(4, first_untiled(blocks, code.len()).map(|b| class_start(BLOCK) + b))?;
    refuse(5, first_misended(blocks, code).map(|b| class_start(BLOCK) + b))?;
    refuse(6, first_misnumbered(arms).map(|a| class_start(ARM) + a))?;
    refuse(7, first_unknown(&records, &count))?;
    Ok(count)
}

fn refuse(number: u32, record: Option<usize>) -> Result<(), Refusal> {
    record.map_or(Ok(()), |r| Err((number, r as u32)))
}

/// The records of one class; classes ascend.
fn of_class(records: &[Record], class: u8) -> &[Record] {
    let start = records.partition_point(|r| r.class < class);
    &records[start..records.partition_point(|r| r.class <= class)]
}

/// 2: a record wrong in itself or in its class order.
fn first_wrong_record(records: &[Record]) -> Option<usize> {
    let falls = |k: usize| k > 0 && records[k].class < records[k - 1].class;
    (0..records.len()).find(|&k| wrong(&records[k]) || falls(k))
}

fn wrong(r: &Record) -> bool {
    let zeros = |from: usize| r.p[from..].iter().all(|&w| w == 0);
    let plain = r.op == 0 && r.statement == 0;
    let right = r.zero == 0
        && match r.class {
            REGISTER => plain && r.kind <= 4 && zeros(0),
            BLOCK => plain && r.kind == 0 && zeros(2),
            BODY | OPERAND => plain && r.kind == 0 && zeros(1),
            INSTRUCTION => right_instruction(r),
            ARM => plain && (r.kind == 0 || r.kind == 1 && r.p[1..5] == [0; 4]),
            _ => false,
        };
    !right
}

fn right_instruction(r: &Record) -> bool {
    places(r.kind, r.op).is_some_and(|all| {
        all.iter().zip(r.p).all(|(place, w)| match place {
            Place::Unused => w == 0,
            Place::Byte => w <= 255,
            _ => true,
        })
    })
}

/// 4: the first block that doesn't start where the one before ends, is empty or ends past the
/// code; the last one where code is left over.
fn first_untiled(blocks: &[Record], code: usize) -> Option<usize> {
    let mut due = 0;
    for (b, r) in blocks.iter().enumerate() {
        let [start, end] = [r.p[0], r.p[1]];
        if start != due || end <= start || end as usize > code {
            return Some(b);
        }
        due = end;
    }
    ((due as usize) < code).then(|| blocks.len() - 1)
}

/// 5: the first block without its terminator at the end, or with one before.
fn first_misended(blocks: &[Record], code: &[Record]) -> Option<usize> {
    blocks.iter().position(|r| {
        let (last, before) = code[r.p[0] as usize..r.p[1] as usize].split_last().expect("no block is empty");
        !last.is_terminator() || before.iter().any(Record::is_terminator)
    })
}

/// 6: the first arm of another table than the one due; the last where its default is missing.
fn first_misnumbered(arms: &[Record]) -> Option<usize> {
    let mut due = 0;
    for (a, r) in arms.iter().enumerate() {
        if r.p[0] != due {
            return Some(a);
        }
        due += u32::from(r.kind);
    }
    arms.last().filter(|r| r.kind == 0).map(|_| arms.len() - 1)
}

/// 7: the first record that names a register, block, table or list that doesn't exist.
fn first_unknown(records: &[Record], count: &[usize; 6]) -> Option<usize> {
    let tables = records.iter().filter(|r| r.class == ARM && r.kind == 1).count();
    let exists = |w: u32, n: usize| (w as usize) < n;
    let known_places = |r: &Record| {
        let all = places(r.kind, r.op).expect("a right instruction");
        (0..6).all(|k| match all[k] {
            Place::Written | Place::Read | Place::Unread => exists(r.p[k], count[0]),
            Place::Block => exists(r.p[k], count[1]),
            Place::Table => exists(r.p[k], tables),
            Place::List => r.p[k] as usize + r.p[k + 1] as usize <= count[4],
            Place::Unused | Place::Plain | Place::Byte | Place::Length => true,
        })
    };
    records.iter().position(|r| !match r.class {
        BODY => exists(r.p[0], count[1]),
        INSTRUCTION => known_places(r),
        OPERAND => exists(r.p[0], count[0]),
        ARM => exists(r.p[5], count[1]),
        _ => true,
    })
}
