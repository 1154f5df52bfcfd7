//! A file's records by class.

use crate::record::*;

#[derive(Clone, PartialEq, Eq, Debug, Default)]
pub struct Procedure {
    /// The registers' kinds.
    pub registers: Vec<u8>,
    /// Start and end of each block.
    pub blocks: Vec<(u32, u32)>,
    pub body: Option<u32>,
    pub code: Vec<Record>,
    pub operands: Vec<u32>,
    pub tables: Vec<Table>,
}

#[derive(Clone, PartialEq, Eq, Debug, Default)]
pub struct Table {
    /// Low, high, target.
    pub arms: Vec<(i64, i64, u32)>,
    pub default: u32,
}

impl Procedure {
    /// From the bytes of a file that Read accepts.
    pub fn from_bytes(bytes: &[u8]) -> Procedure {
        let mut f = Procedure::default();
        let mut arms = Vec::new();
        for r in bytes.chunks_exact(RECORD).map(Record::from_bytes) {
            match r.class {
                REGISTER => f.registers.push(r.kind),
                BLOCK => f.blocks.push((r.p[0], r.p[1])),
                BODY => f.body = Some(r.p[0]),
                INSTRUCTION => f.code.push(r),
                OPERAND => f.operands.push(r.p[0]),
                _ if r.kind == 0 => arms.push((r.wide(2) as i64, r.wide(4) as i64, r.p[5])),
                _ => f.tables.push(Table { arms: std::mem::take(&mut arms), default: r.p[5] }),
            }
        }
        f
    }

    pub fn bytes(&self) -> Vec<u8> {
        let mut out = Vec::new();
        let mut put = |class, kind, places: &[u32]| Record::new(class, kind, 0, 0, places).write(&mut out);
        self.registers.iter().for_each(|&k| put(REGISTER, k, &[]));
        self.blocks.iter().for_each(|&(s, e)| put(BLOCK, 0, &[s, e]));
        self.body.iter().for_each(|&b| put(BODY, 0, &[b]));
        self.code.iter().for_each(|i| i.write(&mut out));
        let mut put = |class, kind, places: &[u32]| Record::new(class, kind, 0, 0, places).write(&mut out);
        self.operands.iter().for_each(|&r| put(OPERAND, 0, &[r]));
        for (t, table) in self.tables.iter().enumerate() {
            for &(low, high, to) in &table.arms {
                let ([a, b], [c, d]) = (halves(low as u64), halves(high as u64));
                put(ARM, 0, &[t as u32, a, b, c, d, to]);
            }
            put(ARM, 1, &[t as u32, 0, 0, 0, 0, table.default]);
        }
        out
    }

    pub fn block(&self, b: usize) -> &[Record] {
        let (start, end) = self.blocks[b];
        &self.code[start as usize..end as usize]
    }

    /// The registers in fields of this role, in role order.
    fn fields<'a>(&'a self, i: &'a Record, role: Place) -> impl Iterator<Item = u32> + 'a {
        let all = places(i.kind, i.op).expect("an instruction that Read accepted");
        (0..6).filter(move |&k| all[k] == role).map(|k| i.p[k])
    }

    pub fn written<'a>(&'a self, i: &'a Record) -> impl Iterator<Item = u32> + 'a {
        self.fields(i, Place::Written)
    }

    /// The registers that are read: fields in role order, then list operands.
    pub fn read<'a>(&'a self, i: &'a Record) -> impl Iterator<Item = u32> + 'a {
        let all = places(i.kind, i.op).expect("an instruction that Read accepted");
        let list = match all.iter().position(|&x| x == Place::List) {
            Some(k) => &self.operands[i.p[k] as usize..(i.p[k] + i.p[k + 1]) as usize],
            None => &[],
        };
        self.fields(i, Place::Read).chain(list.iter().copied())
    }

    /// How many register fields write each register.
    pub fn writes(&self) -> Vec<u32> {
        let mut n = vec![0; self.registers.len()];
        for i in &self.code {
            self.written(i).for_each(|r| n[r as usize] += 1);
        }
        n
    }
}
