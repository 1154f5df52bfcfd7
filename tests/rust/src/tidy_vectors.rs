//! The vectors of Tidy: every clause on both sides, each with the answer that its making
//! calls for.

use crate::file::{arm, default, inst, Procedure};
use crate::record::{kind, op, Record};

/// A named file and the answer that is due: number, record, tidy and register.
pub struct TidyVector {
    pub name: String,
    pub bytes: Vec<u8>,
    pub due: (u32, u32, u32, u32),
}

/// The register that vectors speak of; 0 and 1 are never written, 3 is written twice.
const R: u32 = 2;
const TWICE: u32 = 3;
const REGISTERS: usize = 8;

/// Every register field that is read: a name, and the instruction with R there.
fn reading_instructions() -> Vec<(String, Record)> {
    let mut list = Vec::new();
    let mut put = |name: &str, kind: u8, op: u8, fields: &[u32], reads: &[usize]| {
        for &field in reads {
            let record = inst(kind, fields).with_op(op).with_field(field, R);
            list.push((format!("{name}-p{}", field + 1), record));
        }
    };
    put("Move", kind::MOVE, 0, &[TWICE, 0], &[1]);
    put("Select", kind::SELECT, 0, &[TWICE, 0, 0, 0], &[1, 2, 3]);
    put("Cmp", kind::CMP, 2, &[TWICE, 0, 0], &[1, 2]);
    put("Bool-And", kind::BOOL, 0, &[TWICE, 0, 0], &[1, 2]);
    put("Bool-Or", kind::BOOL, 1, &[TWICE, 0, 0], &[1, 2]);
    put("Bool-Xor", kind::BOOL, 2, &[TWICE, 0, 0], &[1, 2]);
    put("Bool-Not", kind::BOOL, op::NOT, &[TWICE, 0, 0], &[1]);
    put("Bin", kind::BIN, 1, &[TWICE, 0, 0], &[1, 2]);
    put("BinRange", kind::BIN_RANGE, 0, &[TWICE, 0, 0, 0, 0, 2], &[1, 2, 3, 4]);
    put("Load", kind::LOAD, 1, &[TWICE, 0], &[1]);
    put("Store", kind::STORE, 1, &[0, 0], &[0, 1]);
    put("Check-Range", kind::CHECK, op::RANGE, &[0, 0, 0, 2], &[0, 1, 2]);
    put("Check-Index", kind::CHECK, op::INDEX, &[0, 0, 0, 2], &[0, 1, 2]);
    put("Check-IndexDown", kind::CHECK, op::INDEX_DOWN, &[0, 0, 0, 2], &[0, 1, 2]);
    put("Check-Length", kind::CHECK, op::LENGTH, &[0, 0, 0, 2], &[0, 1]);
    put("Check-Null", kind::CHECK, op::NULL, &[0, 0, 0, 2], &[0]);
    put("MakeDope", kind::MAKE_DOPE, 0, &[0, 0, 0], &[0]);
    put("DopeLen", kind::DOPE_LEN, 0, &[TWICE, 0, 2], &[1]);
    put("BoundsLen", kind::BOUNDS_LEN, 0, &[TWICE, 0, 0, 0], &[1, 2, 3]);
    put("Alloc", kind::ALLOC, 0, &[TWICE, 0], &[1]);
    // The operands are 0, R and 1.
    list.push(("MakeDope-list".into(), inst(kind::MAKE_DOPE, &[0, 1, 1])));
    list.push(("MakeDope-list-all".into(), inst(kind::MAKE_DOPE, &[0, 0, 3])));
    list.push(("CallNative-0-list".into(), inst(kind::CALL_NATIVE, &[2, 0, 2])));
    let with_dst = inst(kind::CALL_NATIVE, &[2, 1, 2, TWICE]).with_op(op::WITH);
    list.push(("CallNative-1-list".into(), with_dst));
    list
}

/// Places that hold the number of R without reading it.
fn idle_instructions() -> Vec<(&'static str, Record)> {
    vec![
        ("Bool-Not-p3", inst(kind::BOOL, &[TWICE, 0, R]).with_op(op::NOT)),
        ("Check-Null-p2", inst(kind::CHECK, &[0, R, 0, 0]).with_op(op::NULL)),
        ("Check-Null-p3", inst(kind::CHECK, &[0, 0, R, 0]).with_op(op::NULL)),
        ("Check-Length-p3", inst(kind::CHECK, &[0, 0, R, 0]).with_op(op::LENGTH)),
        ("Check-what", inst(kind::CHECK, &[0, 0, 0, R]).with_op(op::RANGE)),
        ("BinRange-what", inst(kind::BIN_RANGE, &[TWICE, 0, 0, 0, 0, R])),
        ("DopeLen-dim", inst(kind::DOPE_LEN, &[TWICE, 0, R])),
        ("Const-v", inst(kind::CONST, &[TWICE, R, R])),
        ("ConstF-v", inst(kind::CONST_F, &[TWICE, R, R])),
        ("AddrOf-number", inst(kind::ADDR_OF, &[TWICE, R, R]).with_op(op::PKG)),
        ("CallNative-native", inst(kind::CALL_NATIVE, &[R, 0, 0])),
        ("CallNative-list-before", inst(kind::CALL_NATIVE, &[0, 0, 1])),
        ("CallNative-list-after", inst(kind::CALL_NATIVE, &[0, 2, 1])),
        ("CallNative-list-empty", inst(kind::CALL_NATIVE, &[0, 1, 0])),
        ("MakeDope-list-before", inst(kind::MAKE_DOPE, &[0, 0, 1])),
        ("MakeDope-list-after", inst(kind::MAKE_DOPE, &[0, 2, 1])),
        ("Stmt", inst(kind::STMT, &[]).at(R)),
    ]
}

/// Every instruction that is no constant, with R as the one register that it writes.
fn writing_instructions() -> Vec<(&'static str, Record)> {
    vec![
        ("Move", inst(kind::MOVE, &[R, 0])),
        ("Select", inst(kind::SELECT, &[R, 0, 0, 0])),
        ("Cmp", inst(kind::CMP, &[R, 0, 0])),
        ("Bool", inst(kind::BOOL, &[R, 0, 0])),
        ("Bin", inst(kind::BIN, &[R, 0, 0])),
        ("BinRange", inst(kind::BIN_RANGE, &[R, 0, 0, 0, 0, 0])),
        ("Load", inst(kind::LOAD, &[R, 0])),
        ("DopeLen", inst(kind::DOPE_LEN, &[R, 0, 0])),
        ("BoundsLen", inst(kind::BOUNDS_LEN, &[R, 0, 0, 0])),
        ("Alloc", inst(kind::ALLOC, &[R, 0])),
        ("TakeBounds-left", inst(kind::TAKE_BOUNDS, &[R, TWICE, TWICE])),
        ("TakeBounds-right", inst(kind::TAKE_BOUNDS, &[TWICE, R, TWICE])),
        ("TakeBounds-dir", inst(kind::TAKE_BOUNDS, &[TWICE, TWICE, R])),
        ("CallNative", inst(kind::CALL_NATIVE, &[0, 0, 0, R]).with_op(op::WITH)),
    ]
}

/// The terminators that read R.
fn reading_terminators() -> Vec<(&'static str, Record)> {
    vec![
        ("CondBr", inst(kind::COND_BR, &[R, 2, 2])),
        ("Case", inst(kind::CASE, &[R, 0])),
        ("Ret", inst(kind::RET, &[R]).with_op(op::WITH)),
    ]
}

fn ret() -> Record {
    inst(kind::RET, &[])
}

fn br(to: u32) -> Record {
    inst(kind::BR, &[to])
}

fn cond_br(t: u32, f: u32) -> Record {
    inst(kind::COND_BR, &[0, t, f])
}

fn case() -> Record {
    inst(kind::CASE, &[0, 0])
}

fn write_other() -> Record {
    inst(kind::LOAD, &[R, 0])
}

fn write_address() -> Record {
    inst(kind::ADDR_OF, &[R, 0, 8])
}

fn write_constant() -> Record {
    inst(kind::CONST, &[R, 8, 0])
}

fn read() -> Record {
    inst(kind::MOVE, &[TWICE, R])
}

/// Those blocks, and one more after them that writes a register twice.
fn procedure(blocks: Vec<Vec<Record>>) -> Procedure {
    let mut blocks = blocks;
    blocks.push(vec![inst(kind::CONST, &[TWICE]), inst(kind::CONST, &[TWICE]), ret()]);
    Procedure {
        registers: vec![0; REGISTERS],
        blocks,
        body: None,
        operands: vec![0, R, 1],
        arms: vec![arm(0, 0, 9, 0), arm(0, 10, 19, 1), default(0, 1)],
    }
}

/// All vectors of Tidy.
pub fn tidy_vectors() -> Vec<TidyVector> {
    let mut list = List(Vec::new());
    list.refusals();
    list.reads();
    list.writes();
    list.itself();
    list.constants();
    list.not_single();
    list.addresses();
    list.leads();
    list.long_leads();
    list.lowest();
    list.limits();
    list.0
}

struct List(Vec<TidyVector>);

impl List {
    fn put(&mut self, name: impl Into<String>, bytes: Vec<u8>, due: (u32, u32, u32, u32)) {
        self.0.push(TidyVector { name: name.into(), bytes, due });
    }

    fn tidy(&mut self, name: impl Into<String>, blocks: Vec<Vec<Record>>) {
        self.put(name, procedure(blocks).bytes(), (0, 0, 1, 0));
    }

    fn untidy(&mut self, name: impl Into<String>, blocks: Vec<Vec<Record>>) {
        self.put(name, procedure(blocks).bytes(), (0, 0, 0, R));
    }

    fn refusals(&mut self) {
        let sound = procedure(vec![vec![write_other(), ret()], vec![read(), ret()]]);
        let bytes = sound.bytes();
        let edited = |at: usize, value: u8| {
            let mut bytes = bytes.clone();
            bytes[at] = value;
            bytes
        };
        // 8 registers, 3 blocks, 7 instructions, 3 operands, 3 arms.
        self.put("refused/1", bytes[1..].to_vec(), (1, 0, 0, 0));
        self.put("refused/1-long", vec![0; 65_568], (1, 0, 0, 0));
        self.put("refused/2", edited(32 * 4, 9), (2, 4, 0, 0));
        self.put("refused/3-empty", vec![], (3, 0, 0, 0));
        self.put("refused/3", bytes[..32 * 8].to_vec(), (3, 0, 0, 0));
        self.put("refused/4", edited(32 * 9 + 12, 5), (4, 10, 0, 0));
        self.put("refused/5", edited(32 * 12 + 1, kind::STMT), (5, 8, 0, 0));
        self.put("refused/6", edited(32 * 21 + 8, 1), (6, 21, 0, 0));
        self.put("refused/7", edited(32 * 18 + 8, 8), (7, 18, 0, 0));
        self.put("untidy/as-made", bytes, (0, 0, 0, R));
    }

    /// Each field that is read, and each that is not.
    fn reads(&mut self) {
        for (name, record) in reading_instructions() {
            let other = vec![vec![write_other(), ret()], vec![record, ret()]];
            self.untidy(format!("other-block/{name}"), other);
            let earlier = vec![vec![record, write_other(), ret()], vec![ret()]];
            self.untidy(format!("earlier/{name}"), earlier);
            let later = vec![vec![write_other(), record, ret()], vec![ret()]];
            self.tidy(format!("later/{name}"), later);
        }
        for (name, record) in idle_instructions() {
            let all = vec![vec![record, write_other(), ret()], vec![record, ret()]];
            self.tidy(format!("not-read/{name}"), all);
        }
        for (name, record) in reading_terminators() {
            let other = vec![vec![write_other(), ret()], vec![record]];
            self.untidy(format!("other-block/{name}"), other);
            self.tidy(format!("later/{name}"), vec![vec![write_other(), record], vec![ret()]]);
        }
        let stmt = inst(kind::STMT, &[]);
        let far = vec![vec![stmt, write_other(), stmt, stmt, read(), stmt, ret()], vec![ret()]];
        self.tidy("later/far", far);
        let loops = vec![vec![write_other(), read(), br(0)], vec![ret()]];
        self.tidy("later/in-a-loop", loops);
        let never = vec![vec![write_other(), br(1)], vec![br(0)]];
        self.tidy("later/never-read", never);
        let both = vec![vec![write_other(), read(), br(1)], vec![read(), ret()]];
        self.untidy("other-block/and-later", both);
        let body = Procedure { body: Some(1), ..procedure(vec![vec![ret()], vec![ret()]]) };
        self.put("later/body", body.bytes(), (0, 0, 1, 0));
    }

    /// Each instruction that may write.
    fn writes(&mut self) {
        for (name, write) in writing_instructions() {
            let later = vec![vec![write, read(), ret()], vec![ret()]];
            self.tidy(format!("write/{name}-later"), later);
            let other = vec![vec![write, ret()], vec![read(), ret()]];
            self.untidy(format!("write/{name}-other"), other);
            let earlier = vec![vec![ret()], vec![read(), write, ret()]];
            self.untidy(format!("write/{name}-earlier"), earlier);
        }
        let bare = inst(kind::CALL_NATIVE, &[R, 0, 0]);
        self.tidy(
            "write/CallNative-0-writes-nothing",
            vec![vec![bare, ret()], vec![read(), ret()]],
        );
        let store = inst(kind::STORE, &[R, R]);
        self.tidy("write/Store-writes-nothing", vec![vec![store, ret()], vec![read(), ret()]]);
    }

    fn itself(&mut self) {
        for (name, record) in reading_instructions() {
            let dst = match record.kind {
                kind::CALL_NATIVE => 3,
                _ => 0,
            };
            let writes = match record.kind {
                kind::STORE | kind::CHECK | kind::MAKE_DOPE => false,
                kind::CALL_NATIVE => record.op == op::WITH,
                _ => true,
            };
            if writes {
                let record = record.with_field(dst, R);
                self.untidy(format!("itself/{name}"), vec![vec![record, ret()], vec![ret()]]);
            }
        }
        let not = inst(kind::BOOL, &[R, 0, R]).with_op(op::NOT);
        self.tidy("itself/Bool-Not-p3", vec![vec![not, ret()], vec![ret()]]);
    }

    fn constants(&mut self) {
        for (name, write) in
            [("Const", write_constant()), ("ConstF", inst(kind::CONST_F, &[R, 8, 0]))]
        {
            let all = vec![vec![read(), write, read(), br(1)], vec![read(), br(0)]];
            self.tidy(format!("constant/{name}"), all);
        }
    }

    fn not_single(&mut self) {
        self.tidy("not-single/unwritten", vec![vec![read(), br(1)], vec![read(), br(0)]]);
        for (name, first, second) in [
            ("other-twice", write_other(), write_other()),
            ("other-and-constant", write_other(), write_constant()),
            ("address-and-constant", write_address(), write_constant()),
            ("address-twice", write_address(), write_address()),
            ("address-and-other", write_address(), write_other()),
        ] {
            let here = vec![vec![read(), first, second, br(1)], vec![read(), br(0)]];
            self.tidy(format!("not-single/{name}"), here);
            let apart = vec![vec![read(), first, br(1)], vec![read(), second, br(0)]];
            self.tidy(format!("not-single/{name}-apart"), apart);
        }
        for (name, fields) in [
            ("left-right", [R, R, TWICE]),
            ("left-dir", [R, TWICE, R]),
            ("right-dir", [TWICE, R, R]),
            ("all", [R, R, R]),
        ] {
            let bounds = inst(kind::TAKE_BOUNDS, &fields);
            let all = vec![vec![read(), bounds, br(1)], vec![read(), br(0)]];
            self.tidy(format!("not-single/TakeBounds-{name}"), all);
        }
    }

    /// The clauses of AddrOf over one step.
    fn addresses(&mut self) {
        for (name, space) in
            [("Frame", 0), ("Up", 1), ("Inst", 2), ("Pkg", 3), ("Const", 4), ("Shared", 5)]
        {
            let write = write_address().with_op(space);
            let earlier = vec![vec![read(), write, ret()], vec![ret()]];
            self.untidy(format!("address/{name}-earlier"), earlier);
            let later = vec![vec![write, read(), br(0)], vec![ret()]];
            self.tidy(format!("address/{name}-later"), later);
            let near = vec![vec![write, ret()], vec![read(), br(0)]];
            self.untidy(format!("address/{name}-near"), near);
            let apart = vec![vec![write, br(1)], vec![read(), ret()]];
            self.tidy(format!("address/{name}-apart"), apart);
        }
        for (name, record) in reading_instructions() {
            let near = vec![vec![write_address(), ret()], vec![record, br(0)]];
            self.untidy(format!("address/near-{name}"), near);
            let apart = vec![vec![write_address(), br(1)], vec![record, ret()]];
            self.tidy(format!("address/apart-{name}"), apart);
        }
        for (name, record) in idle_instructions() {
            let near = vec![vec![record, write_address(), ret()], vec![record, br(0)]];
            self.tidy(format!("address/not-read-{name}"), near);
        }
        let by_terminator = |t: u32, f: u32| inst(kind::COND_BR, &[R, t, f]);
        for (name, last, tidy) in [
            ("CondBr-t", by_terminator(0, 2), false),
            ("CondBr-f", by_terminator(2, 0), false),
            ("CondBr-neither", by_terminator(2, 1), true),
            ("Case", inst(kind::CASE, &[R, 0]), true),
            ("Ret", inst(kind::RET, &[R]).with_op(op::WITH), true),
        ] {
            let blocks = vec![vec![write_address(), ret()], vec![last]];
            match tidy {
                true => self.tidy(format!("address/by-{name}"), blocks),
                false => self.untidy(format!("address/by-{name}"), blocks),
            }
        }
    }

    /// A read of an address in block 1, with ways between the blocks.
    fn leads(&mut self) {
        for (name, ends, tidy) in [
            ("br", vec![ret(), br(0)], false),
            ("cond-br-t", vec![ret(), cond_br(0, 1)], false),
            ("cond-br-f", vec![ret(), cond_br(1, 0)], false),
            ("case", vec![ret(), case()], true),
            ("ret", vec![br(1), ret()], true),
            ("unreachable", vec![br(1), inst(kind::UNREACHABLE, &[0])], true),
            ("itself-only", vec![br(1), br(1)], true),
            ("both-ways", vec![br(1), br(0)], false),
            ("over-2", vec![ret(), br(2), br(0)], false),
            ("over-2-t", vec![ret(), cond_br(2, 1), cond_br(0, 2)], false),
            ("over-2-f", vec![ret(), cond_br(1, 2), cond_br(2, 0)], false),
            ("over-2-case", vec![ret(), br(2), case()], true),
            ("case-then-br", vec![ret(), case(), br(0)], true),
            ("over-2-ret", vec![ret(), br(2), ret()], true),
            ("over-2-3", vec![ret(), br(2), br(3), br(0)], false),
            ("over-3-2", vec![ret(), br(3), br(0), br(2)], false),
            ("over-2-3-case-between", vec![ret(), br(2), case(), br(0)], true),
            ("loop-aside", vec![ret(), br(2), br(3), br(2)], true),
            ("loop-with-way-out", vec![ret(), br(2), br(3), cond_br(2, 0)], false),
            ("two-ways-one-case", vec![ret(), cond_br(2, 3), case(), br(0)], false),
            ("two-ways-both-case", vec![ret(), cond_br(2, 3), case(), case()], true),
            ("from-other-blocks", vec![ret(), ret(), br(0), br(1)], true),
            ("to-others", vec![cond_br(2, 3), ret(), br(1), br(1)], true),
        ] {
            let mut blocks: Vec<Vec<Record>> = ends.into_iter().map(|last| vec![last]).collect();
            blocks[0].insert(0, write_address());
            blocks[1].insert(0, read());
            match tidy {
                true => self.tidy(format!("lead/{name}"), blocks),
                false => self.untidy(format!("lead/{name}"), blocks),
            }
        }
    }

    /// Chains of up to 159 targets, whole and broken, in both orders of the blocks.
    fn long_leads(&mut self) {
        // The last block is the one that `procedure` adds.
        for length in [4, 5, 6, 7, 8, 9, 16, 32, 33, 63, 64, 65, 127, 128, 129, 158] {
            for rising in [false, true] {
                let order = if rising { "rising" } else { "falling" };
                let whole = chain(length, rising);
                self.untidy(format!("chain/{length}-{order}"), whole.clone());
                for (name, broken) in [("first", 0), ("middle", length / 2), ("last", length - 1)] {
                    let mut blocks = whole.clone();
                    let block = if rising { broken } else { length - broken };
                    *blocks[block].last_mut().expect("no block is empty") = case();
                    self.tidy(format!("chain/{length}-{order}-broken-{name}"), blocks);
                }
            }
        }
    }

    /// Several registers that offend: the lowest is given, wherever it is read.
    fn lowest(&mut self) {
        let load = |register: u32| inst(kind::LOAD, &[register, 0]);
        let read = |register: u32| inst(kind::MOVE, &[TWICE, register]);
        for (name, order) in [("rising", [4, 5, 6]), ("falling", [6, 5, 4]), ("mixed", [5, 4, 6])] {
            let writes = vec![load(4), load(5), load(6), ret()];
            let reads = order.map(read).into_iter().chain([ret()]).collect();
            let bytes = procedure(vec![writes, reads]).bytes();
            self.put(format!("lowest/{name}"), bytes, (0, 0, 0, 4));
        }
        let first = inst(kind::SELECT, &[TWICE, 7, 6, 5]);
        let bytes =
            procedure(vec![vec![load(5), load(6), load(7), ret()], vec![first, ret()]]).bytes();
        self.put("lowest/one-instruction", bytes, (0, 0, 0, 5));
        let address = inst(kind::ADDR_OF, &[4, 0, 0]);
        let bytes = procedure(vec![
            vec![read(5), load(5), ret()],
            vec![read(4), br(2)],
            vec![address, ret()],
        ]);
        self.put("lowest/address-later", bytes.bytes(), (0, 0, 0, 4));
        let mut ends = procedure(vec![vec![load(0), ret()], vec![read(0), read(7), ret()]]);
        self.put("lowest/register-0", ends.bytes(), (0, 0, 0, 0));
        ends.blocks = vec![
            vec![inst(kind::LOAD, &[7, 0]), ret()],
            vec![read(7), ret()],
            vec![inst(kind::CONST, &[TWICE]), inst(kind::CONST, &[TWICE]), ret()],
        ];
        self.put("lowest/last-register", ends.bytes(), (0, 0, 0, 7));
    }

    /// Files past the limits of shortening, which play no part.
    fn limits(&mut self) {
        for count in [480, 481, 756] {
            let last = count - 1;
            let write = inst(kind::LOAD, &[last, 0]);
            let read = inst(kind::MOVE, &[TWICE, last]);
            // Block 0 has all but the one instruction of block 1 and the three added.
            let mut first = vec![write];
            first.resize(count as usize - 6, inst(kind::STMT, &[]));
            let registers = vec![0; count as usize];
            let mut put = |name: &str, first: Vec<Record>, due| {
                let blocks = vec![first, vec![ret()]];
                let file = Procedure { registers: registers.clone(), ..procedure(blocks) };
                self.put(format!("limits/{count}-{name}"), file.bytes(), due);
            };
            put("tidy", [&first[..], &[read, ret()]].concat(), (0, 0, 1, 0));
            put("untidy", [&[read], &first[..], &[ret()]].concat(), (0, 0, 0, last));
        }
    }
}

/// Blocks of which each leads to the next; the first of the chain reads R, the last writes it.
fn chain(length: usize, rising: bool) -> Vec<Vec<Record>> {
    let blocks = length + 1;
    let mut list: Vec<Vec<Record>> = (0..blocks)
        .map(|block| {
            let next = if rising { block + 1 } else { block.wrapping_sub(1) };
            vec![if next < blocks { br(next as u32) } else { ret() }]
        })
        .collect();
    let (first, last) = if rising { (0, length) } else { (length, 0) };
    list[first].insert(0, read());
    list[last].insert(0, write_address());
    list
}
