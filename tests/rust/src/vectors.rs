//! The vectors of Read: files at every edge, each with the answer that its making calls for.

use crate::file::{self, arm, block, body, default, inst, operand, register};
use crate::record::{class, is_terminator, kind, op, Record, KINDS, LIMITS};
use Field::{Block, Byte, Length, Number, Register, Start, Table, Unused};

/// A named file and the answer that is due: number and record.
pub struct Vector {
    pub name: String,
    pub bytes: Vec<u8>,
    pub due: (u32, u32),
}

/// What a field of an instruction holds.
#[derive(Clone, Copy, Debug, PartialEq)]
enum Field {
    Register,
    Number,
    Byte,
    Block,
    Table,
    Start,
    Length,
    Unused,
}

/// A name for each kind, and its last op.
const NAMES: [(&str, u8); KINDS as usize] = [
    ("Const", 0),
    ("ConstF", 0),
    ("Move", 0),
    ("AddrOf", 5),
    ("Select", 0),
    ("Cmp", 5),
    ("Bool", 3),
    ("Bin", 6),
    ("BinRange", 6),
    ("Load", 3),
    ("Store", 3),
    ("Check", 4),
    ("MakeDope", 0),
    ("DopeLen", 0),
    ("BoundsLen", 0),
    ("Alloc", 0),
    ("TakeBounds", 0),
    ("CallNative", 1),
    ("Br", 0),
    ("CondBr", 0),
    ("Case", 0),
    ("Ret", 1),
    ("Unreachable", 0),
    ("Stmt", 0),
];

fn name(kind: u8) -> &'static str {
    NAMES[kind as usize].0
}

fn last_op(kind: u8) -> u8 {
    NAMES[kind as usize].1
}

/// What p1 to p6 of an instruction hold.
fn layout(kind: u8, op: u8) -> [Field; 6] {
    let used: &[Field] = match (kind, op) {
        (kind::CONST | kind::CONST_F, _) => &[Register, Number, Number],
        (kind::MOVE, _) => &[Register, Register],
        (kind::ADDR_OF, op::UP) => &[Register, Byte, Number],
        (kind::ADDR_OF, op::PKG | op::CONST) => &[Register, Number, Number],
        (kind::ADDR_OF, _) => &[Register, Unused, Number],
        (kind::SELECT, _) => &[Register, Register, Register, Register],
        (kind::CMP | kind::BOOL | kind::BIN, _) => &[Register, Register, Register],
        (kind::BIN_RANGE, _) => &[Register, Register, Register, Register, Register, Number],
        (kind::LOAD | kind::STORE, _) => &[Register, Register],
        (kind::CHECK, _) => &[Register, Register, Register, Number],
        (kind::MAKE_DOPE, _) => &[Register, Start, Length],
        (kind::DOPE_LEN, _) => &[Register, Register, Byte],
        (kind::BOUNDS_LEN, _) => &[Register, Register, Register, Register],
        (kind::ALLOC, _) => &[Register, Register],
        (kind::TAKE_BOUNDS, _) => &[Register, Register, Register],
        (kind::CALL_NATIVE, op::WITH) => &[Number, Start, Length, Register],
        (kind::CALL_NATIVE, _) => &[Number, Start, Length],
        (kind::BR, _) => &[Block],
        (kind::COND_BR, _) => &[Register, Block, Block],
        (kind::CASE, _) => &[Register, Table],
        (kind::RET, op::WITH) => &[Register],
        (kind::UNREACHABLE, _) => &[Number],
        _ => &[],
    };
    let mut fields = [Unused; 6];
    fields[..used.len()].copy_from_slice(used);
    fields
}

/// The records of a file by class.
#[derive(Clone, Default)]
struct Parts {
    registers: Vec<Record>,
    blocks: Vec<Record>,
    bodies: Vec<Record>,
    code: Vec<Record>,
    operands: Vec<Record>,
    arms: Vec<Record>,
}

impl Parts {
    fn sections(&self) -> [&Vec<Record>; 6] {
        [&self.registers, &self.blocks, &self.bodies, &self.code, &self.operands, &self.arms]
    }

    fn section_mut(&mut self, class: u8) -> &mut Vec<Record> {
        match class {
            class::REGISTER => &mut self.registers,
            class::BLOCK => &mut self.blocks,
            class::BODY => &mut self.bodies,
            class::INSTRUCTION => &mut self.code,
            class::OPERAND => &mut self.operands,
            _ => &mut self.arms,
        }
    }

    fn records(&self) -> Vec<Record> {
        self.sections().into_iter().flatten().copied().collect()
    }

    fn bytes(&self) -> Vec<u8> {
        file::bytes(&self.records())
    }

    /// The place in the file of a record of a class.
    fn place(&self, class: u8, index: usize) -> u32 {
        let before = &self.sections()[..class as usize - 1];
        (before.iter().map(|section| section.len()).sum::<usize>() + index) as u32
    }
}

const REGISTERS: u32 = 3;
const BLOCKS: u32 = 3;
const OPERANDS: u32 = 3;
const TABLES: u32 = 2;

/// An accepted file with records of every class.
fn base() -> Parts {
    Parts {
        registers: vec![register(0), register(1), register(2)],
        blocks: vec![block(0, 2), block(2, 4), block(4, 5)],
        bodies: vec![body(1)],
        code: vec![
            inst(kind::STMT, &[]).at(10),
            inst(kind::BR, &[1]).at(11),
            inst(kind::STMT, &[]).at(12),
            inst(kind::COND_BR, &[0, 1, 2]).at(13),
            inst(kind::RET, &[]).at(14),
        ],
        operands: vec![operand(0), operand(1), operand(2)],
        arms: vec![arm(0, -1, 5, 1), default(0, 2), default(1, 0)],
    }
}

/// An instruction that names the last of all that it names.
fn sound(kind: u8, op: u8) -> Record {
    let mut record = inst(kind, &[]).with_op(op).at(7);
    for (value, field) in record.p.iter_mut().zip(layout(kind, op)) {
        *value = match field {
            Register => REGISTERS - 1,
            Block => BLOCKS - 1,
            Table => TABLES - 1,
            Start => 1,
            Length => OPERANDS - 1,
            Byte => 255,
            Number => 9,
            Unused => 0,
        };
    }
    record
}

/// The base with that instruction in its first block, and the record it has there.
fn with_instruction(record: Record) -> (Parts, u32) {
    let mut parts = base();
    let at = usize::from(is_terminator(record.kind));
    parts.code[at] = record;
    let place = parts.place(class::INSTRUCTION, at);
    (parts, place)
}

/// All vectors of Read.
pub fn read_vectors() -> Vec<Vector> {
    let mut list = List(Vec::new());
    list.lengths();
    list.other_classes();
    list.kinds_and_ops();
    list.instruction_fields();
    list.class_order();
    list.limits();
    list.tiling();
    list.terminators();
    list.tables();
    list.existence();
    list.lists();
    list.order_of_refusals();
    list.0
}

struct List(Vec<Vector>);

impl List {
    fn put(&mut self, name: impl Into<String>, bytes: Vec<u8>, number: u32, record: u32) {
        self.0.push(Vector { name: name.into(), bytes, due: (number, record) });
    }

    fn accepted(&mut self, name: impl Into<String>, parts: &Parts) {
        self.put(name, parts.bytes(), 0, 0);
    }

    fn refused(&mut self, name: impl Into<String>, parts: &Parts, number: u32, record: u32) {
        self.put(name, parts.bytes(), number, record);
    }

    fn instruction(&mut self, name: impl Into<String>, record: Record, number: u32) {
        let (parts, place) = with_instruction(record);
        self.put(name, parts.bytes(), number, if number == 0 { 0 } else { place });
    }

    fn lengths(&mut self) {
        self.put("length/0", vec![], 3, 0);
        for length in [1, 31, 33, 63, 65_535, 65_537] {
            self.put(format!("length/{length}"), vec![0; length], 1, 0);
        }
        self.put("length/32", vec![0; 32], 2, 0);
        self.put("length/65536-of-zeros", vec![0; 65_536], 2, 0);
        let plain = register(0).encode();
        self.put("length/32-a-register", plain.to_vec(), 3, 0);
        self.put("length/65536-of-registers", plain.repeat(2048), 3, 0);
        self.put("length/65568-of-registers", plain.repeat(2049), 1, 0);
        let whole = base().bytes();
        self.put("length/base", whole.clone(), 0, 0);
        for (name, length) in [("less-one", whole.len() - 1), ("and-one", whole.len() + 1)] {
            let mut bytes = whole.clone();
            bytes.resize(length, 0);
            self.put(format!("length/base-{name}"), bytes, 1, 0);
        }
    }

    /// Every place of the records that are no instructions.
    fn other_classes(&mut self) {
        for (name, class, index, used) in [
            ("register", class::REGISTER, 0, 0),
            ("block", class::BLOCK, 0, 2),
            ("body", class::BODY, 0, 1),
            ("operand", class::OPERAND, 0, 1),
            ("arm", class::ARM, 0, 6),
            ("default", class::ARM, 1, 6),
        ] {
            let place = base().place(class, index);
            let mut edited = |what: &str, change: &dyn Fn(&mut Record)| {
                let mut parts = base();
                change(&mut parts.section_mut(class)[index]);
                self.refused(format!("place/{name}-{what}"), &parts, 2, place);
            };
            edited("byte3", &|record| record.zero = 1);
            edited("op", &|record| record.op = 1);
            edited("op-255", &|record| record.op = 255);
            edited("statement", &|record| record.statement = 1);
            edited("statement-high", &|record| record.statement = 1 << 24);
            for field in used..6 {
                edited(&format!("p{}", field + 1), &|record| record.p[field] = 1);
                edited(&format!("p{}-high", field + 1), &|record| record.p[field] = 1 << 31);
            }
        }
        self.default_bounds();
        self.other_kinds();
    }

    fn default_bounds(&mut self) {
        for field in 1..5 {
            for value in [1, 1 << 31] {
                let mut parts = base();
                parts.arms[1].p[field] = value;
                let place = parts.place(class::ARM, 1);
                self.refused(format!("place/default-p{}-{value}", field + 1), &parts, 2, place);
            }
        }
    }

    fn other_kinds(&mut self) {
        for kind in 0..=4 {
            let mut parts = base();
            parts.registers[1].kind = kind;
            self.accepted(format!("kind/register-{kind}"), &parts);
        }
        for (name, class, index, kind) in [
            ("register-5", class::REGISTER, 1, 5),
            ("register-255", class::REGISTER, 1, 255),
            ("block-1", class::BLOCK, 1, 1),
            ("body-1", class::BODY, 0, 1),
            ("operand-1", class::OPERAND, 2, 1),
            ("arm-2", class::ARM, 0, 2),
            ("arm-255", class::ARM, 0, 255),
        ] {
            let mut parts = base();
            parts.section_mut(class)[index].kind = kind;
            let place = parts.place(class, index);
            self.refused(format!("kind/{name}"), &parts, 2, place);
        }
    }

    fn kinds_and_ops(&mut self) {
        for kind in 0..KINDS {
            for op in 0..=last_op(kind) {
                self.instruction(format!("op/{}-{op}", name(kind)), sound(kind, op), 0);
            }
            let last = sound(kind, last_op(kind));
            for op in [last_op(kind) + 1, 255] {
                let name = format!("op/{}-{op}", name(kind));
                self.instruction(name.clone() + "-as-0", sound(kind, 0).with_op(op), 2);
                self.instruction(name + "-as-last", last.with_op(op), 2);
            }
            let byte3 = Record { zero: 1, ..last };
            self.instruction(format!("place/{}-byte3", name(kind)), byte3, 2);
            self.instruction(format!("place/{}-statement", name(kind)), last.at(u32::MAX), 0);
        }
        for kind in [KINDS, KINDS + 1, 255] {
            self.instruction(format!("kind/instruction-{kind}"), inst(kind, &[]), 2);
        }
    }

    fn instruction_fields(&mut self) {
        for kind in 0..KINDS {
            for op in 0..=last_op(kind) {
                for (at, field) in layout(kind, op).into_iter().enumerate() {
                    self.instruction_field(kind, op, at, field);
                }
            }
        }
    }

    /// One field on the far side of its edge; `sound` has it on the near side.
    fn instruction_field(&mut self, kind: u8, op: u8, at: usize, field: Field) {
        let count = match field {
            Register => REGISTERS,
            Block => BLOCKS,
            Table => TABLES,
            _ => 0,
        };
        let (values, number): (&[u32], u32) = match field {
            Unused => (&[1, 1 << 31], 2),
            Byte => (&[256, 1 << 31], 2),
            Number => (&[u32::MAX], 0),
            Register | Block | Table => (&[count, (1 << 16) | (count - 1), u32::MAX], 7),
            Start | Length => (&[], 0),
        };
        for (nth, &value) in values.iter().enumerate() {
            if nth > 0 && op > 0 && number != 0 {
                break;
            }
            let name = format!("field/{}-{op}-p{}-{value}", name(kind), at + 1);
            self.instruction(name, sound(kind, op).with_field(at, value), number);
        }
    }

    fn class_order(&mut self) {
        let records = base().records();
        let last = records.len() as u32;
        for class in [0, 7, 128, 255] {
            let mut edited = records.clone();
            edited[4].class = class;
            self.put(format!("class/{class}"), file::bytes(&edited), 2, 4);
            edited = records.clone();
            edited.push(Record { class, ..Record::default() });
            self.put(format!("class/{class}-at-end"), file::bytes(&edited), 2, last);
        }
        for (name, record) in [
            ("register", register(0)),
            ("block", block(0, 1)),
            ("body", body(0)),
            ("instruction", inst(kind::STMT, &[])),
            ("operand", operand(0)),
        ] {
            let mut edited = records.clone();
            edited.push(record);
            self.put(format!("class-order/{name}-after-arm"), file::bytes(&edited), 2, last);
            let first_after = records.iter().position(|other| other.class > record.class);
            let place = first_after.expect("arms are last") + 1;
            edited = records.clone();
            edited.insert(place, record);
            let name = format!("class-order/{name}-one-late");
            self.put(name, file::bytes(&edited), 2, place as u32);
        }
        let reversed: Vec<Record> = records.iter().rev().copied().collect();
        let first_lower = base().arms.len() as u32;
        self.put("class-order/reversed", file::bytes(&reversed), 2, first_lower);
        self.first_of_two();
    }

    fn first_of_two(&mut self) {
        let mut records = base().records();
        records[6].zero = 1;
        records[9].zero = 1;
        self.put("first/two-wrong-records", file::bytes(&records), 2, 6);
        records[3].class = 1;
        records[2].class = 2;
        self.put("first/order-then-wrong-record", file::bytes(&records), 2, 2);
        let mut records = base().records();
        records.swap(2, 3);
        records[9].zero = 1;
        self.put("first/lower-class-then-wrong-record", file::bytes(&records), 2, 3);
    }

    fn limits(&mut self) {
        for (name, class, filler) in [
            ("registers", class::REGISTER, register(4)),
            ("operands", class::OPERAND, operand(2)),
            ("arms", class::ARM, arm(0, 0, 0, 0)),
        ] {
            let at = filled(class, LIMITS[class as usize], filler);
            self.accepted(format!("limit/{name}"), &at);
            let past = filled(class, LIMITS[class as usize] + 1, filler);
            self.refused(format!("limit/{name}-past"), &past, 3, 0);
        }
        self.accepted("limit/bodies-0", &Parts { bodies: vec![], ..base() });
        self.accepted("limit/bodies", &base());
        let bodies = vec![body(0), body(1)];
        self.refused("limit/bodies-past", &Parts { bodies, ..base() }, 3, 0);
        self.accepted("limit/blocks-1", &rets(1));
        self.accepted("limit/blocks", &rets(160));
        self.refused("limit/blocks-past", &rets(161), 3, 0);
        self.accepted("limit/instructions", &one_block(756));
        self.refused("limit/instructions-past", &one_block(757), 3, 0);
        self.refused("limit/no-block", &Parts { blocks: vec![], ..base() }, 3, 0);
        let only_code = Parts { code: base().code, ..Parts::default() };
        self.refused("limit/only-code", &only_code, 3, 0);
        let only_arms = Parts { arms: base().arms, ..Parts::default() };
        self.refused("limit/only-arms", &only_arms, 3, 0);
        self.accepted("limit/all", &at_all_limits());
        self.every_limit_past();
    }

    /// All classes at their limits but one, which is one past.
    fn every_limit_past(&mut self) {
        for class in class::REGISTER..=class::ARM {
            let mut parts = at_all_limits();
            let section = parts.section_mut(class);
            section.insert(0, section[0]);
            self.refused(format!("limit/all-class-{class}-past"), &parts, 3, 0);
        }
    }

    fn tiling(&mut self) {
        let place = |index: usize| base().place(class::BLOCK, index);
        for (name, bounds, offender) in [
            ("first-starts-late", [(1, 2), (2, 4), (4, 5)], 0),
            ("first-starts-at-end", [(5, 5), (2, 4), (4, 5)], 0),
            ("first-start-largest", [(u32::MAX, 2), (2, 4), (4, 5)], 0),
            ("first-empty", [(0, 0), (0, 4), (4, 5)], 0),
            ("first-is-second", [(2, 4), (0, 2), (4, 5)], 0),
            ("first-past-code", [(0, 6), (6, 7), (7, 8)], 0),
            ("first-end-largest", [(0, u32::MAX), (2, 4), (4, 5)], 0),
            ("first-whole-code", [(0, 5), (5, 5), (5, 5)], 1),
            ("gap", [(0, 2), (3, 4), (4, 5)], 1),
            ("overlap", [(0, 2), (1, 4), (4, 5)], 1),
            ("start-over", [(0, 2), (0, 4), (4, 5)], 1),
            ("start-and-65536", [(0, 2), (65_538, 4), (4, 5)], 1),
            ("middle-empty", [(0, 2), (2, 2), (2, 5)], 1),
            ("middle-backward", [(0, 2), (2, 1), (1, 5)], 1),
            ("middle-end-zero", [(0, 2), (2, 0), (0, 5)], 1),
            ("middle-past-code", [(0, 2), (2, 6), (6, 5)], 1),
            ("middle-end-and-65536", [(0, 2), (2, 65_540), (65_540, 65_541)], 1),
            ("last-late", [(0, 2), (2, 4), (5, 5)], 2),
            ("last-early", [(0, 2), (2, 4), (3, 5)], 2),
            ("last-empty", [(0, 2), (2, 5), (5, 5)], 2),
            ("last-past-code", [(0, 2), (2, 4), (4, 6)], 2),
            ("last-far-past-code", [(0, 2), (2, 4), (4, u32::MAX)], 2),
            ("code-left-over", [(0, 2), (2, 3), (3, 4)], 2),
            ("more-code-left-over", [(0, 1), (1, 2), (2, 3)], 2),
            ("two-offend", [(0, 2), (2, 2), (2, 2)], 1),
            ("last-two-offend", [(0, 2), (3, 4), (4, 6)], 1),
        ] {
            let blocks = bounds.map(|(start, end)| block(start, end)).to_vec();
            let parts = Parts { blocks, ..base() };
            self.refused(format!("tiling/{name}"), &parts, 4, place(offender));
        }
        for (name, start, end) in [("empty", 0, 0), ("past", 0, 1), ("late", 1, 1)] {
            let parts = Parts { blocks: vec![block(start, end)], code: vec![], ..base() };
            self.refused(format!("tiling/no-code-{name}"), &parts, 4, 3);
        }
        let two = Parts { code: vec![inst(kind::RET, &[]); 2], ..rets(1) };
        self.refused("tiling/one-block-code-left-over", &two, 4, 0);
    }

    fn terminators(&mut self) {
        let place = |index: usize| base().place(class::BLOCK, index);
        let mut edited = |name: String, at: usize, record: Record, offender: usize| {
            let mut parts = base();
            parts.code[at] = record;
            self.refused(format!("terminator/{name}"), &parts, 5, place(offender));
        };
        for (last, block) in [(1, 0), (3, 1), (4, 2)] {
            for kind in (0..kind::BR).chain([kind::STMT]) {
                let name = format!("missing-{}-{}", block, name(kind));
                edited(name, last, sound(kind, 0), block);
            }
        }
        for kind in kind::BR..=kind::UNREACHABLE {
            edited(format!("early-0-{}", name(kind)), 0, sound(kind, 0), 0);
            edited(format!("early-1-{}", name(kind)), 2, sound(kind, 0), 1);
        }
        self.terminators_in_longer_blocks();
    }

    fn terminators_in_longer_blocks(&mut self) {
        for at in 0..4 {
            let mut parts = one_block(5);
            parts.code[at] = inst(kind::RET, &[]);
            self.refused(format!("terminator/early-at-{at}"), &parts, 5, 0);
        }
        let mut both = one_block(5);
        both.code.swap(2, 4);
        self.refused("terminator/early-and-missing", &both, 5, 0);
        let mut two = base();
        two.code[4] = inst(kind::STMT, &[]);
        two.code[2] = inst(kind::RET, &[]);
        self.refused("terminator/two-offend", &two, 5, two.place(class::BLOCK, 1));
        let long = Parts { code: vec![inst(kind::STMT, &[]); 756], ..one_block(756) };
        self.refused("terminator/none-in-756", &long, 5, 0);
    }

    fn tables(&mut self) {
        let place = |index: usize| base().place(class::ARM, index);
        for (name, arms, offender) in [
            ("first-is-1", vec![arm(1, 0, 0, 0), default(1, 0)], 0),
            ("first-default-is-1", vec![default(1, 0)], 0),
            ("first-is-largest", vec![default(u32::MAX, 0)], 0),
            ("number-and-65536", vec![default(0, 0), default(65_537, 0)], 1),
            ("skips", vec![default(0, 0), default(2, 0)], 1),
            ("skips-later", vec![default(0, 0), default(1, 0), arm(3, 0, 0, 0), default(3, 0)], 2),
            ("repeats", vec![default(0, 0), default(0, 0)], 1),
            ("arm-after-default", vec![default(0, 0), arm(0, 0, 0, 0), default(1, 0)], 1),
            ("default-of-other", vec![arm(0, 0, 0, 0), default(1, 0)], 1),
            ("next-before-default", vec![arm(0, 0, 0, 0), arm(1, 0, 0, 0), default(1, 0)], 1),
            ("goes-back", vec![default(0, 0), default(1, 0), default(0, 0)], 2),
            ("no-default", vec![arm(0, 0, 0, 0)], 0),
            ("no-default-of-three", vec![arm(0, 0, 0, 0), arm(0, 1, 1, 0), arm(0, 2, 2, 0)], 2),
            ("no-last-default", vec![default(0, 0), arm(1, 0, 0, 0), arm(1, 0, 0, 0)], 2),
            (
                "misnumbered-and-no-default",
                vec![default(0, 0), arm(2, 0, 0, 0), arm(2, 0, 0, 0)],
                1,
            ),
            ("misnumbered-last", vec![default(0, 0), arm(1, 0, 0, 0), arm(2, 0, 0, 0)], 2),
        ] {
            let mut parts = Parts { arms, ..base() };
            parts.code[3] = inst(kind::BR, &[2]);
            self.refused(format!("tables/{name}"), &parts, 6, place(offender));
        }
        for (name, arms) in [
            ("none", vec![]),
            ("one-default", vec![default(0, 0)]),
            ("low-above-high", vec![arm(0, 5, -5, 0), default(0, 0)]),
            (
                "extremes",
                vec![arm(0, i64::MIN, i64::MAX, 0), arm(0, i64::MAX, i64::MIN, 0), default(0, 0)],
            ),
            (
                "overlapping",
                vec![arm(0, 0, 9, 0), arm(0, 5, 20, 1), arm(0, 0, 9, 2), default(0, 0)],
            ),
            ("three-defaults", vec![default(0, 0), default(1, 1), default(2, 2)]),
        ] {
            self.accepted(format!("tables/{name}"), &Parts { arms, ..base() });
        }
        let lone = (0..128).map(|table| default(table, 0)).collect();
        self.accepted("tables/128-defaults", &Parts { arms: lone, ..base() });
        let open = vec![arm(0, 1, 1, 0); 128];
        let parts = Parts { arms: open, ..base() };
        self.refused("tables/128-arms-no-default", &parts, 6, place(127));
    }

    /// The fields that name something outside instructions, and things of which there are none.
    fn existence(&mut self) {
        for (name, class, index, field, count) in [
            ("body", class::BODY, 0, 0, BLOCKS),
            ("operand", class::OPERAND, 1, 0, REGISTERS),
            ("arm", class::ARM, 0, 5, BLOCKS),
            ("default", class::ARM, 1, 5, BLOCKS),
        ] {
            let mut edited = |value: u32, number: u32| {
                let mut parts = base();
                parts.section_mut(class)[index].p[field] = value;
                let record = if number == 0 { 0 } else { parts.place(class, index) };
                self.refused(format!("exists/{name}-{value}"), &parts, number, record);
            };
            edited(count - 1, 0);
            for value in [count, (1 << 16) | (count - 1), u32::MAX] {
                edited(value, 7);
            }
        }
        let no_tables = |table: u32| {
            let (parts, place) = with_instruction(inst(kind::CASE, &[0, table]));
            (Parts { arms: vec![], ..parts }, place)
        };
        for table in [0, u32::MAX] {
            let (parts, place) = no_tables(table);
            self.refused(format!("exists/no-tables-case-{table}"), &parts, 7, place);
        }
        self.no_registers();
        self.first_missing();
    }

    fn no_registers(&mut self) {
        let mut parts = Parts { registers: vec![], operands: vec![], ..base() };
        self.refused("exists/no-registers-cond-br", &parts, 7, parts.place(class::INSTRUCTION, 3));
        parts.code[3] = inst(kind::BR, &[2]);
        self.accepted("exists/no-registers", &parts);
        parts.operands = vec![operand(0)];
        self.refused("exists/no-registers-operand", &parts, 7, parts.place(class::OPERAND, 0));
    }

    /// Of the records that name something missing, taken away one by one from the front, the
    /// first is given.
    fn first_missing(&mut self) {
        let mut parts = base();
        parts.bodies[0].p[0] = BLOCKS;
        parts.code[1].p[0] = BLOCKS;
        parts.code[3].p[0] = REGISTERS;
        parts.operands[0].p[0] = REGISTERS;
        parts.operands[2].p[0] = REGISTERS;
        parts.arms[0].p[5] = BLOCKS;
        parts.arms[2].p[5] = BLOCKS;
        for (class, index) in [(3, 0), (4, 1), (4, 3), (5, 0), (5, 2), (6, 0), (6, 2)] {
            let place = parts.place(class, index);
            self.refused(format!("first/missing-at-{place}"), &parts, 7, place);
            parts.section_mut(class)[index] = base().section_mut(class)[index];
        }
    }

    fn lists(&mut self) {
        for (name, kind, op) in [
            ("MakeDope", kind::MAKE_DOPE, 0),
            ("CallNative-0", kind::CALL_NATIVE, op::WITHOUT),
            ("CallNative-1", kind::CALL_NATIVE, op::WITH),
        ] {
            for (start, length, number) in [
                (0, 0, 0),
                (0, OPERANDS, 0),
                (OPERANDS, 0, 0),
                (OPERANDS - 1, 1, 0),
                (0, OPERANDS + 1, 7),
                (OPERANDS, 1, 7),
                (OPERANDS - 1, 2, 7),
                (OPERANDS + 1, 0, 7),
                (u32::MAX, 0, 7),
                (0, u32::MAX, 7),
                (u32::MAX, 1, 7),
                (1, u32::MAX, 7),
                (u32::MAX, 2, 7),
                (u32::MAX, u32::MAX, 7),
                (1 << 31, 1 << 31, 7),
                (65_536, 0, 7),
                (0, 65_536, 7),
            ] {
                let record = sound(kind, op).with_field(1, start).with_field(2, length);
                self.instruction(format!("list/{name}-{start}-{length}"), record, number);
            }
        }
        for (start, length, number) in [(0, 0, 0), (0, 1, 7), (1, 0, 7)] {
            let record = sound(kind::CALL_NATIVE, 0).with_field(1, start).with_field(2, length);
            let (parts, place) = with_instruction(record);
            let parts = Parts { operands: vec![], ..parts };
            let place = if number == 0 { 0 } else { place };
            self.refused(format!("list/no-operands-{start}-{length}"), &parts, number, place);
        }
    }

    /// Two faults at once: the lower number is given.
    fn order_of_refusals(&mut self) {
        for first in 1..=7 {
            for second in first + 1..=7 {
                let mut parts = base();
                spoil(&mut parts, second);
                let record = spoil(&mut parts, first);
                let mut bytes = parts.bytes();
                if first == 1 {
                    bytes.push(0);
                }
                self.put(format!("order/{first}-before-{second}"), bytes, first, record);
            }
        }
        let mut all = base();
        for number in (2..=7).rev() {
            spoil(&mut all, number);
        }
        let wrong = all.place(class::OPERAND, 2);
        self.refused("order/all", &all, 2, wrong);
        let too_long = inst(KINDS, &[]).encode().repeat(2049);
        self.put("order/too-long-and-wrong", too_long, 1, 0);
    }
}

/// Makes one fault of that number, and gives its record (1 needs a byte more at the end).
/// The faults stand in an order against that of the numbers.
fn spoil(parts: &mut Parts, number: u32) -> u32 {
    match number {
        2 => {
            parts.operands[2].zero = 1;
            parts.place(class::OPERAND, 2)
        }
        3 => {
            parts.bodies.push(body(0));
            0
        }
        4 => {
            parts.blocks[2].p[1] = 6;
            parts.place(class::BLOCK, 2)
        }
        5 => {
            parts.code[2] = inst(kind::RET, &[]);
            parts.place(class::BLOCK, 1)
        }
        6 => {
            parts.arms[1].kind = 0;
            parts.place(class::ARM, 2)
        }
        7 => {
            parts.code[1].p[0] = BLOCKS;
            parts.place(class::INSTRUCTION, 1)
        }
        _ => 0,
    }
}

/// The base with a class filled from the front to a count.
fn filled(class: u8, count: usize, filler: Record) -> Parts {
    let mut parts = base();
    let section = parts.section_mut(class);
    let missing = count - section.len();
    section.splice(0..0, vec![filler; missing]);
    parts
}

/// So many blocks of one Ret each.
fn rets(count: u32) -> Parts {
    Parts {
        blocks: (0..count).map(|start| block(start, start + 1)).collect(),
        code: vec![inst(kind::RET, &[]); count as usize],
        ..Parts::default()
    }
}

/// One block of so many instructions.
fn one_block(count: u32) -> Parts {
    let mut code = vec![inst(kind::STMT, &[]); count as usize];
    code[count as usize - 1] = inst(kind::RET, &[]);
    Parts { blocks: vec![block(0, count)], code, ..Parts::default() }
}

/// Every class at its limit.
fn at_all_limits() -> Parts {
    let mut parts = rets(160);
    parts.registers = vec![register(3); 756];
    parts.bodies = vec![body(159)];
    parts.code.splice(0..0, vec![inst(kind::MOVE, &[755, 0]); 596]);
    for block in &mut parts.blocks {
        block.p[0] += 596;
        block.p[1] += 596;
    }
    parts.blocks[0].p[0] = 0;
    parts.operands = vec![operand(755); 128];
    parts.arms = vec![arm(0, 1, 2, 159); 127];
    parts.arms.push(default(0, 159));
    parts
}
