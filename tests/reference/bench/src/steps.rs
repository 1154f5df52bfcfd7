//! The library's steps alone: `halivomue_run`, `halivomue_emit`, `halivomue_slice` and `halivomue_put` of the shared object
//! that HALIVOMUE_STEPS names, made of the crate `bench_c`. What they need is opened here, outside of what is timed.

use halivomue_reference::library::symbol;
use halivomue_reference::procedure::Procedure;
use halivomue_reference::record::{RECORD, kind};
use std::ffi::c_void;
use std::mem::transmute;
use std::ptr::copy_nonoverlapping;

#[repr(C)]
struct Ran {
    top: usize,
    grown: u64,
    fresh: usize,
    joined: bool,
    edited: bool,
}

type Bytes = *const u8;
type Run = unsafe extern "C" fn(
    *mut u8,
    usize,
    *mut u8,
    usize,
    *mut u8,
    usize,
    *mut u64,
    usize,
    *mut u32,
    usize,
    *mut u64,
    usize,
    Bytes,
    usize,
    Bytes,
    usize,
    Bytes,
    usize,
    usize,
) -> Ran;
#[repr(C)]
struct Staged {
    n: usize,
    rescued: u32,
}

type Emit = unsafe extern "C" fn(
    *mut u8,
    usize,
    *mut u8,
    usize,
    Bytes,
    usize,
    Bytes,
    usize,
    Bytes,
    usize,
    *const u64,
    usize,
) -> Staged;
type Put = unsafe extern "C" fn(
    *mut u8,
    usize,
    Bytes,
    usize,
    Bytes,
    usize,
    Bytes,
    usize,
    Bytes,
    usize,
    Bytes,
    usize,
    Bytes,
    usize,
    Bytes,
    usize,
    u32,
    u32,
) -> usize;

type SliceTests = unsafe extern "C" fn(*mut u8, usize, Bytes, usize, Bytes, usize, usize) -> bool;

#[derive(Clone, Copy)]
pub struct Steps {
    run: Run,
    emit: Emit,
    slice: SliceTests,
    put: Put,
    out: Slice<u8>,
}

impl Steps {
    /// The functions of the shared object that HALIVOMUE_STEPS names, if it names one.
    pub fn from_environment() -> Option<Steps> {
        let path = std::env::var("HALIVOMUE_STEPS").ok()?;
        let found = |name| symbol(&path, name).unwrap_or_else(|why| panic!("{why}"));
        // They have the signatures of crates/bench_c, a slice being a pointer and a length.
        let run = unsafe { transmute::<*mut c_void, Run>(found(c"halivomue_run")) };
        let emit = unsafe { transmute::<*mut c_void, Emit>(found(c"halivomue_emit")) };
        let slice = unsafe { transmute::<*mut c_void, SliceTests>(found(c"halivomue_slice")) };
        let put = unsafe { transmute::<*mut c_void, Put>(found(c"halivomue_put")) };
        Some(Steps { run, emit, slice, put, out: Slice::zeroed(65_536) })
    }
}

/// A slice, as the functions take it.
#[derive(Clone, Copy)]
struct Slice<T> {
    at: *mut T,
    len: usize,
}

impl<T: Clone + Default> Slice<T> {
    /// New storage, which is kept until the benchmark ends.
    fn zeroed(len: usize) -> Slice<T> {
        let storage = Box::leak(vec![T::default(); len].into_boxed_slice());
        Slice { at: storage.as_mut_ptr(), len }
    }

    fn part(&self) -> &[T] {
        // It points to so many.
        unsafe { std::slice::from_raw_parts(self.at, self.len) }
    }

    /// Bytes of a file, which no function changes.
    fn of(part: &[T]) -> Slice<T> {
        Slice { at: part.as_ptr().cast_mut(), len: part.len() }
    }
}

/// Calls a function with slices, each as a pointer and a length, and some numbers.
macro_rules! call {
    ($function:expr, ($($slice:expr),*) $(, $number:expr)*) => {
        ($function)($($slice.at, $slice.len,)* $($number,)*)
    };
}

/// A file's parts, and storage that is enough for it.
pub struct Opened {
    parts: [Slice<u8>; 6],
    work: Slice<u8>,
    table: Slice<u8>,
    kinds: Slice<u8>,
    known: Slice<u64>,
    copy: Slice<u32>,
    facts: Slice<u64>,
    staged: Slice<u8>,
    heads: Slice<u8>,
    /// Some Br or CondBr goes back, and there are six instructions.
    looped: bool,
}

impl Opened {
    /// The bytes are to stay where they are while it is used.
    pub fn new(bytes: &[u8]) -> Opened {
        let mut parts = [Slice::of(&bytes[..0]); 6];
        let mut at = 0;
        for (class, part) in parts.iter_mut().enumerate() {
            let end = (at..bytes.len()).step_by(RECORD).find(|k| bytes[*k] as usize > class + 1).unwrap_or(bytes.len());
            *part = Slice::of(&bytes[at..end]);
            at = end;
        }
        let n = parts[3].len / RECORD;
        Opened {
            parts,
            work: Slice::zeroed((2 * n + 3 * n / 8 + 27) * RECORD),
            table: Slice::zeroed(parts[1].len),
            kinds: Slice::zeroed(n / 2 + 40),
            known: Slice::zeroed(2 * (n + 15)),
            copy: Slice::zeroed(2 * (n + 15)),
            facts: Slice::zeroed(5 * (parts[0].len / RECORD)),
            staged: Slice::zeroed((n + n / 2 + 36) * RECORD),
            heads: Slice::zeroed(parts[1].len),
            looped: n >= 6 && goes_back(&Procedure::from_bytes(bytes)),
        }
    }

    /// Code and block table are put into the storage.
    pub fn open(&self) {
        let [_, table, _, code, _, _] = self.parts;
        // The storage is long enough, and nobody else's.
        unsafe {
            copy_nonoverlapping(code.at, self.work.at, code.len);
            copy_nonoverlapping(table.at, self.table.at, table.len);
        }
    }

    /// The steps, once it is opened; how many bytes of the result were written, if a block was edited or a test rewritten.
    pub fn steps(&self, steps: Steps) -> Option<usize> {
        let Opened { parts, work, table, kinds, known, copy, facts, staged, heads, looped } = self;
        let [registers, _, body, code, operands, arms] = parts;
        // The functions stay within these slices.
        unsafe {
            let ran = call!(
                steps.run,
                (work, table, kinds, known, copy, facts, operands, registers, body),
                code.len / RECORD
            );
            let kinds = Slice { len: ran.fresh, ..*kinds };
            let (form, heads, rescued) = if ran.edited {
                let emitted = call!(steps.emit, (staged, heads, work, table, arms, facts));
                (Slice { len: emitted.n * RECORD, ..*staged }, *heads, emitted.rescued)
            } else {
                (Slice { len: code.len, ..*work }, *table, 0)
            };
            let count = registers.len / RECORD + ran.fresh;
            let sliced = *looped && has_lengths(form.part()) && call!(steps.slice, (form, heads, operands), count);
            (ran.edited || sliced).then(|| {
                call!(
                    steps.put,
                    (steps.out, registers, kinds, heads, body, form, operands, arms),
                    ran.grown as u32,
                    rescued
                )
            })
        }
    }
}

/// Does some Br or CondBr go to its own block or an earlier one? (No file here has equal arms.)
fn goes_back(p: &Procedure) -> bool {
    (0..p.blocks.len()).any(|b| match p.block(b).last() {
        Some(i) if i.kind == kind::BR => i.p[0] as usize <= b,
        Some(i) if i.kind == kind::COND_BR => i.p[1].min(i.p[2]) as usize <= b,
        _ => false,
    })
}

/// The gate's look at the kinds, as the library takes it.
fn has_lengths(code: &[u8]) -> bool {
    let kinds = || code.iter().skip(1).step_by(RECORD).copied();
    kinds().any(|k| k == kind::MAKE_DOPE || k == kind::BOUNDS_LEN)
        && kinds().any(|k| k == kind::DOPE_LEN || k == kind::BOUNDS_LEN)
}
