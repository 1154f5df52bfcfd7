//! The functions of the C header over the reference, to try the comparison, the C programs and the benchmark with. STAND_IN_FAULT names a fault that they then have, which the comparison must notice.

use halivomue_reference::draft::mov;
use halivomue_reference::library::{Provisioning, Reading, Shortening, Tidiness};
use halivomue_reference::procedure::Procedure;
use halivomue_reference::record::kind;
use halivomue_reference::{level, read, reference, tidy};
use std::sync::LazyLock;

static FAULT: LazyLock<String> = LazyLock::new(|| std::env::var("STAND_IN_FAULT").unwrap_or_default());

/// # Safety
/// `length` bytes stand at `bytes`, and `room` bytes at `out` are the caller's to write; a null pointer has none.
#[unsafe(no_mangle)]
pub unsafe extern "C" fn halivomue_shorten(bytes: *const u8, length: usize, out: *mut u8, room: usize) -> Shortening {
    let bytes = if length == 0 { &[] } else { unsafe { std::slice::from_raw_parts(bytes, length) } };
    let beyond = unsafe { out.add(room) };
    let out = if room == 0 { &mut [] } else { unsafe { std::slice::from_raw_parts_mut(out, room) } };
    let shorten = reference().expect("the papers were there when this was built");
    let threaded = || level::with(&["thread"], || shorten(bytes, room));
    let mut a = if *FAULT == "unsliced" { threaded() } else { shorten(bytes, room) };
    if a.number == 0 {
        a.output =
            if *FAULT == "bounds" { exchanged(a.output, &threaded().output) } else { spoiled(a.output, a.moved > 0) };
        if a.output.len() > room {
            return refused(9);
        }
    }
    let mut told = Shortening::from(&a);
    out[..a.output.len()].copy_from_slice(&a.output);
    match FAULT.as_str() {
        "" => {}
        "grown" => told.grown += u32::from(told.rescued > 0),
        "rescued" => told.rescued = 0,
        "fresh" => told.fresh += u32::from(told.fresh > 4),
        "moved" => told.moved = u32::from(told.grown > 0),
        "length" => told.length += 32 * usize::from(told.rescued > 1),
        "record" => told.record += u32::from(told.number == 5),
        "byte" if told.fresh > 2 => out[told.length - 1] ^= 1,
        "past" if told.grown > 0 && room > told.length => out[told.length] ^= 1,
        "beyond" if told.number == 0 && told.length == room => unsafe { *beyond = 0 },
        "refusal" if told.number == 9 && room > 0 => out[room - 1] ^= 1,
        "room" if told.number == 0 && told.length == room => told = refused(9),
        "limit" if told.number == 8 && bytes.iter().step_by(32).filter(|&&class| class == 4).count() == 481 => {
            told = refused(3)
        }
        "unchanged" if told.number == 0 && told.fresh > 0 => {
            out[..length.min(room)].copy_from_slice(&bytes[..length.min(room)])
        }
        _ => {}
    }
    told
}

/// # Safety
/// `length` bytes stand at `bytes`; a null pointer has none.
#[unsafe(no_mangle)]
pub unsafe extern "C" fn halivomue_read(bytes: *const u8, length: usize) -> Reading {
    let Tidiness { number, record, .. } = unsafe { halivomue_tidy(bytes, length) };
    Reading { number, record }
}

/// # Safety
/// As of `halivomue_read`.
#[unsafe(no_mangle)]
pub unsafe extern "C" fn halivomue_tidy(bytes: *const u8, length: usize) -> Tidiness {
    let bytes = if length == 0 { &[] } else { unsafe { std::slice::from_raw_parts(bytes, length) } };
    match read::read(bytes).map(|_| tidy::offender(&Procedure::from_bytes(bytes))) {
        Err((number, record)) => Tidiness { number, record, ..Tidiness::default() },
        Ok(None) => Tidiness { tidy: 1, ..Tidiness::default() },
        Ok(Some(reg)) => Tidiness { reg, ..Tidiness::default() },
    }
}

/// # Safety
/// As of `halivomue_shorten`.
#[unsafe(no_mangle)]
pub unsafe extern "C" fn halivomue_provision(
    bytes: *const u8,
    length: usize,
    out: *mut u8,
    room: usize,
) -> Provisioning {
    let (t, s) = unsafe { (halivomue_tidy(bytes, length), halivomue_shorten(bytes, length, out, room)) };
    let mut told = Provisioning::of(t, s);
    match FAULT.as_str() {
        "yes" => told.tidy = u32::from(t.number == 0),
        "register" => told.reg += u32::from(t.number == 0 && t.tidy == 0),
        "wiped" if told.number == 9 && room > 0 => unsafe { *out = 0 },
        _ => {}
    }
    told
}

/// A shortened form with a fault that a run of it shows, where it was changed at all.
fn spoiled(output: Vec<u8>, moved: bool) -> Vec<u8> {
    let fault = FAULT.as_str();
    if !moved {
        return output;
    }
    let mut f = Procedure::from_bytes(&output);
    if fault == "slow" {
        f.code.insert(0, mov(0, 0));
        f.blocks.iter_mut().for_each(|b| *b = (b.0 + 1, b.1 + 1));
        f.blocks[0].0 = 0;
        return f.bytes();
    }
    let first = f.code.iter_mut().find(|i| match fault {
        "arms" => i.kind == kind::COND_BR,
        "statement" => i.kind >= kind::BIN,
        "value" => i.kind == kind::CONST,
        "act" => i.kind == kind::STMT,
        "result" => i.kind == kind::RET,
        _ => false,
    });
    match (fault, first) {
        (_, None) => return output,
        ("arms", Some(i)) => i.p.swap(1, 2),
        ("statement", Some(i)) => i.statement ^= 1,
        ("value", Some(i)) => i.p[1] ^= 1,
        ("act", Some(i)) => i.kind = kind::MOVE,
        (_, Some(i)) => (i.op, i.p[0]) = (1 - i.op, 0),
    }
    f.bytes()
}

/// A sliced form whose rewritten Cmps have their bounds exchanged.
fn exchanged(output: Vec<u8>, threaded: &[u8]) -> Vec<u8> {
    let (mut f, before) = (Procedure::from_bytes(&output), Procedure::from_bytes(threaded));
    f.code.iter_mut().zip(&before.code).filter(|(i, j)| i != j).for_each(|(i, _)| i.p.swap(1, 2));
    f.bytes()
}

fn refused(number: u32) -> Shortening {
    Shortening { number, ..Shortening::default() }
}
