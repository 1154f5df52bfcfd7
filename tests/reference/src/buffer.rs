//! A buffer between guards, in which a call's every byte is compared.

use crate::Answer;
use crate::library::{Library, Shortening};

const GUARD: usize = 64;

/// Bytes known before a call, and input bytes at any address.
#[derive(Default)]
pub struct Buffer {
    out: Vec<u8>,
    input: Vec<u8>,
}

/// What a byte of the buffer holds before a call.
fn filling(place: usize) -> u8 {
    (7 * place + place / 251 + 0x5a) as u8
}

/// How a call differs from what is due.
pub struct Finding {
    pub told: Shortening,
    pub due: Shortening,
    pub buffer: String,
}

/// What is due with this room, from the answer with room enough.
fn due(answer: &Answer, room: usize) -> (Shortening, &[u8]) {
    if answer.number == 0 && answer.output.len() > room {
        return (Shortening { number: 9, ..Shortening::default() }, &[]);
    }
    (answer.into(), &answer.output)
}

/// One call of the library: the answer, the buffer at exit, its guards, and the input's bytes.
pub fn ask(
    library: Library,
    buffer: &mut Buffer,
    bytes: &[u8],
    room: usize,
    answer: &Answer,
    shift: usize,
) -> Result<(), Finding> {
    let Buffer { out, input } = buffer;
    for place in out.len()..room + 2 * GUARD + 8 {
        out.push(filling(place));
    }
    input.clear();
    input.resize(shift % 8, 0);
    input.extend_from_slice(bytes);
    let start = GUARD + shift / 8 % 8;
    let told = library.shorten(&input[shift % 8..], &mut out[start..start + room]);
    let (due, output) = due(answer, room);
    let whole = start + room + GUARD;
    let first = first_wrong(&out[..whole], start, output);
    let same_input = input[shift % 8..] == *bytes;
    restore(out, first.map_or(start..start + output.len(), |_| 0..whole));
    if told == due && first.is_none() && same_input {
        return Ok(());
    }
    let buffer = match first {
        Some(place) => format!("byte {} of the buffer differs", place as isize - start as isize),
        None if !same_input => "the input was changed".into(),
        None => "the buffer is as due".into(),
    };
    Err(Finding { told, due, buffer })
}

/// The first byte that isn't the output's from `start` on, and else the filling's.
fn first_wrong(out: &[u8], start: usize, output: &[u8]) -> Option<usize> {
    let end = start + output.len();
    if out[start..end] == *output && untouched(out, 0..start) && untouched(out, end..out.len()) {
        return None;
    }
    let due = |place: usize| if (start..end).contains(&place) { output[place - start] } else { filling(place) };
    (0..out.len()).find(|&place| out[place] != due(place))
}

/// The filling, to compare with at once.
static FILLING: std::sync::LazyLock<Vec<u8>> = std::sync::LazyLock::new(|| (0..1 << 17).map(filling).collect());

fn untouched(out: &[u8], range: std::ops::Range<usize>) -> bool {
    out[range.clone()] == FILLING[range]
}

fn restore(out: &mut [u8], range: std::ops::Range<usize>) {
    out[range.clone()].copy_from_slice(&FILLING[range]);
}

#[cfg(test)]
mod tests {
    use super::*;
    use crate::library::Function;

    /// 64 bytes of ones, or refused with 9.
    fn ones(room: usize) -> Shortening {
        match room {
            0..64 => Shortening { number: 9, ..Shortening::default() },
            _ => Shortening { length: 64, moved: 1, ..Shortening::default() },
        }
    }

    unsafe extern "C" fn right(_: *const u8, _: usize, out: *mut u8, room: usize) -> Shortening {
        let told = ones(room);
        unsafe { out.write_bytes(1, told.length) };
        told
    }

    unsafe extern "C" fn past(_: *const u8, _: usize, out: *mut u8, room: usize) -> Shortening {
        let told = ones(room);
        unsafe { out.write_bytes(1, told.length + usize::from(told.length < room)) };
        told
    }

    unsafe extern "C" fn before(_: *const u8, _: usize, out: *mut u8, room: usize) -> Shortening {
        unsafe { out.sub(1).write_bytes(1, ones(room).length + 1) };
        ones(room)
    }

    unsafe extern "C" fn on_refusal(_: *const u8, _: usize, out: *mut u8, room: usize) -> Shortening {
        unsafe { out.write_bytes(1, room.min(64)) };
        ones(room)
    }

    unsafe extern "C" fn short(_: *const u8, _: usize, out: *mut u8, room: usize) -> Shortening {
        unsafe { out.write_bytes(1, ones(room).length.saturating_sub(1)) };
        ones(room)
    }

    unsafe extern "C" fn into_input(bytes: *const u8, _: usize, out: *mut u8, room: usize) -> Shortening {
        unsafe { bytes.cast_mut().write(3) };
        unsafe { right(bytes, 0, out, room) }
    }

    unsafe extern "C" fn never_nine(_: *const u8, _: usize, out: *mut u8, room: usize) -> Shortening {
        unsafe { out.write_bytes(1, room.min(64)) };
        Shortening { length: room.min(64), moved: 1, ..Shortening::default() }
    }

    /// At which of these rooms the library differs: nothing, one byte less, just enough, more.
    fn differs(function: Function) -> [bool; 4] {
        let answer = Answer { moved: 1, output: vec![1; 64], ..Answer::default() };
        let mut buffer = Buffer::default();
        [0, 63, 64, 100].map(|room| ask(Library::of(function), &mut buffer, &[5; 32], room, &answer, 3).is_err())
    }

    #[test]
    fn every_byte_is_compared() {
        assert_eq!(differs(right), [false; 4]);
        assert_eq!(differs(past), [false, true, false, true]);
        assert_eq!(differs(before), [true; 4]);
        assert_eq!(differs(on_refusal), [false, true, false, false]);
        assert_eq!(differs(short), [false, false, true, true]);
        assert_eq!(differs(into_input), [true; 4]);
        assert_eq!(differs(never_nine), [true, true, false, false]);
    }
}
