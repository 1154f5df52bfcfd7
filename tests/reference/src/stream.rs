//! Streams of files: each request is length, room (32 bits, little-endian) and the bytes; each
//! reply is the seven numbers of the answer and its output bytes.

use crate::Answer;
use std::io::{self, Read, Write};

pub struct Request {
    pub room: usize,
    pub bytes: Vec<u8>,
}

pub fn read_request(from: &mut impl Read) -> io::Result<Option<Request>> {
    let mut head = [0; 8];
    match from.read(&mut head[..1])? {
        0 => return Ok(None),
        _ => from.read_exact(&mut head[1..])?,
    }
    let word = |k: usize| u32::from_le_bytes(head[k..k + 4].try_into().unwrap()) as usize;
    let mut bytes = vec![0; word(0)];
    from.read_exact(&mut bytes)?;
    Ok(Some(Request { room: word(4), bytes }))
}

pub fn write_request(to: &mut impl Write, r: &Request) -> io::Result<()> {
    to.write_all(&(r.bytes.len() as u32).to_le_bytes())?;
    to.write_all(&(r.room as u32).to_le_bytes())?;
    to.write_all(&r.bytes)
}

pub fn write_reply(to: &mut impl Write, a: &Answer) -> io::Result<()> {
    for n in a.numbers() {
        to.write_all(&n.to_le_bytes())?;
    }
    to.write_all(&a.output)
}
