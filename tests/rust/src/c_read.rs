//! `halivomue_read` of the archive.

#[repr(C)]
struct Reading {
    number: u32,
    record: u32,
}

#[link(name = "halivomue_c", kind = "static")]
extern "C" {
    fn halivomue_read(bytes: *const u8, length: usize) -> Reading;
}

pub fn read(bytes: &[u8]) -> (u32, u32) {
    // The call only looks at these bytes.
    let reading = unsafe { halivomue_read(bytes.as_ptr(), bytes.len()) };
    (reading.number, reading.record)
}
