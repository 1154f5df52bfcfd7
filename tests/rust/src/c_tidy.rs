//! `halivomue_tidy` of the archive.

#[repr(C)]
struct Tidiness {
    number: u32,
    record: u32,
    tidy: u32,
    reg: u32,
}

#[link(name = "halivomue_c", kind = "static")]
extern "C" {
    fn halivomue_tidy(bytes: *const u8, length: usize) -> Tidiness;
}

pub fn tidy(bytes: &[u8]) -> (u32, u32, u32, u32) {
    // The call only looks at these bytes.
    let answer = unsafe { halivomue_tidy(bytes.as_ptr(), bytes.len()) };
    (answer.number, answer.record, answer.tidy, answer.reg)
}
