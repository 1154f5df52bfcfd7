//! A form of a file by name: `halivomue_form` of the shared object that HALIVOMUE_STEPS names, made of the crate `bench_c`.

use crate::library::{Shortening, symbol};
use std::ffi::c_void;

/// The forms in the order of their numbers.
pub const NAMES: [&str; 3] = ["sent", "threaded", "sliced"];

type Function = unsafe extern "C" fn(*const u8, usize, u32, *mut u8, usize) -> Shortening;

/// One form, to be asked of any file.
#[derive(Clone, Copy)]
pub struct Form {
    function: Function,
    which: u32,
}

impl Form {
    /// The form of this name.
    pub fn from_environment(name: &str) -> Result<Form, String> {
        let which = NAMES
            .iter()
            .position(|n| *n == name)
            .ok_or_else(|| format!("no form {name}: one of {}", NAMES.join(", ")))?;
        let path = std::env::var("HALIVOMUE_STEPS").map_err(|_| "HALIVOMUE_STEPS names no shared object")?;
        // It has the signature of crates/bench_c, a slice being a pointer and a length.
        let function = unsafe { std::mem::transmute::<*mut c_void, Function>(symbol(&path, c"halivomue_form")?) };
        Ok(Form { function, which: which as u32 })
    }

    pub fn of(self, bytes: &[u8], out: &mut [u8]) -> Shortening {
        // It only looks at these bytes and only writes to this buffer.
        unsafe { (self.function)(bytes.as_ptr(), bytes.len(), self.which, out.as_mut_ptr(), out.len()) }
    }
}
