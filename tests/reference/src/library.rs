//! The functions of a shared object, loaded while the program runs.

use crate::Answer;
use std::ffi::{CStr, CString, c_char, c_int, c_void};

#[repr(C)]
#[derive(Clone, Copy, PartialEq, Eq, Debug, Default)]
pub struct Shortening {
    pub number: u32,
    pub record: u32,
    pub length: usize,
    pub moved: u32,
    pub grown: u32,
    pub fresh: u32,
    pub rescued: u32,
}

impl From<&Answer> for Shortening {
    fn from(a: &Answer) -> Shortening {
        Shortening {
            number: a.number,
            record: a.record,
            length: a.output.len(),
            moved: a.moved,
            grown: a.grown,
            fresh: a.fresh,
            rescued: a.rescued,
        }
    }
}

pub type Function = unsafe extern "C" fn(*const u8, usize, *mut u8, usize) -> Shortening;

#[repr(C)]
#[derive(Clone, Copy, PartialEq, Eq, Debug)]
pub struct Reading {
    pub number: u32,
    pub record: u32,
}

type Reader = unsafe extern "C" fn(*const u8, usize) -> Reading;

#[repr(C)]
#[derive(Clone, Copy, PartialEq, Eq, Debug, Default)]
pub struct Tidiness {
    pub number: u32,
    pub record: u32,
    pub tidy: u32,
    pub reg: u32,
}

type Tidier = unsafe extern "C" fn(*const u8, usize) -> Tidiness;

#[repr(C)]
#[derive(Clone, Copy, PartialEq, Eq, Debug)]
pub struct Provisioning {
    pub number: u32,
    pub record: u32,
    pub tidy: u32,
    pub reg: u32,
    pub length: usize,
    pub moved: u32,
    pub grown: u32,
    pub fresh: u32,
    pub rescued: u32,
}

impl Provisioning {
    /// What is due where Tidy and Shorten answer so.
    pub fn of(t: Tidiness, s: Shortening) -> Provisioning {
        let Shortening { number, record, length, moved, grown, fresh, rescued } = s;
        Provisioning { number, record, tidy: t.tidy, reg: t.reg, length, moved, grown, fresh, rescued }
    }
}

type Provisioner = unsafe extern "C" fn(*const u8, usize, *mut u8, usize) -> Provisioning;

/// A shop's accounts. The first word is the tally.
pub type Accounts = [u32; 128];

#[repr(C)]
#[derive(Clone, Copy, PartialEq, Eq, Debug)]
pub struct Billing {
    pub number: u32,
    pub record: u32,
    pub length: usize,
    pub moved: u32,
    pub grown: u32,
    pub fresh: u32,
    pub rescued: u32,
    pub price: u32,
}

type Biller = unsafe extern "C" fn(*mut Accounts, *const u8, usize, *mut u8, usize) -> Billing;

#[derive(Clone, Copy)]
pub struct Library {
    shorten: Function,
    bill: Option<Biller>,
    read: Option<Reader>,
    tidy: Option<Tidier>,
    provision: Option<Provisioner>,
}

unsafe extern "C" {
    fn dlopen(name: *const c_char, flags: c_int) -> *mut c_void;
    fn dlsym(library: *mut c_void, name: *const c_char) -> *mut c_void;
    fn dlerror() -> *const c_char;
}

const RTLD_NOW: c_int = 2;

fn dl_error() -> String {
    // Asked right after a call that failed, so there is a text.
    unsafe { CStr::from_ptr(dlerror()) }.to_string_lossy().into_owned()
}

/// A function of the shared object at this path, which stays loaded.
pub fn symbol(path: &str, name: &CStr) -> Result<*mut c_void, String> {
    let path = CString::new(path).map_err(|e| e.to_string())?;
    let library = unsafe { dlopen(path.as_ptr(), RTLD_NOW) };
    if library.is_null() {
        return Err(dl_error());
    }
    let function = unsafe { dlsym(library, name.as_ptr()) };
    if function.is_null() { Err(dl_error()) } else { Ok(function) }
}

impl Library {
    /// The functions of the shared object at this path.
    pub fn load(path: &str) -> Result<Library, String> {
        let function = symbol(path, c"halivomue_shorten")?;
        let other = |name: &CStr| symbol(path, name).unwrap_or(std::ptr::null_mut());
        // They have the signatures that include/halivomue.h gives them.
        let shorten = unsafe { std::mem::transmute::<*mut c_void, Function>(function) };
        let read = unsafe { std::mem::transmute::<*mut c_void, Option<Reader>>(other(c"halivomue_read")) };
        let tidy = unsafe { std::mem::transmute::<*mut c_void, Option<Tidier>>(other(c"halivomue_tidy")) };
        let provision =
            unsafe { std::mem::transmute::<*mut c_void, Option<Provisioner>>(other(c"halivomue_provision")) };
        let bill = unsafe { std::mem::transmute::<*mut c_void, Option<Biller>>(other(c"halivomue_shorten_for")) };
        Ok(Library { shorten, bill, read, tidy, provision })
    }

    /// A library of this one function.
    #[cfg(test)]
    pub fn of(function: Function) -> Library {
        Library { shorten: function, bill: None, read: None, tidy: None, provision: None }
    }

    /// The library that HALIVOMUE_LIBRARY names.
    pub fn from_environment() -> Result<Library, String> {
        let path = std::env::var("HALIVOMUE_LIBRARY").map_err(|_| "HALIVOMUE_LIBRARY names no shared object")?;
        Library::load(&path)
    }

    #[inline]
    pub fn shorten(self, bytes: &[u8], out: &mut [u8]) -> Shortening {
        // It only looks at these bytes and only writes to this buffer.
        unsafe { (self.shorten)(bytes.as_ptr(), bytes.len(), out.as_mut_ptr(), out.len()) }
    }

    pub fn has_accounts(self) -> bool {
        self.bill.is_some()
    }

    /// Shorten with accounts, which the library must have.
    #[inline]
    pub fn shorten_for(self, accounts: &mut Accounts, bytes: &[u8], out: &mut [u8]) -> Billing {
        let bill = self.bill.expect("the library has no halivomue_shorten_for");
        // It only looks at these bytes and only writes to this buffer and these accounts.
        unsafe { bill(accounts, bytes.as_ptr(), bytes.len(), out.as_mut_ptr(), out.len()) }
    }

    /// What Read says, where the library has it.
    #[inline]
    pub fn read(self, bytes: &[u8]) -> Option<Reading> {
        // It only looks at these bytes.
        self.read.map(|read| unsafe { read(bytes.as_ptr(), bytes.len()) })
    }
    /// What Tidy says, where the library has it.
    pub fn tidy(self, bytes: &[u8]) -> Option<Tidiness> {
        // It only looks at these bytes.
        self.tidy.map(|tidy| unsafe { tidy(bytes.as_ptr(), bytes.len()) })
    }

    /// Tidy and Shorten at once, where the library has it.
    pub fn provision(self, bytes: &[u8], out: &mut [u8]) -> Option<Provisioning> {
        // It only looks at these bytes and only writes to this buffer.
        self.provision.map(|provision| unsafe { provision(bytes.as_ptr(), bytes.len(), out.as_mut_ptr(), out.len()) })
    }
}
