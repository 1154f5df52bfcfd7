//! The reference: the published Rust behind document 01's records and refusals.
//!
//! `shorten` is there only where the published text was found when this was built.

pub mod answer;
pub mod answers;
pub mod buffer;
pub mod cases;
pub mod cores;
pub mod draft;
pub mod forms;
pub mod generate;
pub mod lengths;
pub mod level;
pub mod library;
pub mod limits;
pub mod listing;
pub mod machine;
pub mod measured;
pub mod procedure;
pub mod read;
pub mod record;
pub mod reduce;
pub mod self_test;
pub mod shop;
pub mod sorts;
pub mod stream;
pub mod tally;
pub mod tidy;

#[cfg(published)]
#[allow(unused, clippy::all)]
mod published {
    include!(concat!(env!("OUT_DIR"), "/mod_inst.rs"));
    pub use inst::*;
}
#[cfg(published)]
use published as inst;

#[cfg(published)]
mod opt;
#[cfg(published)]
pub mod plain;
pub mod probe;
#[cfg(published)]
mod program;
#[cfg(published)]
mod shorten;

#[cfg(published)]
use program::*;
#[cfg(published)]
pub use shorten::{roles_agree, shorten};

pub use answer::Answer;

#[cfg(not(published))]
fn roles_agree() -> bool {
    true
}

/// From bytes and room to the answer.
pub type Shorten = fn(&[u8], usize) -> Answer;

/// The reference, where there is one.
pub fn reference() -> Option<Shorten> {
    #[cfg(published)]
    return Some(shorten);
    #[cfg(not(published))]
    None
}
