//! Independent checks of the Read and Tidy operations, written from the paper.

pub mod bench;
pub mod compact;
pub mod compare;
pub mod damage;
pub mod file;
pub mod generate;
pub mod generate_tidy;
pub mod reader;
pub mod record;
pub mod rng;
pub mod tidy;
pub mod tidy_vectors;
pub mod vectors;

pub use reader::read;
pub use tidy::tidy;
