//! Second program of the partition manager for binary hypercubes.
//!
//! It is written from document 01 ("Partition manager for binary hypercubes")
//! and document 02, the requests after it, alone, and is what the proved
//! program is compared with in test runs.
//! `setup`, `call` and `load` work on byte slices, as the C boundary does;
//! `choose` answers for the five strategies by label, and `family` lists the
//! members of the four that walk a family.

#![forbid(unsafe_code)]

mod best;
pub mod call;
pub mod choose;
pub mod counts;
pub mod cube;
pub mod drawn;
pub mod family;
pub mod fits;
pub mod frame;
pub mod gen;
pub mod growths;
pub mod health;
pub mod load;
pub mod log;
mod noise;
pub mod record;
pub mod rng;
pub mod session;
pub mod stars;
pub mod tally;

pub use call::call;
pub use choose::{choose, Answer};
pub use cube::{label, node, relabel, Map, IDENTITY, MAX_N};
pub use family::{family, gray, Subcube};
pub use frame::Reply;
pub use load::load;
pub use record::setup;
pub use tally::Tally;
