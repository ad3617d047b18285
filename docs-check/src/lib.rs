//! The repository's pages as headings, table rows, code and sentences; what the
//! sources define; and what a piece of a page cites.

pub mod cite;
pub mod page;
pub mod sources;
