//! Rows of calls, and their times by several programs.

pub mod drawn;
mod given;
pub mod growths;
mod held;
pub mod limit;
pub mod loads;
pub mod options;
pub mod parts;
pub mod patterns;
pub mod relabels;
pub mod rows;
pub mod stars;
pub mod time;
mod words;
