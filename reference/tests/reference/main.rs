//! The reference program held to documents 01 and 02 and to the sources they cite.

mod best_fit;
mod blocks;
mod families;
mod generator;
mod growth;
mod held;
mod history;
mod lists;
mod load;
mod log;
mod no_waste;
mod placed;
mod records;
mod refusals;
mod relabel;
mod replies;
mod sessions;
mod sources;
mod stars;
mod support;
mod value_table;
mod waste;
