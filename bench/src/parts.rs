//! All rows, in parts.

use crate::options::Options;
use crate::rows::{self, Row};
use crate::{drawn, growths, loads, patterns, relabels, stars};

/// Rows with a title, and whether each of them is of interest by itself.
pub struct Part {
    pub title: String,
    pub rows: Vec<Row>,
    pub each: bool,
}

/// The dimensions at which each call is timed.
const SOME: [u32; 3] = [4, 7, 10];

/// The rows of each sort of call.
fn calls() -> Vec<Part> {
    let part = |title: &str, rows| Part { title: title.to_string(), rows, each: true };
    vec![
        part("each call", SOME.into_iter().flat_map(rows::calls).collect()),
        part("on drawn cubes", SOME.into_iter().flat_map(drawn::rows).collect()),
        part("each growth", SOME.into_iter().flat_map(each_growth).collect()),
        part("relabel by what isn't good", SOME.into_iter().flat_map(relabels::rows).collect()),
        part("on a relabelled cube", SOME.into_iter().map(rows::relabelled).collect()),
        part("by holders and star bits", SOME.into_iter().flat_map(stars::rows).collect()),
        part("how cost grows with n", (0..=10).flat_map(rows::grown).collect()),
    ]
}

fn each_growth(n: u32) -> impl Iterator<Item = Row> {
    rows::growths(n).into_iter().chain(growths::drawn(n))
}

/// The parts that are asked for.
pub fn all(options: &Options) -> Vec<Part> {
    let patterns = patterns::plain(10)
        .chain(patterns::relabelled(10))
        .chain(patterns::small(7))
        .chain(patterns::small(4))
        .chain(growths::all())
        .chain(loads::all());
    let patterns = patterns.map(|(title, rows)| Part { title, rows, each: false });
    calls().into_iter().chain(patterns).filter(|part| options.wants(&part.title)).collect()
}
