//! Prints what each strategy chooses for every n from 0 to 10 and every k on
//! nine patterns of free labels: the expected output of crates/walk_table.

use std::io::{self, BufWriter, Write};

use cube_reference::family::STRATEGIES;
use cube_reference::{choose, Answer, MAX_N};

/// Whether a label is free in a pattern: all, none, and seven that are mixed.
fn is_free(pattern: u32, label: u32) -> bool {
    match pattern {
        0 => true,
        1 => false,
        2 => !label.is_multiple_of(3),
        3 => (label * 7 + label / 5) % 11 < 8,
        4 => label % 16 >= 5,
        5 => (label / 2).is_multiple_of(2),
        6 => (label / 4 + label).is_multiple_of(2),
        7 => label % 16 < 11,
        _ => label % 341 != 20,
    }
}

fn main() -> io::Result<()> {
    let mut out = BufWriter::new(io::stdout().lock());
    for n in 0..=MAX_N {
        for k in 0..=n {
            for strategy in STRATEGIES {
                for pattern in 0..9 {
                    write!(out, "{n} {k} {strategy} {pattern} ")?;
                    match choose(strategy, n, k, &|label| is_free(pattern, label)) {
                        Answer::Found { low, stars, tried } => {
                            writeln!(out, "found {low} {stars} {tried}")?
                        }
                        Answer::NoneFree { count } => writeln!(out, "none {count}")?,
                    }
                }
            }
        }
    }
    out.flush()
}
