//! Holds docs/formats.md to the proved library and to the log program: every
//! byte string, number and line that is tried comes from the page's tables and
//! blocks. `formats PROGRAM`, from the repository's root; PROGRAM is the log
//! program. A section that has nothing to try fails, and so does a line whose
//! bytes were not tried.

mod calls;
mod cube;
mod formula;
mod loading;
mod log;
mod numbers;
mod records;
mod section;

use std::path::Path;

use cube_docs::page::Page;

use section::{Guide, Outcome, Section};

type Check = fn(&Guide, &Section) -> Outcome;

const SECTIONS: [(&str, Check); 18] = [
    ("Formats", records::little_endian),
    ("The record", records::layout),
    ("Example: a record after two calls", records::after_calls),
    ("Example: a record after a relabel", records::after_calls),
    ("Example: a record after a grant", records::after_calls),
    ("Example: a record after a growth", records::after_calls),
    ("Example: a record after a release", records::after_calls),
    ("Bytes that are no record", records::no_record),
    ("Frames", calls::frames),
    ("Replies", calls::replies),
    ("A session in bytes", calls::session),
    ("A session by best fit", calls::session),
    ("Numbers", numbers::in_order),
    ("A smallest call that meets each", numbers::smallest),
    ("'Tried' with 14", numbers::tried),
    ("Set-up", numbers::set_up),
    ("Loading", loading::numbers),
    ("Records that load, and others", loading::records),
];

fn main() {
    let program = std::env::args().nth(1).expect("the log program's path");
    let page = Page::read(Path::new("docs/formats.md")).unwrap_or_else(|what| panic!("{what}"));
    let guide = Guide::new(page);
    let held = |check: Check, name| check(&guide, &guide.section(name)?);
    let mut outcomes: Vec<(&str, Outcome)> =
        SECTIONS.iter().map(|(name, check)| (*name, held(*check, name))).collect();
    outcomes.push(("Examples", log::examples(&guide, &program)));
    let (mut told, mut faults) = (Vec::new(), Vec::new());
    for (name, outcome) in outcomes {
        match outcome {
            Ok(0) => faults.push(format!("{name}: nothing was tried")),
            Ok(count) => told.push(format!("{name} {count}")),
            Err(what) => faults.push(format!("{name}: {what}")),
        }
    }
    faults
        .extend(guide.unread().iter().map(|line| format!("line {line}: its bytes weren't tried")));
    faults.iter().for_each(|fault| println!("docs/formats.md, {fault}"));
    if !faults.is_empty() {
        std::process::exit(1);
    }
    println!("docs/formats.md, all bytes held to the library: {}", told.join(", "));
}
