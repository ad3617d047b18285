//! Document 003's simulation on the proved library, and one of jobs that grow.
//! `cube-utilization` writes docs/utilization.md and docs/utilization.svg; `cube-utilization --check`
//! makes a few of the document's figures again.

mod check;
mod cube;
mod document;
mod growth;
mod lists;
mod paper;
mod plot;
mod simulate;
mod study;
mod tables;

use std::fs;
use std::path::Path;

fn main() -> std::io::Result<()> {
    let docs = Path::new(env!("CARGO_MANIFEST_DIR")).join("../docs");
    let page = docs.join("utilization.md");
    if std::env::args().nth(1).as_deref() == Some("--check") {
        check::check(&fs::read_to_string(page)?);
        return Ok(());
    }
    let results = study::results(&document::cells());
    fs::write(page, document::document(&results, &growth::results(&tables::growth_cases())))?;
    fs::write(docs.join("utilization.svg"), plot::plot(&results, &document::proved()))
}
