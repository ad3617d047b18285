//! The loading call: its numbers, and records that load and that don't.

use cube_proved as proved;
use cube_reference::record::{CONDITIONS, FAULTY};

use crate::calls;
use crate::cube::{Cube, BEFORE};
use crate::records::{passes, place, refused};
use crate::section::{after, byte_strings, bytes, decimals, ensure, number, same};
use crate::section::{Guide, Outcome, Row, Section};

const RECORDS: &str = "Records that load, and others";
const ROWS: [&str; 4] =
    ["returned", "holders, from 16 on", "star bits, from 3088 on", "what they are"];

/// What loading a record returns; the record is left as it was.
pub fn load(record: &[u8]) -> Result<usize, String> {
    let lent = record.to_vec();
    let number = proved::load(&lent) as usize;
    same("the record that was loaded", &lent, record)?;
    Ok(number)
}

fn rows(guide: &Guide) -> Result<Vec<Row<'_>>, String> {
    guide.section(RECORDS)?.rows(&ROWS)
}

/// Whether a row shows a record that loads with this number.
pub fn is_shown(guide: &Guide, said: &str) -> Result<bool, String> {
    Ok(rows(guide)?.iter().any(|(_, cells)| cells[0] == said))
}

/// Each number has a record that shows it, in this order; every record of the
/// sessions loads with 0.
pub fn numbers(guide: &Guide, section: &Section) -> Outcome {
    let said = section.rows(&["returned", "cause"])?;
    let order: Vec<&str> = said.iter().map(|(_, cells)| cells[0].as_str()).collect();
    ensure(order == ["0", "1", "18"], || format!("the numbers are {order:?}"))?;
    let first: Vec<usize> = decimals(section.line_with("comes before")?);
    ensure(first.starts_with(&[1, 18]), || "'1 comes before 18' isn't said".to_string())?;
    for (line, cells) in &said {
        ensure(is_shown(guide, &cells[0])?, || format!("line {line}: no record shows it"))?;
    }
    let sessions = calls::session_records(guide)?;
    let due = after(section.line_with("each of the sessions")?, "loads with ")?;
    for (place, record) in sessions.iter().enumerate() {
        let got = load(record)?;
        ensure(got == due, || format!("the sessions' record {place}, from 0: {got}"))?;
    }
    Ok(said.len() + sessions.len())
}

/// The record of a row.
fn record_of(n: usize, cells: &[String]) -> Result<Cube, String> {
    let mut cube = Cube::fresh(n);
    for (header, cell) in ROWS.iter().zip(cells).skip(1).take(2) {
        let filled = bytes(cell)?.len();
        ensure(filled == 2 << n, || format!("{filled} bytes are not those of 2^{n} nodes"))?;
        place(&mut cube.record, &[after(header, "from ")?.to_string(), cell.to_string()])?;
    }
    Ok(cube)
}

/// Each row loads with its number, also with its nodes faulty. One that has 1
/// is refused by every call, the others by none with 1.
pub fn records(guide: &Guide, section: &Section) -> Outcome {
    let n = after(section.line_with("a fresh record of")?, "n = ")?;
    let frames = calls::examples(guide)?;
    let mut tried = 0;
    let mut refusals = Vec::new();
    for (line, cells) in rows(guide)? {
        let fault = |what: String| format!("line {line}: {what}");
        let cube = record_of(n, cells).map_err(fault)?;
        let due = number(&cells[0])?;
        let mut faulty = cube.clone();
        faulty.record[CONDITIONS..CONDITIONS + (1 << n)].fill(FAULTY);
        let got = [load(&cube.record)?, load(&faulty.record)?];
        ensure(got == [due; 2], || fault(format!("loads with {got:?}")))?;
        let judge = if due == 1 { refused } else { passes };
        tried += 2 + judge(&cube, &frames).map_err(fault)?;
        if due == 18 {
            refusals.push(cube);
        }
    }
    Ok(tried + served(section, refusals)?)
}

/// The release that is shown gives back all nodes of its job on each of these;
/// the reply that is shown is one of them.
fn served(section: &Section, cubes: Vec<Cube>) -> Outcome {
    let line = section.line_with("are served all the same")?;
    let [release, shown] = &byte_strings(line)[..] else {
        return Err("a release and a reply aren't shown".to_string());
    };
    let mut replies = Vec::new();
    for mut cube in cubes {
        let held = cube.holders().filter(|job| **job == release[4..6]).count();
        let (number, reply) = cube.call(release, 12);
        let due = [&[6, 0, 3, 0x80, held as u8, 0], &[BEFORE; 6][..]].concat();
        ensure(number == 0, || format!("the release returned {number}"))?;
        same("the release's reply", &reply, &due)?;
        replies.push(reply);
    }
    let there = replies.iter().any(|reply| reply.starts_with(shown) && shown.len() == 6);
    ensure(there, || "no release is replied so".to_string())?;
    Ok(replies.len())
}
