//! The record: its layout, the examples, and bytes that are no record.

use crate::calls;
use crate::cube::{Cube, BEFORE, HOLDERS, NODES, SIZE};
use crate::loading;
use crate::section::{after, byte_strings, bytes, decimals, ensure, hex, number, same, Outcome};
use crate::section::{fields_end, Guide, Row, Section};

/// The example of a field of two bytes.
pub fn little_endian(_: &Guide, section: &Section) -> Outcome {
    let line = section.line_with("is little-endian")?;
    let value = after(line, "little-endian: ")?;
    same(line, &(value as u16).to_le_bytes(), &bytes(line)?)?;
    Ok(1)
}

/// The fields follow each other to the record's end, where the last node has its
/// places, and where the bytes of one are given every fresh record has them.
pub fn layout(_: &Guide, section: &Section) -> Outcome {
    let rows = section.rows(&["offset", "size", "field", "allowed values"])?;
    let said = after(section.line_with("for every n")?, "It has ")?;
    let end = fields_end(&rows)?;
    ensure([end, said] == [SIZE; 2], || format!("the fields end at {end} of {said}"))?;
    last_node(section, &rows)?;
    let mut tried = 0;
    for (line, cells) in rows {
        let at = number(&cells[0])?;
        for said in byte_strings(&cells[3]) {
            for n in 0..=10 {
                let there = &Cube::fresh(n).record[at..at + said.len()];
                same(&format!("line {line}, n = {n}"), there, &said)?;
                tried += 1;
            }
        }
    }
    Ok(tried)
}

/// The last node's places are those before the ends of the nodes' fields.
fn last_node(section: &Section, rows: &[Row]) -> Result<(), String> {
    let (_, said) =
        section.line_with("The last node")?.split_once("node, 1023").unwrap_or_default();
    let mut places = Vec::new();
    for (_, cells) in rows {
        let (at, size) = (number(&cells[0])?, number(&cells[1])?);
        places.extend((size >= NODES).then_some(at + size - size / NODES));
    }
    ensure(decimals(said) == places, || format!("the last node's places are {places:?}"))
}

/// The record after as many calls of the session as the text says: its head,
/// the rows, and zeros elsewhere, from a place on if the text says one.
pub fn after_calls(guide: &Guide, section: &Section) -> Outcome {
    let line = section.line_with("of the session")?;
    let (calls, _) = line.split_once(" of the session").expect("the line has it");
    let calls = calls.rsplit_once("call").map_or("", |(_, calls)| calls);
    let calls = *decimals(calls).last().ok_or("it isn't said after how many calls")?;
    let record = calls::session_record(guide, calls)?;

    let [[head]] = section.blocks()[..] else { return Err("there isn't one head".to_string()) };
    let head = hex(head);
    ensure(head.len() == HOLDERS, || format!("the head has {} bytes", head.len()))?;
    same("head", &record[..HOLDERS], &head)?;

    let zeros = section.line_with("Every other byte")?;
    let from = if zeros.contains(" from ") { after(zeros, " from ")? } else { 0 };
    ensure(from <= HOLDERS && zeros.ends_with("is 00."), || format!("'{zeros}' isn't understood"))?;
    let rows = section.rows(&["offset", "bytes", "meaning"])?;
    let mut said = head[..from].to_vec();
    said.resize(SIZE, 0);
    for (_, cells) in &rows {
        place(&mut said, cells)?;
    }
    same("record", &record, &said)?;
    Ok(rows.len() + 1)
}

/// Puts a row's bytes at its offset.
pub fn place(record: &mut [u8], cells: &[String]) -> Result<(), String> {
    let (at, said) = (number(&cells[0])?, bytes(&cells[1])?);
    record[at..at + said.len()].copy_from_slice(&said);
    Ok(())
}

/// Each row, in a fresh record, makes every call and loading return 1 and write
/// nothing; so do buffers of the other sizes; what is said to be no fault passes.
pub fn no_record(guide: &Guide, section: &Section) -> Outcome {
    let n = after(section.line_with("a fresh record of")?, "n = ")?;
    let frames = calls::examples(guide)?;
    let mut tried = 0;
    for (line, cells) in section.rows(&["offset", "bytes", "what is wrong"])? {
        let mut cube = Cube::fresh(n);
        place(&mut cube.record, cells)?;
        tried += refused(&cube, &frames).map_err(|what| format!("line {line}: {what}"))?;
    }
    let others = section.line_with("is no fault")?;
    let (sizes, right) = others.split_once("bytes").ok_or("no sizes")?;
    let sizes = decimals(sizes);
    ensure(!sizes.is_empty(), || "no sizes".to_string())?;
    for size in sizes.into_iter().chain([0]) {
        let mut cube = Cube::fresh(n);
        cube.record.resize(size, 0);
        tried += refused(&cube, &frames).map_err(|what| format!("{size} bytes: {what}"))?;
    }
    Ok(tried + no_fault(section, n, right, &frames)?)
}

/// A fresh record passes, so does one with the holder of this sentence, and one
/// with all changes that are no fault. The last loads with the number that is
/// said, the others with 0.
fn no_fault(section: &Section, n: usize, right: &str, frames: &[Vec<u8>]) -> Outcome {
    let fresh = Cube::fresh(n);
    let [mut held, mut changed] = [fresh.clone(), fresh.clone()];
    let row = [after(right, " at ")?.to_string(), right.to_string()];
    let job = (after(right, "job ")? as u16).to_le_bytes();
    same("the holder that is no fault", &job, &bytes(right)?)?;
    place(&mut held.record, &row)?;
    for (_, cells) in section.rows(&["offset", "bytes", "what is no fault"])? {
        place(&mut changed.record, cells)?;
    }
    let due = after(section.line_with("though loading it returns")?, "loading it returns ")?;
    for (cube, due) in [(&fresh, 0), (&held, 0), (&changed, due)] {
        let got = loading::load(&cube.record)?;
        ensure(got == due, || format!("what is no fault loads with {got}, not {due}"))?;
    }
    Ok(3 + passes(&fresh, frames)? + passes(&held, frames)? + passes(&changed, frames)?)
}

/// No call on it is refused 1.
pub fn passes(cube: &Cube, frames: &[Vec<u8>]) -> Outcome {
    for frame in frames {
        let (number, _) = cube.clone().call(frame, 12);
        ensure(number != 1, || format!("{frame:02x?} on a right record returned 1"))?;
    }
    Ok(frames.len())
}

/// Every call on it, and loading it, returns 1 and writes nothing.
pub fn refused(cube: &Cube, frames: &[Vec<u8>]) -> Outcome {
    for frame in frames {
        let mut after = cube.clone();
        let (number, reply) = after.call(frame, 12);
        ensure(number == 1, || format!("{frame:02x?} returned {number}"))?;
        same("record", &after.record, &cube.record)?;
        same("reply", &reply, &[BEFORE; 12])?;
    }
    let number = loading::load(&cube.record)?;
    ensure(number == 1, || format!("it loads with {number}"))?;
    Ok(frames.len() + 1)
}
