//! Prints what the calls give on values and on a record, labels and nodes
//! under several maps, and Gray's two tables: the expected output of
//! crates/value_table.

use std::io::{self, BufWriter, Write};

use cube_reference::frame::{Call, Reply};
use cube_reference::record::Record;
use cube_reference::session::{calls, damaged, make, start, sum, DAMAGES, EACH};
use cube_reference::{gray, label, node, relabel, Map, IDENTITY, MAX_N};

/// One call: the reply by values; number and reply's words by a record; the
/// sum of the state and of the record afterwards. "Calls on values give the
/// same numbers with the state as it came", so one record gives both here.
fn print_call(out: &mut impl Write, place: u32, record: &mut Record, call: Call) -> io::Result<()> {
    match call {
        Call::Good { node } => write!(out, "{place} good {node}; ")?,
        Call::Fault { node } => write!(out, "{place} fault {node}; ")?,
        Call::Repaired { node } => write!(out, "{place} repaired {node}; ")?,
        Call::Relabel => write!(out, "{place} relabel; ")?,
        Call::Request { job, k, strategy } => {
            write!(out, "{place} request {job} {k} {strategy}; ")?
        }
        Call::Release { job } => write!(out, "{place} release {job}; ")?,
        Call::Grow { job, k, strategy } => write!(out, "{place} grow {job} {k} {strategy}; ")?,
    }
    let given = make(record, call);
    match given.reply {
        Reply::Granted { job, lowest, stars, tried } => {
            write!(out, "granted {job} {lowest} {stars} {tried}; ")?
        }
        Reply::Refused { number, tried } => write!(out, "refused {number} {tried}; ")?,
        Reply::Done { value } => write!(out, "done {value}; ")?,
    }
    let [a, b, c, d, e, f] = given.words;
    let sum = sum(record);
    writeln!(out, "{} {a} {b} {c} {d} {e} {f}; {sum} {sum}", given.number)
}

/// The calls of a session, each printed.
fn print_session(out: &mut impl Write, n: u32) -> io::Result<()> {
    let mut record = start(n);
    let before = sum(&record);
    writeln!(out, "session {n}; {before} {before}")?;
    for (place, call) in (0..).zip(calls(n)) {
        print_call(out, place, &mut record, call)?;
    }
    Ok(())
}

fn print_damaged(out: &mut impl Write, damage: u32) -> io::Result<()> {
    let mut record = damaged(damage);
    let before = sum(&record);
    writeln!(out, "damaged {damage}; {before} {before}")?;
    for (place, call) in (0..).zip(EACH) {
        print_call(out, place, &mut record, call)?;
    }
    Ok(())
}

/// The map of the first n directions by which the first goes to b + 1, and
/// each other `a` places further than the one before it, in a ring of n.
fn spread(n: u32, a: u32, b: u32) -> Map {
    let mut map = IDENTITY;
    for i in 0..n {
        map[i as usize] = (1 + (a * i + b) % n) as u8;
    }
    map
}

/// For every step-th number below 2^n: the label of that node, the node of
/// that label, and the node whose label is the number.
fn print_map(out: &mut impl Write, n: u32, step: usize, map: Map) -> io::Result<()> {
    write!(out, "map {n}")?;
    for new in map {
        write!(out, " {new}")?;
    }
    writeln!(out)?;
    for x in (0..1 << n).step_by(step) {
        let label = label(&map, x);
        writeln!(out, "{x} {label} {} {}", node(&map, label), node(&map, x))?;
    }
    Ok(())
}

fn print_maps(out: &mut impl Write) -> io::Result<()> {
    print_map(out, 5, 1, spread(5, 1, 0))?;
    print_map(out, 5, 1, spread(5, 2, 1))?;
    print_map(out, 5, 1, spread(5, 3, 4))?;
    print_map(out, 5, 1, relabel(5, [0, 18, 16]).0)?;
    print_map(out, 6, 1, relabel(6, [21, 29, 5]).0)?;
    print_map(out, 10, 33, spread(10, 1, 0))?;
    print_map(out, 10, 33, spread(10, 3, 2))?;
    print_map(out, 10, 33, spread(10, 9, 9))?;
    print_map(out, 10, 33, relabel(10, [85, 597, 84]).0)?;
    print_map(out, 10, 33, relabel(10, [0, 1023, 512]).0)
}

/// For each number, eight a line: the label at that position, and the
/// position of that label.
fn print_positions(out: &mut impl Write) -> io::Result<()> {
    let mut positions = [0; 1024];
    for position in 0..1024 {
        positions[gray(position) as usize] = position;
    }
    for first in (0..1024).step_by(8) {
        write!(out, "gray {first};")?;
        for x in first..first + 8 {
            write!(out, " {} {}", gray(x), positions[x as usize])?;
        }
        writeln!(out)?;
    }
    Ok(())
}

fn main() -> io::Result<()> {
    let mut out = BufWriter::new(io::stdout().lock());
    for n in 0..=MAX_N {
        print_session(&mut out, n)?;
    }
    for damage in 0..DAMAGES {
        print_damaged(&mut out, damage)?;
    }
    print_maps(&mut out)?;
    print_positions(&mut out)?;
    out.flush()
}
