//! The log program: document 01, "Log program".

use std::io::{self, BufReader, BufWriter, Read, Write};

use crate::call::call;
use crate::cube::MAX_N;
use crate::frame::{field, Reply};
use crate::record::{setup, Record, SIZE};
use crate::tally::Tally;

/// The kind of a set-up frame, which only a log's first frame has.
pub const SETUP: u16 = 0x0301;

/// Reads a log and prints each frame's place and outcome, then the counts.
pub fn run(input: impl Read, output: impl Write) -> io::Result<Tally> {
    run_up_to(u32::MAX, input, output)
}

/// As `run`, but reads no further after `most` frames.
pub fn run_up_to(most: u32, input: impl Read, output: impl Write) -> io::Result<Tally> {
    run_on(&mut [0; SIZE], most, input, output)
}

/// The record that a log leaves; all zero if it has no right set-up.
pub fn record_after(input: impl Read) -> io::Result<Record> {
    let mut record = [0; SIZE];
    run_on(&mut record, u32::MAX, input, io::sink())?;
    Ok(record)
}

fn run_on(
    record: &mut Record,
    most: u32,
    input: impl Read,
    output: impl Write,
) -> io::Result<Tally> {
    let mut input = BufReader::with_capacity(1 << 16, input);
    let mut output = BufWriter::with_capacity(1 << 16, output);
    let mut tally = Tally::default();
    read_log(record, most, &mut input, &mut output, &mut tally)?;
    writeln!(output, "{tally}")?;
    output.flush()?;
    Ok(tally)
}

fn read_log(
    record: &mut Record,
    most: u32,
    input: &mut impl Read,
    output: &mut impl Write,
    tally: &mut Tally,
) -> io::Result<()> {
    let mut bytes = vec![0; 1 << 16];
    let mut place = 0;
    while place < most {
        let next = next_frame(input, &mut bytes)?;
        place += 1;
        let (reply, goes_on) = match next {
            Next::End => break,
            Next::Broken => (Reply::refuse(3), false),
            Next::Frame(frame) if place == 1 => match first(frame, record) {
                Ok(n) => {
                    tally.add_setup();
                    writeln!(output, "1 setup {n}")?;
                    continue;
                }
                Err(number) => (Reply::refuse(number), false),
            },
            Next::Frame(frame) => (later(frame, record), true),
        };
        tally.add_reply(&reply);
        print(output, place, &reply)?;
        if !goes_on {
            break;
        }
    }
    Ok(())
}

/// What the input has next: a whole frame, nothing, or neither.
enum Next<'a> {
    Frame(&'a [u8]),
    End,
    Broken,
}

fn next_frame<'a>(input: &mut impl Read, bytes: &'a mut [u8]) -> io::Result<Next<'a>> {
    match fill(input, &mut bytes[..2])? {
        0 => return Ok(Next::End),
        1 => return Ok(Next::Broken),
        _ => {}
    }
    let length = usize::from(field(bytes, 0));
    if length < 4 || fill(input, &mut bytes[2..length])? < length - 2 {
        return Ok(Next::Broken);
    }
    Ok(Next::Frame(&bytes[..length]))
}

/// Reads until the bytes are full or the input ends; gives how many it read.
fn fill(input: &mut impl Read, bytes: &mut [u8]) -> io::Result<usize> {
    let mut filled = 0;
    while filled < bytes.len() {
        match input.read(&mut bytes[filled..]) {
            Ok(0) => break,
            Ok(count) => filled += count,
            Err(error) if error.kind() == io::ErrorKind::Interrupted => {}
            Err(error) => return Err(error),
        }
    }
    Ok(filled)
}

/// The first frame, its length being right: n, or the number 4, 5 or 7.
fn first(frame: &[u8], record: &mut Record) -> Result<u16, u16> {
    if field(frame, 2) != SETUP {
        return Err(4);
    }
    if frame.len() != 6 {
        return Err(5);
    }
    let n = field(frame, 4);
    if u32::from(n) > MAX_N {
        return Err(7);
    }
    setup(record, n.into());
    Ok(n)
}

/// A later frame. A set-up's kind is no call's.
fn later(frame: &[u8], record: &mut Record) -> Reply {
    let mut bytes = [0; 12];
    call(record, frame, &mut bytes);
    Reply::read(&bytes).expect("a record from set-up gets a reply to every frame")
}

fn print(output: &mut impl Write, place: u32, reply: &Reply) -> io::Result<()> {
    match reply {
        Reply::Granted { job, lowest, stars, tried } => {
            writeln!(output, "{place} granted {job} {lowest} {stars} {tried}")
        }
        Reply::Refused { number, tried } => writeln!(output, "{place} refused {number} {tried}"),
        Reply::Done { value } => writeln!(output, "{place} done {value}"),
    }
}
