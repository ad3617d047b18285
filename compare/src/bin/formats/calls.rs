//! Frames, replies and the session.

use cube_proved::STRATEGIES;

use crate::cube::{Cube, BEFORE};
use crate::section::{after, byte_strings, bytes, decimals, ensure, number, same};
use crate::section::{fields_end, Guide, Outcome, Section};

const FRAMES: [&str; 7] = ["call", "kind", "length", "field at 4", "at 6", "at 7", "example"];
const SESSION: [&str; 5] = ["", "call", "frame", "returned", "reply buffer"];

/// The sessions' sections, the one that examples of records are from first.
const SESSIONS: [&str; 2] = ["A session in bytes", "A session by best fit"];

fn word(bytes: &[u8], at: usize) -> usize {
    usize::from(bytes[at]) + 256 * usize::from(bytes[at + 1])
}

/// The examples of the frames, one of each kind.
pub fn examples(guide: &Guide) -> Result<Vec<Vec<u8>>, String> {
    let rows = guide.section("Frames")?.rows(&FRAMES)?;
    rows.iter().map(|(_, cells)| bytes(&cells[6])).collect()
}

/// Each example has the length, kind and fields of its row, and passes the
/// checks 3 to 5; one byte more is refused 5, and an unknown kind 4.
pub fn frames(guide: &Guide, section: &Section) -> Outcome {
    let rows = section.rows(&FRAMES)?;
    let end = fields_end(&section.rows(&["offset", "size", "field"])?)?;
    ensure(end == 4, || format!("a kind's fields start at {end}"))?;
    let n = session_dimension(&guide.section(SESSIONS[0])?)?;
    let call = |frame: &[u8]| Cube::fresh(n).call(frame, 12).0;
    for (line, cells) in &rows {
        let frame = bytes(&cells[6])?;
        let (kind, length) = (number(&cells[1])?, number(&cells[2])?);
        let sizes: usize = cells[3..6].iter().flat_map(|cell| decimals(cell)).sum();
        let head = (word(&frame, 0), word(&frame, 2), frame.len());
        ensure(head == (length, kind, 4 + sizes) && length == 4 + sizes, || {
            format!("line {line}: length, kind and size of the example are {head:?}")
        })?;
        let (_, meaning) = cells[6].rsplit_once('`').expect("bytes stand in code quotes");
        let said: Vec<usize> = decimals(meaning);
        ensure(fields(&frame, meaning)? == said, || {
            format!("line {line}: the example's fields aren't {said:?}")
        })?;
        let number = call(&frame);
        ensure(!(1..=5).contains(&number), || format!("line {line}: refused {number}"))?;
        let longer = [&[frame[0] + 1], &frame[1..], &[0]].concat();
        ensure(call(&longer) == 5, || format!("line {line}: one byte more isn't refused 5"))?;
        let unknown = [&frame[..3], &[0x7f], &frame[4..]].concat();
        ensure(call(&unknown) == 4, || format!("line {line}: an unknown kind isn't refused 4"))?;
    }
    ensure(rows.len() == 7, || format!("there are {} calls", rows.len()))?;
    Ok(3 * rows.len())
}

/// The numbers that a frame's fields are told by: a request's job and k, with
/// its strategy's name in the text, or the one field.
fn fields(frame: &[u8], text: &str) -> Result<Vec<usize>, String> {
    Ok(match frame.len() {
        8 => {
            let strategy = STRATEGIES.get(usize::from(frame[7]));
            let named = strategy.is_some_and(|name| text.ends_with(name));
            ensure(named, || format!("'{text}' doesn't end in {strategy:?}"))?;
            vec![word(frame, 4), usize::from(frame[6])]
        }
        6 => vec![word(frame, 4)],
        _ => vec![],
    })
}

/// Lengths and kinds of the three replies are those of the sessions' replies,
/// and each example is the reply to one of their calls.
pub fn replies(guide: &Guide, section: &Section) -> Outcome {
    let shown = section.rows(&["offset", "size", "granted", "refused", "done"])?;
    let end = fields_end(&shown)?;
    let mut heads: Vec<Vec<u8>> = vec![Vec::new(); 3];
    for (_, cells) in &shown {
        for (head, cell) in heads.iter_mut().zip(&cells[2..]) {
            head.extend(byte_strings(cell).concat());
        }
    }
    let replies = session_replies(guide)?;
    for head in &heads {
        let size = *head.first().ok_or("a reply without a length")?;
        let has = |reply: &&Vec<u8>| reply.starts_with(head) && head.len() == 4;
        let found: Vec<&Vec<u8>> = replies.iter().filter(has).collect();
        let kept =
            found.iter().all(|reply| reply[usize::from(size)..].iter().all(|b| *b == BEFORE));
        ensure(!found.is_empty() && kept, || format!("no reply is as {head:02x?}"))?;
    }
    let longest = heads.iter().map(|head| usize::from(head[0])).max();
    ensure(longest == Some(end), || format!("the fields end at {end}"))?;
    let rows = section.rows(&["reply", "bytes"])?;
    for (line, cells) in &rows {
        let said = bytes(&cells[1])?;
        ensure(
            replies.iter().any(|reply| reply.starts_with(&said) && said.len() == word(reply, 0)),
            || format!("line {line}: no call of a session is replied so"),
        )?;
    }
    Ok(heads.len() + rows.len())
}

fn session_dimension(section: &Section) -> Result<usize, String> {
    after(section.line_with("fresh cube of")?, "n = ")
}

/// A call of the session was made: the record and the reply buffer afterwards.
struct Done {
    record: Vec<u8>,
    reply: Vec<u8>,
}

/// A session's rows, held to the library one after the other: number, reply
/// buffer, and the frame that the call's words say.
fn run(guide: &Guide, section: &Section) -> Result<Vec<Done>, String> {
    let kinds = guide.section("Frames")?.rows(&FRAMES)?;
    let mut cube = Cube::fresh(session_dimension(section)?);
    let mut done = Vec::new();
    for (line, cells) in section.rows(&SESSION)? {
        let frame = bytes(&cells[2])?;
        ensure(number(&cells[0])? == done.len() + 1, || format!("line {line}: the call's place"))?;
        let name = cells[1].split(' ').next().unwrap_or_default();
        let kind = kinds.iter().find(|(_, cells)| cells[0] == name);
        let kind = number(&kind.ok_or(format!("line {line}: no call {name}"))?.1[1])?;
        let said = decimals(&cells[1]);
        ensure(word(&frame, 2) == kind && fields(&frame, &cells[1])? == said, || {
            format!("line {line}: the frame isn't '{}'", cells[1])
        })?;
        let (number_got, reply) = cube.call(&frame, 12);
        ensure(number_got == number(&cells[3])?, || format!("line {line}: returned {number_got}"))?;
        same(&format!("line {line}, reply"), &reply, &bytes(&cells[4])?)?;
        done.push(Done { record: cube.record.clone(), reply });
    }
    Ok(done)
}

pub fn session(guide: &Guide, section: &Section) -> Outcome {
    let before = byte_strings(section.line_with("Before each call")?);
    ensure(before == [[BEFORE]], || format!("buffers hold {before:02x?}"))?;
    Ok(run(guide, section)?.len())
}

pub fn session_record(guide: &Guide, calls: usize) -> Result<Vec<u8>, String> {
    let done = run(guide, &guide.section(SESSIONS[0])?)?;
    let last = calls.checked_sub(1).and_then(|i| done.get(i));
    last.map(|done| done.record.clone()).ok_or(format!("the session has no call {calls}"))
}

/// The record before each session's first call and after each of its calls.
pub fn session_records(guide: &Guide) -> Result<Vec<Vec<u8>>, String> {
    let mut records = Vec::new();
    for name in SESSIONS {
        let section = guide.section(name)?;
        records.push(Cube::fresh(session_dimension(&section)?).record);
        records.extend(run(guide, &section)?.into_iter().map(|done| done.record));
    }
    Ok(records)
}

fn session_replies(guide: &Guide) -> Result<Vec<Vec<u8>>, String> {
    let mut replies = Vec::new();
    for name in SESSIONS {
        replies.extend(run(guide, &guide.section(name)?)?.into_iter().map(|done| done.reply));
    }
    Ok(replies)
}
