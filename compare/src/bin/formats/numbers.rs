//! The numbers of refusals, 'tried' with 14, and set-up.

use cube_proved as proved;
use cube_reference::record::{CONDITIONS, GOOD};

use crate::cube::{Cube, BEFORE, HOLDERS, SIZE};
use crate::formula;
use crate::loading;
use crate::section::{after, byte_strings, bytes, decimals, ensure, hex, number, same, Outcome};
use crate::section::{Guide, Row, Section};

const SMALLEST: [&str; 4] = ["number", "record", "frame", "reply buffer afterwards"];

/// The numbers in the order of their checks.
const ORDER: [usize; 16] = [1, 18, 2, 3, 4, 5, 6, 7, 8, 9, 10, 11, 17, 12, 13, 14];

/// The table has the numbers in order, and each that a call can meet is met by
/// a row of the smallest calls, whose reply is as the table says; these leave the
/// whole record. One that loading alone meets is shown there.
pub fn in_order(guide: &Guide, section: &Section) -> Outcome {
    let rows = section.rows(&["number", "cause", "met by", "reply"])?;
    let smallest = guide.section("A smallest call that meets each")?.rows(&SMALLEST)?;
    let left = after(section.line_with("Every refusal leaves")?, "leaves all ")?;
    ensure(left == SIZE, || format!("{left} bytes of the record are said to be left"))?;
    for ((line, cells), due) in rows.iter().zip(ORDER) {
        ensure(number(&cells[0])? == due, || format!("line {line}: not {due}"))?;
        if cells[2] == "loading" {
            let shown = cells[3] == "none" && loading::is_shown(guide, &cells[0])?;
            ensure(shown, || format!("line {line}: no record that loads with it"))?;
            continue;
        }
        let met: Vec<&Row> = smallest.iter().filter(|(_, row)| row[0] == cells[0]).collect();
        ensure(!met.is_empty(), || format!("line {line}: no smallest call"))?;
        let writes = |row: &Row| !byte_strings(&row.1[3]).is_empty();
        let said = cells[3].starts_with(&format!("refused {}", cells[0]));
        ensure(met.iter().all(|row| writes(row) == said), || format!("line {line}: the reply"))?;
    }
    ensure(rows.len() == ORDER.len(), || format!("there are {} numbers", rows.len()))?;
    Ok(rows.len())
}

/// The record that the text calls so: the frames in its part of the sentence,
/// on a fresh cube.
fn named(text: &str, name: &str) -> Result<Cube, String> {
    let n = after(text, "n = ")?;
    let quoted = format!("\"{name}\"");
    let part = text.split(';').find(|part| part.to_lowercase().contains(&quoted));
    let part = part.ok_or(format!("it isn't said what {name} is"))?;
    let mut cube = Cube::fresh(n);
    for frame in byte_strings(part) {
        let (number, _) = cube.call(&frame, 12);
        ensure(number == 0, || format!("{name}: {frame:02x?} returned {number}"))?;
    }
    Ok(cube)
}

/// Each call returns its number, leaves its record, and leaves the reply buffer
/// as the row says.
pub fn smallest(_: &Guide, section: &Section) -> Outcome {
    let buffer = section.line_with("where the reply buffer is not said")?;
    let said = (after(buffer, "it has ")?, byte_strings(buffer));
    ensure(said == (12, vec![vec![BEFORE]]), || format!("buffers are {said:02x?}"))?;
    let rows = section.rows(&SMALLEST)?;
    for row in &rows {
        smallest_call(section, row).map_err(|what| format!("line {}: {what}", row.0))?;
    }
    let long = section.line_with("A frame of more than")?;
    let (length, said) = (after(long, "more than ")?, after(long, "meets ")?);
    for length in [length + 1, length + 7, 2 * (length + 1)] {
        let (number, _) = Cube::fresh(0).call(&vec![0; length], 12);
        ensure(number == said, || format!("a frame of {length} bytes returned {number}"))?;
    }
    Ok(rows.len() + 3)
}

fn smallest_call(section: &Section, (_, cells): &Row) -> Result<(), String> {
    let before = match cells[1].as_str() {
        "-" => Cube { record: Vec::new() },
        name => named(section.line_with("\"Fresh\" is")?, name)?,
    };
    let said = byte_strings(&cells[3]).concat();
    let kept = cells[3].ends_with("as it was") || cells[3].ends_with("as they were");
    ensure(kept == said.is_empty(), || format!("'{}' isn't understood", cells[3]))?;
    let length = decimals(&cells[3]).first().copied().filter(|_| kept).unwrap_or(12);
    let mut cube = before.clone();
    let (got, reply) = cube.call(&bytes(&cells[2])?, length);
    ensure(got == number(&cells[0])?, || format!("returned {got}"))?;
    same("record", &cube.record, &before.record)?;
    same("reply", &reply, &if kept { vec![BEFORE; length] } else { said })
}

/// What was tried, of a strategy, n and k.
type Count = (i64, usize, u16, u16);

/// The strategies that walk their family, which the first table counts.
const WALKS: usize = 4;

/// Every n, k and strategy on a cube without a good node, by a request and by
/// a growth: refused 14, with the count that the table's formula gives; then
/// best fit.
pub fn tried(_: &Guide, section: &Section) -> Outcome {
    let rows = section.rows(&["strategy", "k = 0", "k from 1 to n - 1", "k = n, from 1"])?;
    let mut counts: Vec<Count> = Vec::new();
    for (line, cells) in &rows {
        let strategy = number(cells[0].split(' ').next().unwrap_or_default())?;
        named_so(&cells[0], strategy).map_err(|what| format!("line {line}: {what}"))?;
        for n in 0..=10u16 {
            for k in 0..=n {
                let formula = &cells[if k == 0 { 1 } else { 2 + usize::from(k == n) }];
                let said = formula::value(formula, n.into(), k.into())?;
                for got in asked(n, k, strategy, |_| false) {
                    ensure(got == (14, said), || {
                        format!("line {line}, n {n}, k {k}: number and tried {got:?}, not {said}")
                    })?;
                    counts.push((got.1, strategy, n, k));
                }
            }
        }
    }
    ensure(rows.len() == WALKS, || format!("there are {} strategies", rows.len()))?;
    largest_count(section, &counts)?;
    Ok(counts.len() + best_fit_tried(section)?)
}

fn named_so(cell: &str, strategy: usize) -> Result<(), String> {
    let name = proved::STRATEGIES.get(strategy);
    ensure(name.is_some_and(|name| cell.ends_with(name)), || format!("'{cell}' is no strategy"))
}

/// Best fit on a cube without a good node is refused with tried 0. With every
/// other node good it tries what the table's formula gives; with k = 0 it is
/// granted then, and refused with what the formula gives where nothing is.
fn best_fit_tried(section: &Section) -> Outcome {
    let rows = section.rows(&["strategy", "k = 0", "k from 1 to n"])?;
    let [(_, cells)] = rows[..] else { return Err("there isn't one row of best fit".to_string()) };
    let strategy = number(cells[0].split(' ').next().unwrap_or_default())?;
    named_so(&cells[0], strategy)?;
    let mut tried = 0;
    for (n, k) in (0..=10u16).flat_map(|n| (0..=n).map(move |k| (n, k))) {
        let formula = |column: usize| formula::value(&cells[column], n.into(), k.into());
        let most = if n == 0 { 1 } else { formula(2)? };
        let refused = if k == 0 { formula(1)? } else { 0 };
        let due = (if k == 0 { 0 } else { 14 }, most);
        let none = asked(n, k, strategy, |_| false);
        let half = asked(n, k, strategy, |x| x % 2 == 0);
        ensure(none.iter().all(|got| *got == (14, refused)), || {
            format!("best fit, n {n}, k {k}, nothing free: number and tried {none:?}")
        })?;
        ensure(half.iter().all(|got| *got == due), || {
            format!("best fit, n {n}, k {k}, every other free: {half:?}, not {due:?}")
        })?;
        tried += none.len() + half.len();
    }
    Ok(tried)
}

/// Number and 'tried' of a request by job 1, and from k = 1 on of its growth when
/// it holds node 0, on a cube with these nodes good.
fn asked(n: u16, k: u16, strategy: usize, good: fn(usize) -> bool) -> Vec<(usize, i64)> {
    let fields = [1, 0, k as u8, strategy as u8];
    let call = |kind, holder| {
        let mut cube = Cube::fresh(n.into());
        cube.record[HOLDERS] = holder;
        (0..1 << n).filter(|x| good(*x)).for_each(|x| cube.record[CONDITIONS + x] = GOOD);
        let (number, reply) = cube.call(&proved::frame::frame(kind, &fields), 12);
        let tried = if number == 0 { 10 } else { 6 };
        (number, i64::from(u16::from_le_bytes([reply[tried], reply[tried + 1]])))
    };
    let growth = (k != 0).then(|| call(0x0204, 1));
    growth.into_iter().chain([call(0x0201, 0)]).collect()
}

/// The sentence about the largest count: how large, and for which cases alone.
fn largest_count(section: &Section, counts: &[Count]) -> Result<(), String> {
    let line = section.line_with("The largest is")?;
    let most = counts.iter().map(|(got, ..)| *got).max().unwrap_or_default();
    let (n, k) = (after(line, "n = ")?, after(line, "k = ")?);
    let named = |&(_, strategy, at, dim): &Count| {
        line.contains(proved::STRATEGIES[strategy]) && (at.into(), dim.into()) == (n, k)
    };
    let met: Vec<&Count> = counts.iter().filter(|(got, ..)| *got == most).collect();
    ensure(after(line, "largest is ")? as i64 == most && met.iter().all(|c| named(c)), || {
        format!("the largest is {most}, met {} times", met.len())
    })
}

/// What set-up returns and leaves: the head that is shown and zeros, or the
/// buffer as it was.
pub fn set_up(_: &Guide, section: &Section) -> Outcome {
    let right = after(section.line_with("a fresh cube")?, "any buffer of ")?;
    ensure(right == SIZE, || format!("it is said to take {right} bytes"))?;
    let shown = after(section.line_with("comes before")?, "The head for n = ")?;
    let [[head]] = section.blocks()[..] else { return Err("there isn't one head".to_string()) };
    let mut fresh = hex(head);
    ensure(fresh.len() == HOLDERS, || format!("the head has {} bytes", fresh.len()))?;
    fresh.resize(SIZE, 0);
    let cases = set_up_cases(section)?;
    for (size, n, said) in &cases {
        set_up_case(*size, *n, *said, &fresh, shown)?;
    }
    Ok(cases.len())
}

/// The buffers' sizes and the n that are tried, each with the number that the
/// text or the table says.
fn set_up_cases(section: &Section) -> Result<Vec<(usize, usize, usize)>, String> {
    let line = section.line_with("comes before")?;
    let (wrong, n) = (after(line, "a buffer of ")?, after(line, "with n = ")?);
    let largest = after(line, "above ")?;
    let mut cases = vec![(wrong, n, after(line, "gets ")?)];
    let above = line.split_once("there;").and_then(|(_, rest)| rest.split_once("are above"));
    let above = decimals(above.ok_or("no other n")?.0);
    ensure(!above.is_empty(), || "no other n".to_string())?;
    for (row, cells) in section.rows(&["returned", "cause", "buffer afterwards"])? {
        let returned = number(&cells[0])?;
        match cells[1].as_str() {
            "" => cases.extend((0..=largest).map(|n| (SIZE, n, returned))),
            "n above 10" => {
                cases.extend(above.iter().chain([&n]).map(|n| (SIZE, *n, returned)));
            }
            cause if cause == format!("record_len is not {SIZE}") => {
                cases.extend([wrong, 0, SIZE + 1].map(|size| (size, largest, returned)));
            }
            cause => return Err(format!("line {row}: '{cause}' isn't understood")),
        }
        let said = match returned {
            0 => after(&cells[2], "the head below, then ")? == SIZE - HOLDERS,
            _ => cells[2] == "as it was",
        };
        ensure(said, || format!("line {row}: the buffer afterwards"))?;
    }
    Ok(cases)
}

fn set_up_case(
    size: usize,
    n: usize,
    said: usize,
    fresh: &[u8],
    shown: usize,
) -> Result<(), String> {
    let mut buffer = vec![BEFORE; size];
    let got = proved::setup(&mut buffer, n as u32) as usize;
    ensure(got == said, || format!("{size} bytes, n = {n}: returned {got}, not {said}"))?;
    if said != 0 {
        same(&format!("{size} bytes, n = {n}"), &buffer, &vec![BEFORE; size])
    } else if n == shown {
        same(&format!("n = {n}"), &buffer, fresh)
    } else {
        let other = [&fresh[..4], &[n as u8], &fresh[5..]].concat();
        same(&format!("n = {n}"), &buffer, &other)
    }
}
