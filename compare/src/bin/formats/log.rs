//! The log: the examples, run by the log program.

use std::io::Write;
use std::process::{Command, Stdio};

use crate::section::{byte_strings, bytes, ensure, fields_end, hex, same, Guide, Outcome};

/// What the program prints for a log.
fn printed(program: &str, log: &[u8]) -> Result<String, String> {
    let told = |e: std::io::Error| format!("{program}: {e}");
    let mut child =
        Command::new(program).stdin(Stdio::piped()).stdout(Stdio::piped()).spawn().map_err(told)?;
    child.stdin.take().expect("its input is a pipe").write_all(log).map_err(told)?;
    let output = child.wait_with_output().map_err(told)?;
    String::from_utf8(output.stdout).map_err(|e| e.to_string())
}

/// Blocks in pairs, a log and what it prints, and the table of short logs.
pub fn examples(guide: &Guide, program: &str) -> Outcome {
    let section = guide.section("Examples")?;
    let blocks = section.blocks();
    ensure(blocks.len() % 2 == 0 && blocks.len() >= 2, || "the blocks aren't pairs".to_string())?;
    let forms = forms(guide)?;
    for pair in blocks.chunks(2) {
        let log = hex(&pair[0].join(" "));
        tried(program, &log, pair[1], &forms)?;
    }
    let file = section.line_with(".log`")?.split('`').nth(1).unwrap_or_default();
    let stored = std::fs::read(file).map_err(|e| format!("{file}: {e}"))?;
    same(file, &stored, &hex(&blocks[0].join(" ")))?;

    let rows = section.rows(&["log", "first line", "counts"])?;
    for (_, cells) in &rows {
        let log = if cells[0] == "empty" { Vec::new() } else { bytes(&cells[0])? };
        let line = |cell: &String| cell.trim_matches('`').to_string();
        let lines = cells[1..].iter().filter(|cell| *cell != "none").map(line);
        tried(program, &log, &lines.collect::<Vec<String>>(), &forms)?;
    }
    stops(guide, &rows.iter().map(|(_, cells)| cells[1].as_str()).collect::<Vec<&str>>())?;
    set_up_frame(guide, &hex(&blocks[0].join(" ")))?;
    Ok(blocks.len() / 2 + rows.len())
}

fn tried(program: &str, log: &[u8], lines: &[String], forms: &[Vec<&str>]) -> Result<(), String> {
    let said: String = lines.iter().map(|line| format!("{line}\n")).collect();
    let got = printed(program, log)?;
    ensure(got == said, || format!("{log:02x?} prints\n{got}and the page has\n{said}"))?;
    let fits = |line: &String| forms.iter().any(|form| fits(form, line));
    match lines.iter().find(|line| !fits(line)) {
        Some(line) => Err(format!("'{line}' has none of the forms of Output")),
        None => Ok(()),
    }
}

/// The forms of a line, by words; a word in capitals stands for a number.
fn forms(guide: &Guide) -> Result<Vec<Vec<&str>>, String> {
    let rows = guide.section("Output")?.rows(&["line", "fields"])?;
    Ok(rows.iter().map(|(_, cells)| cells[0].trim_matches('`').split(' ').collect()).collect())
}

fn fits(form: &[&str], line: &str) -> bool {
    let words: Vec<&str> = line.split(' ').collect();
    let capitals = |w: &str| w.chars().all(|c| c.is_ascii_uppercase());
    let number = |w: &str| w.parse::<u32>().is_ok_and(|n| n.to_string() == w);
    words.len() == form.len()
        && form.iter().zip(words).all(|(f, w)| if capitals(f) { number(w) } else { *f == w })
}

/// Each line at which a log stops is the first line of one of the short logs.
fn stops(guide: &Guide, shown: &[&str]) -> Result<(), String> {
    let section = guide.section("Where a log stops")?;
    for (line, cells) in section.rows(&["at the place of a frame", "line", "then"])? {
        let first = cells[1].replace("PLACE", "1");
        let there = first == "none" || shown.contains(&first.as_str());
        ensure(there, || format!("line {line}: no short log prints {first}"))?;
    }
    Ok(())
}

/// The first frame of a log has the length and the kind of the set-up frame.
fn set_up_frame(guide: &Guide, log: &[u8]) -> Result<(), String> {
    let section = guide.section("The log")?;
    let rows = section.rows(&["offset", "size", "field", "allowed values"])?;
    let said: Vec<u8> =
        rows.iter().flat_map(|(_, cells)| byte_strings(&cells[3]).concat()).collect();
    let end = fields_end(&rows)?;
    ensure(end == usize::from(log[0]), || format!("the fields end at {end}"))?;
    ensure(said.len() == 4, || format!("length and kind are {said:02x?}"))?;
    same("the set-up frame", &log[..4], &said)
}
