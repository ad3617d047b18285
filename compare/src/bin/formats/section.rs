//! A section of the page, and what its cells and sentences say.

use std::cell::RefCell;
use std::collections::HashSet;

use cube_docs::cite::is_bytes;
use cube_docs::page::{Kind, Page, Piece};

/// How many things were tried, or what was found otherwise.
pub type Outcome = Result<usize, String>;

/// The page, and the lines of it that were read.
pub struct Guide {
    page: Page,
    read: RefCell<HashSet<usize>>,
}

pub struct Section<'a> {
    guide: &'a Guide,
    pieces: Vec<&'a Piece>,
}

/// A row: its line on the page and its cells.
pub type Row<'a> = (usize, &'a [String]);

impl Guide {
    pub fn new(page: Page) -> Guide {
        Guide { page, read: RefCell::new(HashSet::new()) }
    }

    pub fn section<'a>(&'a self, name: &str) -> Result<Section<'a>, String> {
        let pieces: Vec<&Piece> = self.page.pieces.iter().filter(|p| p.heading == name).collect();
        match pieces.is_empty() {
            true => Err(format!("there is no section {name}")),
            false => Ok(Section { guide: self, pieces }),
        }
    }

    /// The lines that have bytes and were not read.
    pub fn unread(&self) -> Vec<usize> {
        let has_bytes = |piece: &&Piece| match &piece.kind {
            Kind::Heading => false,
            Kind::Row { cells, .. } => cells.iter().any(|cell| !byte_strings(cell).is_empty()),
            Kind::Code(_) => true,
            Kind::Text(text) => !byte_strings(text).is_empty(),
        };
        let lines = self.page.pieces.iter().filter(has_bytes).map(|piece| piece.line);
        lines.filter(|line| !self.read.borrow().contains(line)).collect()
    }
}

impl<'a> Section<'a> {
    /// What `wanted` takes of the pieces; those lines are read.
    fn take<T>(&self, wanted: impl Fn(&'a Piece) -> Option<T>) -> Vec<T> {
        let mut taken = Vec::new();
        for piece in &self.pieces {
            if let Some(found) = wanted(piece) {
                self.guide.read.borrow_mut().insert(piece.line);
                taken.push(found);
            }
        }
        taken
    }

    /// The rows of the table whose header is this.
    pub fn rows(&self, wanted: &[&str]) -> Result<Vec<Row<'a>>, String> {
        let rows = self.take(|piece| match &piece.kind {
            Kind::Row { header, cells } if header == wanted => Some((piece.line, &cells[..])),
            _ => None,
        });
        match rows.is_empty() {
            true => Err(format!("there is no table {wanted:?}")),
            false => Ok(rows),
        }
    }

    pub fn blocks(&self) -> Vec<&'a [String]> {
        self.take(|piece| match &piece.kind {
            Kind::Code(lines) => Some(&lines[..]),
            _ => None,
        })
    }

    /// The sentence or paragraph that has these words.
    pub fn line_with(&self, words: &str) -> Result<&'a str, String> {
        let lines = self.take(|piece| match &piece.kind {
            Kind::Text(text) if text.contains(words) => Some(text.as_str()),
            _ => None,
        });
        lines.first().copied().ok_or(format!("no line has '{words}'"))
    }
}

/// The bytes between code quotes, in each pair of quotes that has bytes.
pub fn byte_strings(text: &str) -> Vec<Vec<u8>> {
    text.split('`').skip(1).step_by(2).filter(|span| is_bytes(span)).map(hex).collect()
}

/// The one byte string of a cell; a dash is none.
pub fn bytes(cell: &str) -> Result<Vec<u8>, String> {
    match &byte_strings(cell)[..] {
        [one] => Ok(one.clone()),
        [] if cell == "-" => Ok(Vec::new()),
        _ => Err(format!("'{cell}' is not one byte string")),
    }
}

pub fn hex(text: &str) -> Vec<u8> {
    let byte = |word| u8::from_str_radix(word, 16).expect("two hexadecimal digits");
    text.split_whitespace().map(byte).collect()
}

pub fn number(text: &str) -> Result<usize, String> {
    let number = match text.strip_prefix("0x") {
        Some(digits) => usize::from_str_radix(digits, 16),
        None => text.parse(),
    };
    number.map_err(|_| format!("'{text}' is not a number"))
}

/// The decimal numbers of a text, in order.
pub fn decimals(text: &str) -> Vec<usize> {
    let digits = text.split(|c: char| !c.is_ascii_digit());
    digits.filter_map(|word| word.parse().ok()).collect()
}

/// The first number behind these words.
pub fn after(text: &str, words: &str) -> Result<usize, String> {
    let rest = text.split_once(words).map(|(_, rest)| rest);
    let found = rest.and_then(|rest| decimals(rest).first().copied());
    found.ok_or(format!("no number stands behind '{words}'"))
}

/// Fields follow each other from offset 0 on, each with its size; gives where
/// they end. The last may have no size.
pub fn fields_end(rows: &[Row]) -> Result<usize, String> {
    let mut end = 0;
    for (line, cells) in rows {
        ensure(number(&cells[0])? == end, || format!("line {line}: the offset isn't {end}"))?;
        end += if cells[1].is_empty() { 0 } else { number(&cells[1])? };
    }
    Ok(end)
}

pub fn ensure(holds: bool, otherwise: impl FnOnce() -> String) -> Result<(), String> {
    match holds {
        true => Ok(()),
        false => Err(otherwise()),
    }
}

pub fn same(what: &str, got: &[u8], said: &[u8]) -> Result<(), String> {
    let place = got.iter().zip(said).position(|(a, b)| a != b);
    let place = place.unwrap_or(got.len().min(said.len()));
    let at = |bytes: &[u8]| bytes[place..].iter().take(16).copied().collect::<Vec<u8>>();
    ensure(got == said, || {
        format!(
            "{what}: from {place} on the page has {:02x?}, the library {:02x?}",
            at(said),
            at(got)
        )
    })
}
