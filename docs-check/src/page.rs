//! A page in Markdown, a piece at a time.

use std::path::{Path, PathBuf};

pub struct Page {
    pub path: PathBuf,
    pub pieces: Vec<Piece>,
}

/// A piece of a page: the line it stands on, from 1, the heading it stands
/// under, and what it is.
pub struct Piece {
    pub line: usize,
    pub heading: String,
    pub kind: Kind,
}

pub enum Kind {
    Heading,
    /// A row of a table below its header; the cells of both.
    Row {
        header: Vec<String>,
        cells: Vec<String>,
    },
    /// A block that is indented by four spaces or fenced.
    Code(Vec<String>),
    Text(String),
}

impl Page {
    pub fn read(path: &Path) -> Result<Page, String> {
        let text = std::fs::read_to_string(path).map_err(|e| format!("{}: {e}", path.display()))?;
        Ok(Page { path: path.to_path_buf(), pieces: pieces(&text) })
    }

    /// The anchors of the headings, as links name them.
    pub fn anchors(&self) -> Vec<String> {
        self.pieces.iter().filter(|p| matches!(p.kind, Kind::Heading)).map(Piece::anchor).collect()
    }
}

impl Piece {
    fn anchor(&self) -> String {
        let kept = |c: &char| c.is_alphanumeric() || *c == ' ' || *c == '-' || *c == '_';
        self.heading.to_lowercase().chars().filter(kept).collect::<String>().replace(' ', "-")
    }
}

fn pieces(text: &str) -> Vec<Piece> {
    let mut pieces: Vec<Piece> = Vec::new();
    let mut heading = String::new();
    let mut header: Option<Vec<String>> = None;
    let mut fenced = false;
    for (line, text) in (1..).zip(text.lines()) {
        let fence = text.starts_with("```");
        let code = fenced || fence || text.starts_with("    ");
        fenced ^= fence;
        let kind = if code {
            if let Some(Piece { kind: Kind::Code(block), .. }) = pieces.last_mut() {
                block.push(text.trim().to_string());
                continue;
            }
            Kind::Code(vec![text.trim().to_string()])
        } else if let Some(title) = text.strip_prefix('#') {
            heading = title.trim_start_matches('#').trim().to_string();
            Kind::Heading
        } else if text.starts_with('|') {
            let cells = cells(text);
            match &header {
                None => {
                    header = Some(cells);
                    continue;
                }
                Some(_) if cells.iter().all(|c| c.chars().all(|c| c == '-')) => continue,
                Some(header) => Kind::Row { header: header.clone(), cells },
            }
        } else {
            Kind::Text(text.to_string())
        };
        if !matches!(kind, Kind::Row { .. }) {
            header = None;
        }
        pieces.push(Piece { line, heading: heading.clone(), kind });
    }
    pieces
}

fn cells(row: &str) -> Vec<String> {
    let row = row.trim().trim_start_matches('|');
    let row = row.strip_suffix('|').unwrap_or(row);
    row.split('|').map(|cell| cell.trim().to_string()).collect()
}
