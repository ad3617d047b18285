//! Holds every page to the repository: what it cites in code quotes, every path
//! and every link must be there. What can't be looked up is told by page and
//! line, and fails. `docs-check`, from the repository's root.

use std::collections::{BTreeMap, HashSet};
use std::ffi::OsStr;
use std::path::{Path, PathBuf};

use cube_docs::cite::{self, Name, Token};
use cube_docs::page::{Kind, Page, Piece};
use cube_docs::sources::Sources;

/// What stands in code quotes and is nothing of this repository. Each must
/// stand on some page.
const WORDS: [&str; 17] = [
    "rt",
    "libcube.a",
    "target/staticlib/libcube.a",
    "N passed, 0 failed",
    "first.c",
    "job 7 got node 0",
    "ensures",
    "requires",
    "memcpy",
    "memset",
    "Dec",
    "printf '\\x06\\x00\\x01\\x03\\x01\\x00' > my.log",
    "xxd -r -p",
    "search - 1",
    "dim",
    "RECORD.new",
    "RECORD.lock",
];

struct Check {
    sources: Sources,
    files: HashSet<String>,
    faults: Vec<String>,
    counts: BTreeMap<&'static str, usize>,
    words: HashSet<String>,
}

/// Where a piece stands: its page, its line, and the crate that its heading
/// names.
struct At<'a> {
    page: &'a Page,
    line: usize,
    of: Option<String>,
}

fn main() {
    let root = std::env::current_dir().expect("a folder to run in");
    let sources = Sources::read(&root).expect("the sources can be read");
    let files = files(&root);
    let pages = pages(&files);
    let mut check = Check {
        files: files.iter().filter_map(|f| f.file_name()).map(name_of).collect(),
        sources,
        faults: Vec::new(),
        counts: BTreeMap::new(),
        words: HashSet::new(),
    };
    for page in &pages {
        check.page(page);
    }
    check.whole(&pages);
    let counts: Vec<String> = check.counts.iter().map(|(what, n)| format!("{n} {what}")).collect();
    if check.faults.is_empty() {
        println!("docs: {} pages, all found: {}", pages.len(), counts.join(", "));
    } else {
        check.faults.iter().for_each(|fault| println!("{fault}"));
        println!("docs: faults: {}", check.faults.len());
        std::process::exit(1);
    }
}

fn name_of(name: &OsStr) -> String {
    name.to_string_lossy().into_owned()
}

/// The pages: docs/*.md and each README.md, but not docs/PORT.md,
/// docs/DESIGN-PASS.md and docs/LOOK-BACK.md, which set what was beside what is.
fn pages(files: &[PathBuf]) -> Vec<Page> {
    let in_docs = |path: &Path| path.parent().is_some_and(|folder| folder.ends_with("docs"));
    let old = ["docs/PORT.md", "docs/DESIGN-PASS.md", "docs/LOOK-BACK.md"];
    let of_old = |path: &Path| old.iter().any(|page| path.ends_with(page));
    let is_page =
        |path: &Path| path.extension().is_some_and(|e| e == "md") && in_docs(path) && !of_old(path);
    let pages = files.iter().filter(|path| is_page(path) || path.ends_with("README.md"));
    pages.map(|path| Page::read(path).expect("a page can be read")).collect()
}

/// All files but those that are made, in the order of their names.
fn files(folder: &Path) -> Vec<PathBuf> {
    let mut found = Vec::new();
    for entry in std::fs::read_dir(folder).expect("a folder can be read") {
        let path = entry.expect("a folder can be read").path();
        if !path.is_dir() {
            found.push(path);
        } else if !["target", "out", ".git"].iter().any(|made| path.ends_with(made)) {
            found.extend(files(&path));
        }
    }
    found.sort();
    found
}

impl Check {
    fn count(&mut self, what: &'static str) {
        *self.counts.entry(what).or_default() += 1;
    }

    fn fault(&mut self, at: &At, what: &str) {
        let page = at.page.path.strip_prefix(&self.sources.root).unwrap_or(&at.page.path);
        self.faults.push(format!("{}:{}: {what}", page.display(), at.line));
    }

    fn page(&mut self, page: &Page) {
        let before: usize = self.counts.values().sum();
        for piece in &page.pieces {
            let at = At { page, line: piece.line, of: self.crate_of(piece) };
            match &piece.kind {
                Kind::Code(_) => {}
                Kind::Heading => self.text(&at, &piece.heading),
                Kind::Text(text) => self.text(&at, text),
                Kind::Row { header, cells } => {
                    cells.iter().for_each(|cell| self.text(&at, cell));
                    if let Some(column) = header.iter().position(|name| name == "file") {
                        self.row(&at, &cells[0], &cells[column]);
                    }
                }
            }
        }
        if self.counts.values().sum::<usize>() == before {
            self.faults.push(format!("{}: cites nothing", page.path.display()));
        }
    }

    /// The crate that stands in the heading's parentheses.
    fn crate_of(&self, piece: &Piece) -> Option<String> {
        let (_, name) = piece.heading.split_once("(`")?;
        let (name, _) = name.split_once("`)")?;
        self.sources.crates.contains(name).then(|| name.to_string())
    }

    fn text(&mut self, at: &At, text: &str) {
        self.links(at, text);
        let tokens = cite::tokens(text, &self.sources);
        for name in cite::names(&tokens, &self.sources) {
            self.name(at, &name);
        }
        for token in &tokens {
            match token {
                Token::Place(path) => self.path(at, path),
                Token::Span(span) if !cite::is_name(span) => self.span(at, span),
                _ => {}
            }
        }
    }

    /// A row that has a file: what its first cell names, but for parentheses,
    /// is defined there, and each file has some of it.
    fn row(&mut self, at: &At, cell: &str, files: &str) {
        let outside: String = cell.split('(').map(|s| s.rsplit(')').next().unwrap_or(s)).collect();
        let names = cite::names(&cite::tokens(&outside, &self.sources), &self.sources);
        let files: Vec<&str> = files.split(", ").collect();
        let places: Vec<PathBuf> = files.iter().filter_map(|f| self.place(at, f)).collect();
        for Name { name, .. } in &names {
            match places.iter().any(|place| self.sources.defines(place, None, name)) {
                true => self.count("names of a row with a file"),
                false => {
                    self.fault(at, &format!("`{name}` is not defined in {}", files.join(", ")))
                }
            }
        }
        for (place, file) in places.iter().zip(&files) {
            if !names.iter().any(|name| self.sources.defines(place, None, &name.name)) {
                self.fault(at, &format!("{file} defines nothing of the row"));
            }
        }
        if names.is_empty() || places.len() != files.len() {
            self.fault(at, "a row without names, or with a file that is not there");
        }
    }

    fn links(&mut self, at: &At, text: &str) {
        for part in text.split("](").skip(1) {
            let target = part.split(')').next().unwrap_or_default();
            let (file, anchor) = target.split_once('#').unwrap_or((target, ""));
            let folder = at.page.path.parent().expect("a page stands in a folder");
            let path = if file.is_empty() { at.page.path.clone() } else { folder.join(file) };
            let there = match anchor {
                "" => path.exists(),
                _ => Page::read(&path).is_ok_and(|p| p.anchors().iter().any(|a| a == anchor)),
            };
            match there {
                true => self.count("links"),
                false => self.fault(at, &format!("the link {target} leads nowhere")),
            }
        }
    }

    /// A file or folder as a page names it: in the heading's crate, from the
    /// root or `crates/`, or beside the page.
    fn place(&self, at: &At, name: &str) -> Option<PathBuf> {
        let of = at.of.as_ref().map(|of| format!("{of}/{name}"));
        let beside = at.page.path.parent().map(|folder| folder.join(name));
        of.and_then(|name| self.sources.place(&name))
            .or_else(|| self.sources.place(name))
            .or_else(|| beside.filter(|path| path.exists()))
    }

    fn name(&mut self, at: &At, cited: &Name) {
        let Name { name, owner, place } = cited;
        if let Some(place) = place {
            let Some(path) = self.place(at, place) else {
                return self.fault(at, &format!("there is no {place}"));
            };
            let there = self.sources.defines(&path, owner.as_deref(), name)
                || (owner.is_none() && path.join(name).exists());
            return match there {
                true => self.count("names with a place"),
                false => self.fault(at, &format!("`{name}` is not defined in {place}")),
            };
        }
        if let Some((first, rest)) = name.split_once("::") {
            if self.sources.crates.contains(first) {
                let path = self.sources.root.join("crates").join(first);
                return match self.sources.defines(&path, None, rest) {
                    true => self.count("names with a place"),
                    false => self.fault(at, &format!("{first} has no `{rest}`")),
                };
            }
        }
        let owned = |owner: &String| {
            self.sources.defined.iter().any(|d| d.name == *name && d.owner == *owner)
        };
        if owner.as_ref().map_or(self.sources.knows(name), owned) {
            self.count("other names");
        } else if self.sources.place(name).is_some() || self.in_some_crate(name) {
            self.count("files and folders");
        } else {
            self.word(at, name);
        }
    }

    fn in_some_crate(&self, name: &str) -> bool {
        let crates = self.sources.root.join("crates");
        let name = name.trim_end_matches('/');
        self.sources.crates.iter().any(|of| exists(&crates.join(of), name))
    }

    fn path(&mut self, at: &At, path: &str) {
        let edit = path.split_once('/').map(|(of, label)| format!("{of}/must-fail/{label}.edit"));
        if path.starts_with("target/") {
            self.word(at, path); // what is built may be there or not
        } else if self.place(at, path).is_some() || self.in_some_crate(path) {
            self.count("files and folders");
        } else if edit.is_some_and(|edit| self.sources.place(&edit).is_some()) {
            self.count("must-fail edits");
        } else if !path.contains('/') && self.files.contains(path) {
            self.count("files and folders");
        } else {
            self.word(at, path);
        }
    }

    /// A span that is no name: bytes, a path, a command, a call, a quotation.
    fn span(&mut self, at: &At, span: &str) {
        let first = span.split([' ', '(']).next().unwrap_or_default();
        let knows = |name: &str| self.sources.programs.contains(name) || name == "rt";
        if cite::is_bytes(span) {
            self.count("byte strings");
        } else if cite::is_path(span) {
            self.path(at, span);
        } else if span.contains(' ') && (knows(first) || self.sources.root.join(first).is_file()) {
            self.count("commands");
        } else if span.ends_with(')') && cite::is_name(first) && self.sources.knows(first) {
            self.count("other names");
        } else if is_line(span) {
            self.count("lines of a log's output");
        } else if self.sources.texts.iter().any(|text| quotes(text, span)) {
            self.count("quotations");
        } else {
            self.word(at, span);
        }
    }

    fn word(&mut self, at: &At, word: &str) {
        if WORDS.contains(&word) {
            self.words.insert(word.to_string());
            self.count("other words");
        } else {
            self.fault(at, &format!("`{word}` is nowhere in the repository"));
        }
    }

    /// What only all pages together can show.
    fn whole(&mut self, pages: &[Page]) {
        for word in WORDS.iter().filter(|word| !self.words.contains(**word)) {
            self.faults.push(format!("`{word}` is among the words and on no page"));
        }
        if pages.len() < 2 || self.counts.len() < 10 {
            self.faults.push(format!("too little was looked up: {:?}", self.counts));
        }
    }
}

/// Whether the path is there, a word in capitals standing for any name.
fn exists(folder: &Path, path: &str) -> bool {
    let (first, rest) = path.split_once('/').unwrap_or((path, ""));
    if first.is_empty() {
        return folder.exists();
    }
    if first.chars().any(|c| !c.is_ascii_uppercase()) {
        return exists(&folder.join(first), rest);
    }
    std::fs::read_dir(folder)
        .is_ok_and(|mut entries| entries.any(|e| e.is_ok_and(|e| exists(&e.path(), rest))))
}

/// Whether the text has the parts of the quotation in order, `..` standing for
/// anything between them.
fn quotes(text: &str, quotation: &str) -> bool {
    let mut rest = text;
    quotation.split("..").map(str::trim).all(|part| match rest.split_once(part) {
        Some((_, after)) => {
            rest = after;
            true
        }
        None => false,
    })
}

/// A line that the log program prints, or its form.
fn is_line(span: &str) -> bool {
    let mut words = span.split(' ');
    let place = |w: &str| w == "PLACE" || w.bytes().all(|c| c.is_ascii_digit());
    match (words.next(), words.next()) {
        (Some("total"), Some(_)) => true,
        (Some(first), Some(outcome)) => {
            place(first) && ["setup", "done", "granted", "refused"].contains(&outcome)
        }
        _ => false,
    }
}
