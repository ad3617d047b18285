//! What the repository holds: files, programs, and what each source defines.

use std::collections::HashSet;
use std::path::{Path, PathBuf};

/// A definition: its file, the record, data type or type it belongs to, or "",
/// and its name.
pub struct Defined {
    pub file: PathBuf,
    pub owner: String,
    pub name: String,
}

pub struct Sources {
    pub root: PathBuf,
    pub crates: HashSet<String>,
    pub programs: HashSet<String>,
    pub defined: Vec<Defined>,
    /// The text of the crates' sources, a space where there was white space.
    pub texts: Vec<String>,
}

impl Sources {
    pub fn read(root: &Path) -> std::io::Result<Sources> {
        let mut sources = Sources {
            root: root.to_path_buf(),
            crates: HashSet::new(),
            programs: HashSet::new(),
            defined: Vec::new(),
            texts: Vec::new(),
        };
        for entry in std::fs::read_dir(root.join("crates"))? {
            sources.crates.insert(entry?.file_name().to_string_lossy().into_owned());
        }
        sources.folder(root)?;
        Ok(sources)
    }

    fn folder(&mut self, folder: &Path) -> std::io::Result<()> {
        for entry in std::fs::read_dir(folder)? {
            let path = entry?.path();
            let name = path.file_name().unwrap_or_default().to_string_lossy().into_owned();
            if path.is_dir() {
                if !["target", "out", ".git"].contains(&name.as_str()) {
                    self.folder(&path)?;
                }
            } else if name == "Cargo.toml" {
                self.programs.extend(std::fs::read_to_string(&path)?.lines().filter_map(program));
            } else {
                self.file(&path)?;
            }
        }
        Ok(())
    }

    fn file(&mut self, path: &Path) -> std::io::Result<()> {
        let defines: fn(&str) -> Vec<(String, String)> =
            match path.extension().and_then(|e| e.to_str()) {
                Some("antt") => definitions,
                Some("rt" | "rs") => items,
                Some("h") => declarations,
                Some("c") => {
                    self.programs
                        .extend(path.file_stem().map(|s| s.to_string_lossy().into_owned()));
                    declarations
                }
                _ => return Ok(()),
            };
        let text = std::fs::read_to_string(path)?;
        let file = path.to_path_buf();
        self.defined.extend(defines(&text).into_iter().map(|(owner, name)| Defined {
            file: file.clone(),
            owner,
            name,
        }));
        if path.starts_with(self.root.join("crates")) {
            self.texts.push(text.split_whitespace().collect::<Vec<_>>().join(" "));
        }
        Ok(())
    }

    /// The file or folder that a page calls so: from the root, from `crates/`,
    /// with `.antt` or without.
    pub fn place(&self, name: &str) -> Option<PathBuf> {
        let name = name.trim_end_matches('/');
        let under = [self.root.join(name), self.root.join("crates").join(name)];
        let named = under.iter().flat_map(|path| {
            let file = PathBuf::from(format!("{}.antt", path.display()));
            [path.clone(), file]
        });
        named.into_iter().find(|path| path.exists())
    }

    /// Whether the name is defined there: in the file, in a file of the folder,
    /// or, where the place is a crate's folder, in its code.
    pub fn defines(&self, place: &Path, owner: Option<&str>, name: &str) -> bool {
        let code = place.parent() == Some(&self.root.join("crates"));
        let place = if code { place.join("src") } else { place.to_path_buf() };
        let (owner, name) = match name.split_once("::") {
            Some((owner, name)) => (Some(owner), name),
            None => (owner, name),
        };
        self.defined.iter().any(|d| {
            let methods = d.file.extension().is_some_and(|e| e == "rt");
            d.file.starts_with(&place)
                && d.name == name
                && owner.map_or(d.owner.is_empty() || methods, |owner| d.owner == owner)
        })
    }

    /// Whether anything of the repository is called so.
    pub fn knows(&self, name: &str) -> bool {
        let (owner, last) = name.rsplit_once("::").unwrap_or(("", name));
        let of = |d: &&Defined| d.name == last && (owner.is_empty() || d.owner == owner);
        self.crates.contains(name)
            || self.programs.contains(name)
            || self.defined.iter().any(|d| of(&d))
    }
}

/// `name = "cube-ref"` of a Cargo.toml.
fn program(line: &str) -> Option<String> {
    let name = line.strip_prefix("name = ")?;
    Some(name.trim_matches('"').to_string())
}

/// Of a file of definitions and proofs: signatures, records, data types, and
/// the fields and constructors of these; in the file or in a module's block.
fn definitions(text: &str) -> Vec<(String, String)> {
    let mut found = Vec::new();
    let mut blocks: Vec<(usize, String)> = Vec::new(); // each with its indent and its owner, "" of a module
    for line in text.lines().filter(|line| !line.trim_start().starts_with("--")) {
        let indent = line.len() - line.trim_start().len();
        if line.is_empty() {
            continue;
        }
        while blocks.last().is_some_and(|(at, _)| *at >= indent) {
            blocks.pop();
        }
        if indent != blocks.last().map_or(0, |(at, _)| at + 2) {
            continue;
        }
        let owner = blocks.last().map_or("", |(_, owner)| owner).to_string();
        let words: Vec<&str> = line.split_whitespace().collect();
        let said = words.iter().take_while(|w| ["pub", "abbrev", "unfoldable"].contains(w)).count();
        match words[said..] {
            ["module", ..] => blocks.push((indent, String::new())),
            ["record" | "data", name, ..] => {
                found.push((owner, name.to_string()));
                blocks.push((indent, name.to_string()));
            }
            ["mod" | "use", ..] => {}
            [name] if said > 0 => found.push((owner, name.to_string())),
            ref rest => {
                let names = rest.split(|w| *w == ":").next().filter(|n| n.len() < rest.len());
                found.extend(names.into_iter().flatten().map(|n| (owner.clone(), n.to_string())));
            }
        }
    }
    found
}

/// Of Rattle or Rust: functions, types and constants, and the functions of an
/// `impl`.
fn items(text: &str) -> Vec<(String, String)> {
    let mut found = Vec::new();
    let mut owner = String::new();
    for line in text.lines() {
        let mut words = line.split(|c: char| !(c.is_alphanumeric() || c == '_' || c == '"'));
        let mut words = words.by_ref().filter(|w| !w.is_empty()).peekable();
        let mut next = || words.find(|w| !["pub", "extern", "\"C\"", "unsafe"].contains(w));
        let (first, second) = (next().unwrap_or_default(), next().unwrap_or_default());
        if first == "impl" && !line.starts_with(' ') {
            owner = second.to_string();
        } else if line.starts_with('}') {
            owner.clear();
        } else if ["fn", "struct", "enum", "trait", "const", "static", "type", "mod"]
            .contains(&first)
        {
            found.push((owner.clone(), second.to_string()));
        }
    }
    found
}

/// Of C: the names that stand before a parenthesis at the start of a line.
fn declarations(text: &str) -> Vec<(String, String)> {
    let lines = text.lines().filter(|line| line.starts_with(|c: char| c.is_ascii_alphabetic()));
    let before = lines.filter_map(|line| line.split_once('(').map(|(before, _)| before));
    let name = |before: &str| {
        before.rsplit(|c: char| !(c.is_alphanumeric() || c == '_')).next().map(str::to_string)
    };
    before.filter_map(name).map(|name| (String::new(), name)).collect()
}
