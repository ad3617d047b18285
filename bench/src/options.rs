//! The words of a command line.

use std::process::exit;

/// `--all`, `--only TEXT`, and the files that are named.
#[derive(Default)]
pub struct Options {
    pub all: bool,
    pub only: String,
    pub files: Vec<String>,
}

impl Options {
    pub fn read() -> Options {
        let mut options = Options::default();
        let mut words = std::env::args().skip(1);
        while let Some(word) = words.next() {
            match &word[..] {
                "--all" => options.all = true,
                "--only" => options.only = words.next().unwrap_or_else(usage),
                _ if word.starts_with('-') => usage(),
                _ => options.files.push(word),
            }
        }
        options
    }

    /// Whether a title is one of those asked for.
    pub fn wants(&self, title: &str) -> bool {
        title.contains(&self.only)
    }
}

fn usage<T>() -> T {
    eprintln!("options: --all, --only TEXT");
    exit(2)
}
