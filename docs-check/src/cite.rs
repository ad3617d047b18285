//! What a piece of text cites: names, with the place that the text gives them,
//! and places.
//!
//! A place is given by "`a`, `b` in PLACE", "`a` of PLACE", "`a` (PLACE)" or
//! "PLACE (`a`, `b`)"; "`a` of `B` in PLACE" is field or case `a` of `B` there.
//! PLACE is a path, in code quotes or not, or a crate's name.

use crate::sources::Sources;

#[derive(Clone, Debug, PartialEq)]
pub enum Token {
    /// What stands between code quotes.
    Span(String),
    /// A path that stands in the text without them.
    Place(String),
    Text(String),
}

pub struct Name {
    pub name: String,
    pub owner: Option<String>,
    pub place: Option<String>,
}

pub fn is_name(span: &str) -> bool {
    let kept = |c: char| c.is_alphanumeric() || "_-′:".contains(c);
    span.starts_with(char::is_alphabetic) && span.chars().all(kept) && !is_bytes(span)
}

pub fn is_bytes(span: &str) -> bool {
    let byte = |w: &str| w.len() == 2 && w.bytes().all(|c| c.is_ascii_hexdigit());
    span.split(' ').all(byte)
}

pub fn is_path(span: &str) -> bool {
    let kept = |c: char| c.is_ascii_alphanumeric() || "_-+./".contains(c);
    span.contains(['/', '.']) && span.chars().all(kept) && span.contains(char::is_alphabetic)
}

pub fn tokens(text: &str, sources: &Sources) -> Vec<Token> {
    let mut tokens = Vec::new();
    for (i, part) in text.split('`').enumerate() {
        if i % 2 == 1 {
            tokens.push(Token::Span(part.to_string()));
        } else {
            let after_span = matches!(tokens.last(), Some(Token::Span(_)));
            plain(part, after_span, sources, &mut tokens);
        }
    }
    tokens
}

/// Text without code quotes: the paths in it, and a crate's name after "in"
/// where a span stands before.
fn plain(text: &str, after_span: bool, sources: &Sources, tokens: &mut Vec<Token>) {
    let mut kept = String::new();
    for word in text.split_inclusive(' ') {
        let core = word.trim_start_matches('(');
        let core = core.trim_end_matches([' ', ',', ';', ':', ')', '.', '"', '\'']);
        let first = core.split('/').next().unwrap_or_default();
        let folder = |part| ["specs", "proofs", "src", "must-fail"].contains(&part);
        let folder = core.split('/').any(folder);
        let known = folder || sources.crates.contains(first) || sources.root.join(first).is_dir();
        let path = is_path(core) && core.contains('/') && known;
        if path || (after_span && kept == " in " && sources.crates.contains(core)) {
            let (before, after) = word.split_once(core).unwrap_or((word, ""));
            kept.push_str(before);
            tokens.push(Token::Text(std::mem::take(&mut kept)));
            tokens.push(Token::Place(core.to_string()));
            kept.push_str(after);
        } else {
            kept.push_str(word);
        }
    }
    tokens.push(Token::Text(kept));
}

/// The names of a text, each list of them with the place that it is given.
pub fn names(tokens: &[Token], sources: &Sources) -> Vec<Name> {
    let mut names = Vec::new();
    let mut at = 0;
    while at < tokens.len() {
        let end = list_end(tokens, at);
        if end == at {
            at += 1;
            continue;
        }
        let (owner, place) = given(tokens, at, end, sources);
        for token in tokens[at..end].iter().step_by(2) {
            if let Token::Span(name) = token {
                names.push(Name { name: name.clone(), owner: owner.clone(), place: place.clone() });
            }
        }
        at = end;
    }
    names
}

/// Where the list of names that begins here ends: names with ", " or " and "
/// between them.
fn list_end(tokens: &[Token], from: usize) -> usize {
    let name = |t: Option<&Token>| matches!(t, Some(Token::Span(s)) if is_name(s));
    if !name(tokens.get(from)) {
        return from;
    }
    let mut end = from + 1;
    let joins = |t: Option<&Token>| matches!(t, Some(Token::Text(s)) if [", ", " and ", ", and "].contains(&s.as_str()));
    while joins(tokens.get(end)) && name(tokens.get(end + 1)) {
        end += 2;
    }
    end
}

/// The owner and the place of the list from `at` to `end`.
fn given(
    tokens: &[Token],
    at: usize,
    end: usize,
    sources: &Sources,
) -> (Option<String>, Option<String>) {
    let text = |i: usize| match tokens.get(i) {
        Some(Token::Text(s)) => s.as_str(),
        _ => "",
    };
    let place = |i: usize| match tokens.get(i) {
        Some(Token::Place(s)) => Some(s.clone()),
        Some(Token::Span(s)) if is_path(s) || sources.crates.contains(s) => Some(s.clone()),
        _ => None,
    };
    let path = |i: usize| place(i).filter(|s| is_path(s));
    if at >= 2 && text(at - 1) == " (" && text(end).starts_with(')') {
        if let Some(place) = path(at - 2) {
            return (None, Some(place));
        }
    }
    match text(end) {
        " in " | " of " => match (place(end + 1), tokens.get(end + 1)) {
            (Some(place), _) => (None, Some(place)),
            (None, Some(Token::Span(owner))) if text(end) == " of " && is_name(owner) => {
                let place = if text(end + 2) == " in " { place(end + 3) } else { None };
                (Some(owner.clone()), place)
            }
            _ => (None, None),
        },
        " (" if text(end + 2).starts_with(')') => (None, path(end + 1)),
        _ => (None, None),
    }
}
