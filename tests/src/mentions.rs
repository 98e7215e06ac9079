//! What a document names in backquotes, and whether the sources define it, where the document says that it stands.

use crate::definitions::{Definition, Kind};
use crate::documents::cells;
use std::path::Path;

/// What a document may set in backquotes that no source defines: words of the language and of the toolchain, the variables of the
/// random tests, the folder that programs are built to, a function of the C library, and a line that is typed.
const OTHER_WORDS: &[&str] = &[
    "requires",
    "&mut",
    "rt",
    "rt ci",
    "SEED",
    "HISTORIES",
    "build/",
    "memmove",
    "3 2 1",
];

/// Names of the prover's libraries that expressions begin with.
const LIBRARY: &[&str] = &["List", "length", "true", "false"];

/// Variables beside those of one letter (docs/READING.md, Letters).
const VARIABLES: &[&str] = &["bs", "img", "len", "room", ".."];

/// The sources that names are looked up in.
pub struct Sources<'a> {
    pub root: &'a Path,
    pub definitions: &'a [Definition],
}

/// A piece of text in which a list of names may have one file: a cell of a table, an item, a paragraph. What is fenced is none.
pub fn blocks(document: &str) -> Vec<String> {
    let mut all = vec![String::new()];
    let mut is_fenced = false;
    for line in document.lines() {
        if line.starts_with("```") {
            is_fenced = !is_fenced;
            all.push(String::new());
        } else if is_fenced {
            continue;
        } else if line.starts_with('>') {
            all.push(String::new()); // the words of another document
        } else if line.starts_with('|') {
            all.extend(line.split('|').map(str::to_string));
            all.push(String::new());
        } else if line.trim().is_empty() || line.starts_with("- ") || line.starts_with('#') {
            all.push(line.to_string());
        } else {
            let block = all.last_mut().unwrap();
            block.push(' ');
            block.push_str(line.trim());
        }
    }
    all
}

/// The rows of the tables of a section, each by its cells.
pub fn table<'a>(document: &'a str, section: &str) -> Vec<Vec<&'a str>> {
    let title = format!("{section}\n");
    let mut sections = document.split("\n## ");
    let text = sections.find(|text| text.starts_with(&title));
    text.unwrap_or("").lines().filter_map(cells).collect()
}

/// What a cell sets in backquotes.
pub fn in_backquotes(cell: &str) -> Vec<&str> {
    mentions(cell).into_iter().map(|(_, name)| name).collect()
}

/// What a block sets in backquotes, each with the text before it.
fn mentions(block: &str) -> Vec<(&str, &str)> {
    let pieces: Vec<&str> = block.split('`').collect();
    pieces.chunks_exact(2).map(|two| (two[0], two[1])).collect()
}

/// What stands between two names of one list.
fn is_comma(between: &str) -> bool {
    [", ", " and ", ", and "].contains(&between)
}

/// How many things a document sets in backquotes, and those that the sources do not have as it says.
pub fn faults(document: &str, sources: &Sources) -> (usize, Vec<String>) {
    let mut seen = 0;
    let mut faults = Vec::new();
    for block in blocks(document) {
        let all = mentions(&block);
        seen += all.len();
        for (at, &(_, name)) in all.iter().enumerate() {
            let place = place_of(&all, at);
            let found = match place {
                Some(place) if sources.is_path(place) => sources.has(name, Some(place)),
                Some(whole) => sources.is_part(name, whole),
                None => sources.has(name, None) && sources.is_with_others(&all, at),
            };
            if !found {
                let place = place.map_or(String::new(), |p| format!(" of {p}"));
                faults.push(format!("{name}{place}"));
            }
        }
    }
    (seen, faults)
}

/// The file, crate, type or function that stands after a name, or after the list that it is in: "`a`, `b` (`file`)", "`a` and
/// `b` of `whole`". (Of "`a`, `b` of `whole`" a type or function is said to have b alone.)
fn place_of<'a>(all: &[(&str, &'a str)], at: usize) -> Option<&'a str> {
    let (between, next) = all.get(at + 1)?;
    match *between {
        " of " => Some(next),
        " (" | " (in " if next.contains('/') => Some(next),
        comma if is_comma(comma) && !next.contains('/') => {
            place_of(all, at + 1).filter(|place| comma == " and " || place.contains('/'))
        }
        _ => None,
    }
}

impl Sources<'_> {
    fn is_path(&self, name: &str) -> bool {
        name.contains('/') || self.is_crate(name)
    }

    fn is_crate(&self, name: &str) -> bool {
        !name.is_empty() && !name.contains('.') && self.root.join("crates").join(name).is_dir()
    }

    /// Whether the sources have the thing, in this file, folder or crate if one is given.
    pub fn has(&self, name: &str, place: Option<&str>) -> bool {
        if OTHER_WORDS.contains(&name) || (self.is_crate(name) && place.is_none()) {
            return true;
        }
        if name.contains('/') {
            return self.has_path(name);
        }
        let here: Vec<&Definition> = self
            .definitions
            .iter()
            .filter(|d| stands_in(d, place))
            .collect();
        if let Some((whole, field)) = field_of(name) {
            return is_field(&here, field, whole);
        }
        self.has_expression(name, &here)
    }

    /// A path of the repository or below crates/, or a must-fail edit by `crate/edit`.
    fn has_path(&self, name: &str) -> bool {
        let crates = self.root.join("crates");
        let (folder, edit) = name.rsplit_once('/').unwrap();
        let edit = crates
            .join(folder)
            .join("must-fail")
            .join(format!("{edit}.edit"));
        self.root.join(name).exists() || crates.join(name).exists() || edit.exists()
    }

    /// Whether it is a field, constructor or clause of this type or function; of another thing it need only be there.
    fn is_part(&self, name: &str, whole: &str) -> bool {
        let has_parts = |d: &Definition| d.of.as_deref() == Some(whole);
        match self.definitions.iter().any(has_parts) {
            true => self
                .definitions
                .iter()
                .any(|d| d.name == name && has_parts(d)),
            false => self.has(name, None),
        }
    }

    /// Names that follow `Record.field` in a list are fields of that record too.
    fn is_with_others(&self, all: &[(&str, &str)], at: usize) -> bool {
        let name = all[at].1;
        let mut first = at;
        while first > 0 && is_comma(all[first].0) {
            first -= 1;
            if let Some((whole, _)) = field_of(all[first].1) {
                let here: Vec<&Definition> = self.definitions.iter().collect();
                return field_of(name).is_some() || is_field(&here, name, whole);
            }
        }
        true
    }

    /// An expression. What it begins with is defined where the document says, and what each bracket begins with is a definition or
    /// constructor; a word after a dot is a field; every other word is a variable or defined somewhere. (`f.blocks`: what a dot
    /// follows may be a variable.)
    fn has_expression(&self, text: &str, here: &[&Definition]) -> bool {
        let text = text.trim_start_matches('&').trim_start_matches("mut ");
        let spaced = text.replace('(', " ( ").replace(')', " ");
        let words: Vec<&str> = spaced.split_whitespace().collect();
        let Some(first) = words.iter().position(|&word| word != "(") else {
            return false;
        };
        let library = LIBRARY.contains(&words[first]);
        (library || here.iter().any(|d| d.name == words[first]))
            && (first + 1..words.len()).all(|at| self.has_word(&words, at))
    }

    /// The same of one of the words after the first.
    fn has_word(&self, words: &[&str], at: usize) -> bool {
        let word = words[at];
        let is_any = |kinds: &[Kind], name: &str| {
            let is = |d: &Definition| d.name == name && kinds.contains(&d.kind);
            self.definitions.iter().any(is)
        };
        if let Some((what, field)) = projection(word) {
            let is_there = what.is_empty() || is_variable(what) || is_any(&[Kind::Term], what);
            return is_there && is_any(&[Kind::Field], field);
        }
        let begins = words[at - 1] == "(";
        word == "("
            || is_any(&[Kind::Term, Kind::Constructor], word)
            || (!begins && (is_variable(word) || LIBRARY.contains(&word)))
            || (!begins && is_any(&[Kind::Type, Kind::Field], word))
    }
}

/// `x.field`; of what stands in brackets, before this word, only `.field`.
fn projection(word: &str) -> Option<(&str, &str)> {
    word.split_once('.')
        .filter(|(_, field)| !field.starts_with('.'))
}

/// `Record.field`
fn field_of(name: &str) -> Option<(&str, &str)> {
    name.split_once('.')
        .filter(|(whole, field)| !whole.contains(['/', ' ']) && !field.starts_with('.'))
}

fn is_variable(word: &str) -> bool {
    word.chars().count() == 1 || VARIABLES.contains(&word) || word.parse::<u64>().is_ok()
}

fn is_field(here: &[&Definition], name: &str, whole: &str) -> bool {
    let is = |d: &&&Definition| d.name == name && d.kind == Kind::Field;
    here.iter()
        .filter(is)
        .any(|d| d.of.as_deref() == Some(whole))
}

/// Whether a definition stands in a file, or in a folder or crate; paths are below the repository or below crates/.
fn stands_in(d: &Definition, place: Option<&str>) -> bool {
    let Some(place) = place else { return true };
    let place = place.trim_end_matches('/');
    let below = d.file.strip_prefix("crates/").unwrap_or(&d.file);
    let is_in = |path: &str| path == place || path.starts_with(&format!("{place}/"));
    is_in(&d.file) || is_in(below)
}
