//! What a document holds that can be wrong: the rows of its tables, what it fences, its formulas and numbers. Its sentences are free.

use crate::files::texts;
use crate::program::root;
use std::fs;

/// By its path below the root.
pub struct Document {
    pub path: String,
    pub text: String,
}

impl Document {
    pub fn read(path: &str) -> Document {
        let text = fs::read_to_string(root().join(path)).expect(path);
        Document::new(path, text)
    }

    /// Of a header the margin of its comments is taken away.
    fn new(path: &str, text: String) -> Document {
        let text = match path.ends_with(".h") {
            true => text.replace("\n * ", "\n").replace("\n *\n", "\n\n"),
            false => text,
        };
        let path = path.to_string();
        Document { path, text }
    }

    /// README.md, CHANGES.md and all that is below docs/.
    pub fn all() -> Vec<Document> {
        let below = texts(&root().join("docs"), "md");
        let below = below.into_iter().map(|(path, text)| {
            let path = format!("docs/{path}");
            Document::new(&path, text)
        });
        let first = ["README.md", "CHANGES.md"].map(Document::read);
        first.into_iter().chain(below).collect()
    }

    /// What is fenced under this word, without the margin that a fence has in a list.
    pub fn fences(&self, word: &str) -> Vec<String> {
        let mut all = Vec::new();
        let mut fence: Option<(bool, usize, Vec<&str>)> = None;
        for line in self.text.lines() {
            let inner = line.trim_start();
            match (&mut fence, inner.strip_prefix("```")) {
                (None, Some(tag)) => {
                    fence = Some((tag == word, line.len() - inner.len(), Vec::new()))
                }
                (Some((is_asked, _, lines)), Some(_)) => {
                    if *is_asked {
                        all.push(lines.join("\n"));
                    }
                    fence = None;
                }
                (Some((_, margin, lines)), None) => lines.push(line.get(*margin..).unwrap_or("")),
                (None, None) => {}
            }
        }
        all
    }

    /// The one fence that has this line.
    pub fn fence(&self, word: &str, line: &str) -> String {
        let mut fences = self.fences(word);
        fences.retain(|fence| fence.lines().any(|l| l == line));
        assert_eq!(fences.len(), 1, "{}: fences with {line}", self.path);
        fences.remove(0)
    }

    /// The rows of its tables, each by its cells.
    fn rows(&self) -> impl Iterator<Item = Vec<&str>> {
        self.text.lines().filter_map(cells)
    }

    /// The further cells of the one row that begins with these.
    pub fn row(&self, begin: &str) -> Vec<&str> {
        let begin = cells(begin).expect("a row");
        let mut rows = self.rows().filter(|row| row.starts_with(&begin));
        let row = rows.next();
        let row = row.unwrap_or_else(|| panic!("{} has no row {begin:?}", self.path));
        assert!(rows.next().is_none(), "{}: two of {begin:?}", self.path);
        row[begin.len()..].to_vec()
    }

    /// A row has just these numbers, whatever words are between them.
    pub fn has_numbers(&self, wanted: &[u64]) {
        let is_found = self.rows().any(|row| numbers(&row.join(" ")) == wanted);
        assert!(is_found, "{} has no row with {wanted:?}", self.path);
    }

    /// A formula, or a few words with their numbers, wherever a line ends.
    pub fn has(&self, what: &str) {
        let is_word = |word: &&str| word.chars().filter(char::is_ascii_alphabetic).count() > 1;
        let words = what.split_whitespace().filter(is_word).count();
        assert!(words <= 8, "a sentence is not to be pinned: {what}");
        let is_found = joined(&self.text).contains(&joined(what));
        assert!(is_found, "{} does not have: {what}", self.path);
    }
}

/// The cells of a line, if it is a row of a table.
pub fn cells(line: &str) -> Option<Vec<&str>> {
    let row = line.trim().strip_prefix('|')?.strip_suffix('|')?;
    Some(row.split('|').map(str::trim).collect())
}

fn joined(text: &str) -> String {
    text.split_whitespace().collect::<Vec<_>>().join(" ")
}

/// The numbers of a text; there may be commas between their thousands.
pub fn numbers(text: &str) -> Vec<u64> {
    let text = text.replace(',', "");
    let words = text.split(|c: char| !c.is_ascii_digit());
    words.filter_map(|word| word.parse().ok()).collect()
}
