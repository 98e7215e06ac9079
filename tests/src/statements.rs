//! The table "What is proved" of docs/PROVED.md: each row names a statement, a closed type of a file of specs/, and the term
//! that proves it, at the top level of a file of proofs/. So no premise can hide in the term's type.

use crate::definitions::{lines, of_proof_language, Kind};
use crate::mentions::table;
use std::collections::BTreeSet;

/// | `Demand1` | `calls/specs/Theorem.antt` | `demand1` | `calls/proofs/Theorem.antt` | fingerprint | what it says |
#[derive(Clone, Debug, PartialEq, Eq)]
pub struct Row {
    pub statement: String,
    /// The file that defines it, below crates/.
    pub specs: String,
    pub term: String,
    /// The file that has the term, below crates/.
    pub proofs: String,
    /// Of the text of the statement and of every definition that it is made of.
    pub fingerprint: String,
}

/// The rows of the table.
pub fn rows(document: &str) -> Vec<Row> {
    table(document, "What is proved")
        .iter()
        .filter_map(|cells| row(cells))
        .collect()
}

fn row(cells: &[&str]) -> Option<Row> {
    let name = |at: usize| cells.get(at)?.strip_prefix('`')?.strip_suffix('`');
    Some(Row {
        statement: name(0)?.to_string(),
        specs: name(1)?.to_string(),
        term: name(2)?.to_string(),
        proofs: name(3)?.to_string(),
        fingerprint: cells.get(4)?.to_string(),
    })
}

/// The lines that begin something at the top level, each with whether more of it stands indented after it.
fn beginnings(text: &str) -> Vec<(&str, bool)> {
    let all: Vec<&str> = lines(text).collect();
    let goes_on = |at: usize| all.get(at + 1).is_some_and(|next| next.starts_with(' '));
    (0..all.len())
        .map(|at| (all[at], goes_on(at)))
        .filter(|(line, _)| !line.starts_with(' '))
        .collect()
}

/// The closed statements of a file of specs/: what its top level says is a type, of nothing.
pub fn closed(specs: &str) -> Vec<String> {
    let words = |line| str::split_whitespace(line).collect::<Vec<&str>>();
    beginnings(specs)
        .into_iter()
        .filter_map(|(line, goes_on)| match (&words(line)[..], goes_on) {
            (["abbrev" | "unfoldable", "pub", name, ":", "Type", "0"], false) => Some(*name),
            (["pub", name, ":", "Type", "0"], false) => Some(*name),
            (["pub", "record", name, ":", "Type", "0", "where"], _) => Some(*name),
            _ => None,
        })
        .map(str::to_string)
        .collect()
}

/// What a file of specs/ defines a name as, with single spaces: `Demand1 = ..`. A record has no such line.
pub fn definition(specs: &str, name: &str) -> Option<String> {
    let mut all = lines(specs).skip_while(|line| !line.starts_with(&format!("{name} =")));
    let first = all.next()?;
    let more = all.take_while(|line| line.starts_with(' '));
    Some(single_spaced(
        &[vec![first], more.collect()].concat().join(" "),
    ))
}

/// The paragraphs that a document quotes from the specs, each with single spaces: those of its blocks fenced as `antt`.
pub fn quoted(document: &str) -> Vec<String> {
    let fenced = document.split("\n```antt\n").skip(1);
    let blocks = fenced.map(|rest| rest.split("\n```").next().unwrap());
    blocks
        .flat_map(|block| block.split("\n\n"))
        .map(single_spaced)
        .collect()
}

fn single_spaced(text: &str) -> String {
    text.split_whitespace().collect::<Vec<_>>().join(" ")
}

// ---- what a statement is made of

/// A file of specs/: what it defines, and what it takes from others.
pub struct Specs {
    /// Below crates/.
    pub path: String,
    /// Statements, predicates, records, data types and functions: each name with its text.
    pub items: Vec<(String, String)>,
    pub uses: Vec<Use>,
}

impl Specs {
    pub fn of(path: &str, text: &str) -> Specs {
        Specs {
            path: path.to_string(),
            items: items(text),
            uses: uses(text),
        }
    }
}

fn items(specs: &str) -> Vec<(String, String)> {
    let starts = ["abbrev ", "unfoldable ", "pub ", "use "];
    let mut all: Vec<Vec<&str>> = Vec::new();
    for line in lines(specs) {
        match all.last_mut() {
            Some(item) if !starts.iter().any(|s| line.starts_with(s)) => item.push(line),
            _ => all.push(vec![line]),
        }
    }
    let modifier = |word: &&str| ["abbrev", "unfoldable", "pub", "record", "data"].contains(word);
    all.into_iter()
        .filter(|item| !item[0].starts_with("use ") && !item[0].starts_with("pub mod "))
        .filter_map(|item| {
            let name = item[0].split(' ').find(|word| !modifier(word))?;
            Some((name.to_string(), single_spaced(&item.join(" "))))
        })
        .collect()
}

/// A definition of a file of specs/.
#[derive(Clone, Copy, PartialEq, Eq, PartialOrd, Ord)]
pub struct Item<'a> {
    /// With single spaces.
    pub text: &'a str,
    /// Below crates/.
    pub file: &'a str,
    pub name: &'a str,
}

/// A character that can stand in a name.
pub fn is_name(c: char) -> bool {
    c.is_alphanumeric() || "_-'".contains(c)
}

/// What a statement of this file is made of: itself, and every definition that it reaches. A name is that of its own file, or of the one
/// that the file has it from.
pub fn reached<'a>(path: &str, statement: &'a str, all: &'a [Specs]) -> BTreeSet<Item<'a>> {
    let mut reached = BTreeSet::new();
    let mut left: Vec<(&Specs, &str)> = Vec::new();
    left.extend(
        all.iter()
            .filter(|s| s.path == path)
            .map(|s| (s, statement)),
    );
    while let Some((specs, name)) = left.pop() {
        for (item, text) in specs.items.iter().filter(|(item, _)| item == name) {
            let file = &specs.path;
            let name = item;
            if reached.insert(Item { text, file, name }) {
                let words = text.split(|c: char| !is_name(c));
                left.extend(words.map(|word| (specs, word)));
            }
        }
        for u in specs.uses.iter().filter(|u| u.name == name) {
            let from = |s: &&Specs| module(&s.path) == u.module;
            left.extend(all.iter().filter(from).map(|s| (s, u.original.as_str())));
        }
    }
    reached
}

/// The fingerprint of a statement of this file: of the text of all that it is made of. A comment, a line's break, and the file that has a
/// definition are no part of it.
pub fn fingerprint(path: &str, statement: &str, all: &[Specs]) -> String {
    let text: String = reached(path, statement, all)
        .iter()
        .map(|item| format!("{}\n", item.text))
        .collect();
    format!("{:016x}", fnv(text.as_bytes()))
}

/// The hash of Fowler, Noll and Vo, FNV-1a, of 64 bits.
pub fn fnv(bytes: &[u8]) -> u64 {
    bytes.iter().fold(0xcbf2_9ce4_8422_2325, |hash, &byte| {
        (hash ^ u64::from(byte)).wrapping_mul(0x0100_0000_01b3)
    })
}

/// Why a file of specs/ or proofs/ is no part of its crate, if it is not: it has to be declared, and each folder that it is in. What is
/// in a folder is declared in the file of the folder's name beside it, what is in none in Lib.antt.
pub fn undeclared(path: &str, source: impl Fn(&str) -> String) -> Option<String> {
    let mut path = path.trim_end_matches(".antt");
    loop {
        let (folder, name) = path.rsplit_once('/').expect("a file of a crate");
        let is_part = folder.split('/').count() == 2;
        let by = match is_part {
            true => format!("{folder}/Lib.antt"),
            false => format!("{folder}.antt"),
        };
        let declaration = format!("pub mod {name}");
        if !lines(&source(&by)).any(|line| line == declaration) {
            return Some(format!("{by} does not have {name}"));
        }
        if is_part {
            return None;
        }
        path = folder;
    }
}

/// Why the texts do not bear a row out, if they do not.
pub fn fault(row: &Row, specs: &str, proofs: &str) -> Option<String> {
    let Row {
        statement, term, ..
    } = row;
    let in_crate = |path: &str, part: &str| path.split_once(part).map(|(name, _)| name.to_string());
    let of = in_crate(&row.specs, "/specs/");
    if of.is_none() || of != in_crate(&row.proofs, "/proofs/") {
        let files = format!("{} and {}", row.specs, row.proofs);
        return Some(format!("{files} are not specs and proofs of one crate"));
    }
    if !closed(specs).contains(statement) {
        return Some(format!("{statement} is no closed type of {}", row.specs));
    }
    let typed = format!("pub {term} : {statement}");
    let is_term = beginnings(proofs).contains(&(&typed, false));
    let typings = lines(proofs).filter(|line| {
        let line = line.trim_start().trim_start_matches("pub ");
        line.starts_with(&format!("{term} :"))
    });
    if !is_term || typings.count() != 1 {
        let what = format!("{term} of {} is no term of {statement}", row.proofs);
        return Some(format!("{what} at the top level"));
    }
    let defines = |line: &str| line.starts_with(&format!("{term} ")) && line.contains('=');
    if !lines(proofs).any(defines) {
        return Some(format!("{term} is not defined in {}", row.proofs));
    }
    let again = |(name, kind, _): &(String, Kind, _)| name == statement && *kind != Kind::Field;
    if of_proof_language(proofs).iter().any(again) {
        return Some(format!("{statement} is defined again in {}", row.proofs));
    }
    let from: Vec<Use> = uses(proofs)
        .into_iter()
        .filter(|u| u.name == *statement)
        .collect();
    match &from[..] {
        [one] if one.original == *statement && module(&row.specs) == one.module => None,
        _ => Some(format!(
            "{} does not have {statement} from {}: {from:?}",
            row.proofs, row.specs
        )),
    }
}

/// A name that a file takes from another one.
#[derive(Debug)]
pub struct Use {
    pub module: String,
    pub original: String,
    /// What it is called here.
    pub name: String,
}

/// `use Module.{a, b as c}`; in Rattle `ghost use`
pub fn uses(text: &str) -> Vec<Use> {
    let code: String = lines(text).map(|line| format!("{line}\n")).collect();
    let mut all = Vec::new();
    for (at, _) in code.match_indices("use ") {
        let before = code[..at].trim_end_matches("ghost ");
        let is_start = before.is_empty() || before.ends_with('\n');
        let Some((module, rest)) = code[at + 4..].split_once(".{").filter(|_| is_start) else {
            continue;
        };
        // `use Module as name`, with another one after it
        if module.contains(char::is_whitespace) {
            continue;
        }
        let (names, _) = rest.split_once('}').expect("the end of the names");
        for item in names.split(',') {
            let words: Vec<&str> = item.split_whitespace().collect();
            if let (Some(original), Some(name)) = (words.first(), words.last()) {
                all.push(Use {
                    module: module.to_string(),
                    original: original.to_string(),
                    name: name.to_string(),
                });
            }
        }
    }
    all
}

/// The names that a Rattle file takes for its contracts, as the proof language takes them; a list may go on over lines.
pub fn ghost_uses(source: &str) -> String {
    let source = format!("\n{source}");
    let items = source.split("\nghost use ").skip(1);
    let items = items.filter_map(|item| item.split_once(';'));
    items.map(|(item, _)| format!("use {item}\n")).collect()
}

/// What a file of specs/ is called as a module.
fn module(specs: &str) -> String {
    format!(
        "Rattle.{}",
        specs.trim_end_matches(".antt").replace('/', ".")
    )
}
