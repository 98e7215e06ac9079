//! What the sources define: the names of definitions, records, fields, constructors, functions and clauses, each with its file.
//! What a comment says, or a proof binds on its way, is no definition.

use crate::contracts;
use crate::files::texts;
use std::path::Path;

#[derive(Clone, Debug, PartialEq, Eq)]
pub struct Definition {
    pub name: String,
    pub kind: Kind,
    /// The type whose field or constructor it is, or the function whose clause.
    pub of: Option<String>,
    /// Below the repository, `crates/layout/specs/Home.antt`.
    pub file: String,
}

#[derive(Clone, Copy, Debug, PartialEq, Eq)]
pub enum Kind {
    /// A definition, theorem or constant.
    Term,
    /// A record, data type, struct or enum.
    Type,
    /// Of a record or struct.
    Field,
    /// Of a data type or enum.
    Constructor,
    Function,
    /// A named `ensures`.
    Clause,
    /// A name of include/pbm.h.
    Header,
}

/// All definitions of the crates and the header.
pub fn definitions(root: &Path) -> Vec<Definition> {
    let parts: [(&str, &str, Reader); 3] = [
        ("crates", "antt", of_proof_language),
        ("crates", "rt", of_rattle),
        ("include", "h", of_header),
    ];
    let mut all = Vec::new();
    for (folder, ending, read) in parts {
        for (path, text) in texts(&root.join(folder), ending) {
            all.extend(read(&text).into_iter().map(|(name, kind, of)| Definition {
                name,
                kind,
                of,
                file: format!("{folder}/{path}"),
            }));
        }
    }
    all
}

/// A name, what it is, and what it is a part of.
pub type Found = (String, Kind, Option<String>);

type Reader = fn(&str) -> Vec<Found>;

/// The lines of a file in the proof language, without comments and empty lines.
pub fn lines(text: &str) -> impl Iterator<Item = &str> {
    text.lines()
        .map(|line| match line.strip_prefix("--") {
            Some(_) => "",
            None => line.split(" --").next().unwrap().trim_end(),
        })
        .filter(|line| !line.is_empty())
}

fn indent(line: &str) -> usize {
    line.len() - line.trim_start().len()
}

/// Of a file in the proof language: what stands at the level of the file or of a `module`, and the fields and constructors of
/// its types.
pub fn of_proof_language(text: &str) -> Vec<Found> {
    let mut found = Vec::new();
    let mut modules = vec![0];
    let mut inside: Option<(String, Kind)> = None;
    for line in lines(text) {
        let at = indent(line);
        modules.retain(|&level| level <= at);
        let level = *modules.last().unwrap();
        if at == level {
            inside = None;
            if line.trim_start().starts_with("module ") {
                modules.push(level + 2);
            } else if let Some((name, parts)) = type_of(line) {
                found.push((name.clone(), Kind::Type, None));
                inside = Some((name, parts));
            } else {
                found.extend(
                    declared(line)
                        .into_iter()
                        .map(|name| (name, Kind::Term, None)),
                );
            }
        } else if let Some((of, kind)) = inside.as_ref().filter(|_| at == level + 2) {
            let parts = declared(line).into_iter();
            found.extend(parts.map(|name| (name, *kind, Some(of.clone()))));
        }
    }
    found
}

/// `pub record Name ..` or `pub data Name ..`: its name, and what its lines are.
fn type_of(line: &str) -> Option<(String, Kind)> {
    let line = line.trim_start();
    let mut words = line.strip_prefix("pub ").unwrap_or(line).split(' ');
    let parts = match words.next()? {
        "record" => Kind::Field,
        "data" => Kind::Constructor,
        _ => return None,
    };
    Some((words.next()?.to_string(), parts))
}

/// The names that a line gives a type: `abbrev pub name : ..`, `name : ..`, `a b : ..`.
fn declared(line: &str) -> Vec<String> {
    let Some((names, _)) = format!("{line} ")
        .split_once(" : ")
        .map(|(a, b)| (a.to_string(), b.len()))
    else {
        return Vec::new();
    };
    let modifier = |word: &&str| ["abbrev", "unfoldable", "pub"].contains(word);
    let names: Vec<&str> = names.split_whitespace().skip_while(modifier).collect();
    let is_name = |name: &&str| !name.contains(['(', ')', '{', '}', '=', 'λ', '→', ';', ',']);
    match names.iter().all(is_name) {
        true => names.into_iter().map(str::to_string).collect(),
        false => Vec::new(),
    }
}

/// Of a Rattle file.
pub fn of_rattle(text: &str) -> Vec<Found> {
    let mut found = Vec::new();
    for f in contracts::functions(text) {
        let clauses = f.ensures.iter().filter_map(|clause| clause.name.clone());
        found.extend(clauses.map(|name| (name, Kind::Clause, Some(f.name.clone()))));
        found.push((f.name, Kind::Function, None));
    }
    for (name, fields) in contracts::structs(text) {
        let fields = fields.into_iter();
        found.extend(fields.map(|f| (f.name, Kind::Field, Some(name.clone()))));
        found.push((name, Kind::Type, None));
    }
    for (name, variants) in contracts::enums(text) {
        let variants = variants.into_iter();
        found.extend(variants.map(|v| (v, Kind::Constructor, Some(name.clone()))));
        found.push((name, Kind::Type, None));
    }
    found
}

/// Of a C header: every name outside of its comments.
pub fn of_header(text: &str) -> Vec<Found> {
    let mut code = String::new();
    let mut rest = text;
    while let Some((before, behind)) = rest.split_once("/*") {
        code.push_str(before);
        rest = behind.split_once("*/").expect("the comment's end").1;
    }
    code.push_str(rest);
    code.lines()
        .map(|line| line.split("//").next().unwrap())
        .flat_map(|line| line.split(|c: char| !c.is_alphanumeric() && c != '_'))
        .filter(|word| word.starts_with("pbm_"))
        .map(|word| (word.to_string(), Kind::Header, None))
        .collect()
}
