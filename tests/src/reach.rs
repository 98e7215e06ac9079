//! What a Rattle function reaches: what its text names, what the text of that names, and so on, through all crates. A name is that of
//! its own file, or of the one that the file has it from by a `use`, or it stands after its crate (`access::write`). Which type a method
//! is called of is not looked for: all that have its name are reached, of each trait and each type.

use crate::contracts::{bracketed, functions, members, without_comments};
use std::collections::BTreeSet;

/// A function, type or constant.
pub struct Item {
    pub name: String,
    pub in_crate: String,
    /// Its file, without the ending.
    module: String,
    /// Of a method or a constant of a type or trait, which that is.
    of: Option<String>,
    /// Types and body, without the contract.
    pub text: String,
}

impl Item {
    /// Below crates/.
    pub fn place(&self) -> String {
        let of = self.of.iter().map(|of| format!("{of}::"));
        let name: String = of.chain([self.name.clone()]).collect();
        format!("{name} in {}/src/{}.rt", self.in_crate, self.module)
    }
}

struct File {
    in_crate: String,
    module: String,
    items: Vec<Item>,
    /// The parts of each `use`, but for the ghost ones.
    uses: Vec<Vec<String>>,
}

impl File {
    /// Of `crate/src/module.rt`; another file is none.
    fn of(path: &str, text: &str) -> Option<File> {
        let (in_crate, rest) = path.split_once("/src/")?;
        let module = rest.strip_suffix(".rt")?;
        let (members, text) = members(&without_comments(text));
        let item = |of: Option<&str>, (name, text)| Item {
            name,
            in_crate: in_crate.to_string(),
            module: module.to_string(),
            of: of.map(str::to_string),
            text,
        };
        let of_types = members.iter().flat_map(|m| {
            let all = items(&outdented(&m.inside)).into_iter();
            all.map(|found| item(Some(&m.of), found))
        });
        let alone = items(&text).into_iter().map(|found| item(None, found));
        Some(File {
            in_crate: in_crate.to_string(),
            module: module.to_string(),
            items: alone.chain(of_types).collect(),
            uses: uses(&text),
        })
    }
}

fn outdented(inside: &str) -> String {
    let line = |line: &str| format!("{}\n", line.strip_prefix("    ").unwrap_or(line));
    inside.lines().map(line).collect()
}

/// The names that a file defines, each with its text.
fn items(text: &str) -> Vec<(String, String)> {
    let functions = functions(text).into_iter().map(|f| {
        let parameters = f.parameters.iter().map(|p| p.kind.as_str());
        let types: Vec<&str> = parameters.chain(f.returns.as_deref()).collect();
        (f.name, format!("{}\n{}", types.join("\n"), f.body))
    });
    let lines = text.match_indices('\n').map(|(end, _)| end + 1).chain([0]);
    let others = lines.filter_map(|start| type_or_constant(&text[start..]));
    functions.chain(others).collect()
}

/// What begins here, if that is a `struct`, `enum`, `type` or `const`.
fn type_or_constant(text: &str) -> Option<(String, String)> {
    let text = text.trim_start_matches("pub ");
    let (word, rest) = text.trim_start_matches("pub(crate) ").split_once(' ')?;
    let (name, rest) = rest.split_at(rest.find([' ', ':', '(', '<', ';'])?);
    let rest = match rest.strip_prefix('<') {
        Some(rest) => bracketed(rest, '<', '>').1.trim_start(),
        None => rest.trim_start(),
    };
    let inside = match (word, rest.chars().next()?) {
        ("struct" | "enum", '{') => bracketed(&rest[1..], '{', '}').0,
        ("struct", '(') => bracketed(&rest[1..], '(', ')').0,
        ("const", ':') | ("type", '=') => rest.split(";\n").next()?,
        _ => return None,
    };
    Some((name.to_string(), inside.to_string()))
}

/// `use a::b;` and `use a::{b, c};`, which may go on over lines, each name by its path.
fn uses(text: &str) -> Vec<Vec<String>> {
    let starts = text.match_indices('\n').map(|(end, _)| end + 1).chain([0]);
    let items = starts.filter_map(|start| {
        let item = text[start..].trim_start_matches("pub ");
        Some(item.strip_prefix("use ")?.split_once(';')?.0)
    });
    items.flat_map(paths_of).collect()
}

fn paths_of(item: &str) -> Vec<Vec<String>> {
    let Some((before, names)) = item.rsplit_once("::") else {
        return vec![vec![item.to_string()]];
    };
    let names = names.trim_start_matches('{').trim_end_matches('}');
    let path = |name: &str| {
        let parts = before.split("::").chain([name.trim()]);
        parts.map(str::to_string).collect()
    };
    let names = names.split(',').filter(|name| !name.trim().is_empty());
    names.map(path).collect()
}

/// Names with `::` between them, in the text of an item.
struct Path<'a> {
    parts: Vec<&'a str>,
    /// As a function: variants of an enum begin with a capital.
    is_called: bool,
}

/// What may stand before a bracket and is no function.
const KEYWORDS: &[&str] = &["if", "while", "match", "return"];

/// The types of std whose functions stand after their names, as those that begin with a capital do.
const NUMBERS_OF_STD: &[&str] = &["u8", "u16", "u32", "u64", "usize"];

impl Path<'_> {
    /// Of a type, trait or parameter: `Self::LEN`.
    fn is_member(&self) -> bool {
        let of = self.parts[self.parts.len().saturating_sub(2)];
        let is_type = of.starts_with(char::is_uppercase) || NUMBERS_OF_STD.contains(&of);
        self.parts.len() > 1 && is_type
    }
}

/// All but fields and methods, which stand after a dot.
fn paths(text: &str) -> Vec<Path<'_>> {
    let is_part = |c: char| c.is_alphanumeric() || c == '_' || c == ':';
    let mut all = Vec::new();
    let mut rest = text;
    while let Some(start) = rest.find(is_part) {
        let (before, behind) = rest.split_at(start);
        let end = behind.find(|c| !is_part(c)).unwrap_or(behind.len());
        let (word, behind) = behind.split_at(end);
        let parts: Vec<&str> = word.trim_matches(':').split("::").collect();
        let last = parts[parts.len() - 1];
        // `f::<u8>(x)`
        let called = match behind.strip_prefix('<') {
            Some(inside) if word.ends_with("::") => bracketed(inside, '<', '>').1,
            _ => behind,
        };
        if !before.ends_with('.') || before.ends_with("..") {
            all.push(Path {
                is_called: called.starts_with('(')
                    && last.starts_with(char::is_lowercase)
                    && !KEYWORDS.contains(&last),
                parts,
            });
        }
        rest = behind;
    }
    all
}

/// The methods that are called: names after a dot, before a bracket.
fn methods(text: &str) -> Vec<&str> {
    let is_name = |c: char| c.is_alphanumeric() || c == '_';
    let behind = text.split('.').skip(1);
    let name = |behind: &'_ str| behind.find(|c| !is_name(c)).unwrap_or(behind.len());
    let called = behind.filter(|b| b[name(b)..].starts_with('('));
    called.map(|b| &b[..name(b)]).collect()
}

/// The sources of all crates.
pub struct Sources(Vec<File>);

impl Sources {
    /// Of paths below crates/ with the files' texts.
    pub fn of(files: &[(String, String)]) -> Sources {
        let sources = files.iter().filter_map(|(path, text)| File::of(path, text));
        Sources(sources.collect())
    }

    /// What the function of this name, which the crate hands on, reaches, itself among it.
    pub fn reached(&self, in_crate: &str, name: &str) -> Vec<&Item> {
        let first = self.item(in_crate, "lib", name);
        let mut left = vec![first.unwrap_or_else(|| panic!("{in_crate} has no {name}"))];
        let mut seen = BTreeSet::new();
        let mut all = Vec::new();
        while let Some(item) = left.pop() {
            if seen.insert(item.place()) {
                left.extend(self.named(item));
                all.push(item);
            }
        }
        all
    }

    /// What the text of an item names. Every call must be found, but for those of a type: of a method of std there is nothing to find.
    fn named(&self, item: &Item) -> Vec<&Item> {
        let find = |path: Path| {
            let mut found: Vec<&Item> = self.named_by(item, &path.parts).into_iter().collect();
            let what = path.parts.join("::");
            assert!(
                !found.is_empty() || !path.is_called || path.is_member(),
                "{what}, called by {}",
                item.place()
            );
            if path.is_member() {
                found.extend(self.members(path.parts[path.parts.len() - 1]));
            }
            found
        };
        let methods = methods(&item.text).into_iter();
        let methods = methods.flat_map(|name| self.members(name));
        let paths = paths(&item.text).into_iter();
        paths.flat_map(find).chain(methods).collect()
    }

    /// All methods and constants of types and traits that have this name.
    fn members(&self, name: &str) -> Vec<&Item> {
        let all = self.0.iter().flat_map(|file| &file.items);
        all.filter(|item| item.of.is_some() && item.name == name)
            .collect()
    }

    fn named_by(&self, item: &Item, parts: &[&str]) -> Option<&Item> {
        let Item {
            in_crate, module, ..
        } = item;
        // of a variant, `Health::Whole`, the type
        let here = self.item(in_crate, module, parts[0]);
        here.or_else(|| self.item_of_path(in_crate, parts))
    }

    /// What a file calls by this name.
    fn item(&self, in_crate: &str, module: &str, name: &str) -> Option<&Item> {
        let file = self.file(in_crate, module)?;
        let mut here = file.items.iter().filter(|item| item.of.is_none());
        if let Some(item) = here.find(|item| item.name == name) {
            return Some(item);
        }
        let path = file.uses.iter().find(|path| path.last().unwrap() == name)?;
        let parts: Vec<&str> = path.iter().map(String::as_str).collect();
        self.item_of_path(in_crate, &parts)
    }

    /// `crate::name`, `crate::module::name`, `module::name` or `other_crate::name`
    fn item_of_path(&self, in_crate: &str, parts: &[&str]) -> Option<&Item> {
        match *parts {
            ["crate", name] => self.item(in_crate, "lib", name),
            ["crate", module, name] => self.item(in_crate, module, name),
            [first, name] if self.file(in_crate, first).is_some() => {
                self.item(in_crate, first, name)
            }
            [first, name] => self.item(first, "lib", name),
            _ => None,
        }
    }

    fn file(&self, in_crate: &str, module: &str) -> Option<&File> {
        let is = |file: &&File| file.in_crate == in_crate && file.module == module;
        self.0.iter().find(is)
    }
}

/// Of what a slice may be lent.
const NUMBERS: &[&str] = &["u8", "u16", "u32", "u64", "usize", "bool"];

/// The arrays of an item's text, as values or as types: what stands in square brackets and is no index, nor the type of a slice.
pub fn arrays(text: &str) -> Vec<String> {
    let is_name = |c: char| c.is_alphanumeric() || c == '_';
    text.match_indices('[')
        .filter(|(at, _)| !text[..*at].ends_with(|c| is_name(c) || c == ')' || c == ']'))
        .map(|(at, _)| bracketed(&text[at + 1..], '[', ']').0)
        .filter(|inside| !NUMBERS.contains(inside))
        .map(|inside| format!("[{inside}]"))
        .collect()
}
