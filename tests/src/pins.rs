//! The table "Names, and what pins them" of docs/PROVED.md. Statements and contracts go by names of other files: who changed what a name
//! means, together with the code, would change what they say, and all would still be proved. So each such name has a row, with the
//! statements that say what it means.

use crate::contracts::functions;
use crate::definitions::{lines, of_proof_language, Kind};
use crate::mentions::{in_backquotes, table};
use crate::statements::{self, is_name, reached, uses, Item, Specs, Use};
use std::collections::BTreeSet;

/// A name of a file of specs/.
#[derive(Clone, Debug, PartialEq, Eq, PartialOrd, Ord)]
pub struct Name {
    /// The file that defines it, below crates/.
    pub file: String,
    pub name: String,
}

impl Name {
    fn of(file: &str, name: &str) -> Name {
        Name {
            file: file.to_string(),
            name: name.to_string(),
        }
    }

    /// What a file takes, if it is from a file of specs/.
    fn taken(u: &Use) -> Option<Name> {
        Some(Name::of(&file_of(&u.module)?, &u.original))
    }
}

// ---- the table

/// | `number`, `shown` | `calls/specs/Call.antt` | `Values.refusals`, `accepts`; a remark |
pub struct Row {
    pub names: Vec<Name>,
    /// Statements and fields: a name in small letters is a field of the record named before it.
    pub by: Vec<String>,
    /// It says that nothing pins them, or not all that they are used for.
    pub is_open: bool,
}

/// What a row says where nothing pins its names.
pub const OPEN: &str = "NOTHING";

/// The rows of the table.
pub fn rows(document: &str) -> Vec<Row> {
    table(document, "Names, and what pins them")
        .iter()
        .filter_map(|cells| row(cells))
        .collect()
}

fn row(cells: &[&str]) -> Option<Row> {
    let [names, file, by] = cells else {
        return None;
    };
    let file = file.strip_prefix('`')?.strip_suffix('`')?;
    let names = in_backquotes(names).into_iter();
    Some(Row {
        names: names.map(|name| Name::of(file, name)).collect(),
        by: named(by),
        is_open: by.contains(OPEN),
    })
}

fn named(cell: &str) -> Vec<String> {
    let mut record = "";
    let mut all = Vec::new();
    for name in in_backquotes(cell) {
        if let Some((whole, _)) = name.split_once('.') {
            record = whole;
        }
        let is_field = name.starts_with(char::is_lowercase);
        all.push(match is_field {
            true => format!("{record}.{name}"),
            false => name.to_string(),
        });
    }
    all
}

// ---- the names

/// The file of specs/ that a module is; none of what Rattle code declares, or of the library.
fn file_of(module: &str) -> Option<String> {
    let (in_crate, path) = module.strip_prefix("Rattle.")?.split_once(".specs.")?;
    let is_other = in_crate == "std" || path.starts_with("declared.");
    (!is_other).then(|| format!("{in_crate}/specs/{}.antt", path.replace('.', "/")))
}

/// The names that a file takes from files of specs/; in Rattle by `ghost use`.
pub fn taken(text: &str) -> BTreeSet<Name> {
    uses(text).iter().filter_map(Name::taken).collect()
}

/// The names of specs/ in what the entry points of a source file ensure.
pub fn cited(in_crate: &str, source: &str) -> BTreeSet<Name> {
    let all = functions(source);
    let entry_points = all.iter().filter(|f| f.is_entry_point(in_crate));
    let clauses = entry_points.flat_map(|f| &f.ensures);
    let words: BTreeSet<&str> = clauses.flat_map(|clause| words(&clause.formula)).collect();
    uses(source)
        .iter()
        .filter(|u| words.contains(u.name.as_str()))
        .filter_map(Name::taken)
        .collect()
}

/// The words of a formula, but for those after a dot: these are fields, or names of what stands before it.
fn words(text: &str) -> impl Iterator<Item = &str> {
    text.split(|c: char| !is_name(c) && c != '.')
        .map(|word| word.split('.').next().unwrap())
        .filter(|word| !word.is_empty())
}

/// What of a file of specs/ only holds data: `pub data Name : Type 0`, and its constructors. (One with parameters says something of them.)
pub fn data(file: &str, text: &str) -> BTreeSet<Name> {
    let head = |line| str::strip_prefix(line, "pub data ")?.strip_suffix(" : Type 0 where");
    let types: Vec<&str> = lines(text).filter_map(head).collect();
    let is_data = |name: &str, kind, of: Option<&str>| match kind {
        Kind::Type => types.contains(&name),
        Kind::Constructor => of.is_some_and(|of| types.contains(&of)),
        _ => false,
    };
    of_proof_language(text)
        .into_iter()
        .filter(|(name, kind, of)| is_data(name, *kind, of.as_deref()))
        .map(|(name, _, _)| Name::of(file, &name))
        .collect()
}

/// The files that have a statement of the table "What is proved"; computed cases, which stand in folders of their own, are none.
pub fn statement_files(statements: &[statements::Row]) -> BTreeSet<&str> {
    let files = statements.iter().map(|row| row.specs.as_str());
    files.filter(|file| !file.contains("/Cases/")).collect()
}

// ---- what pins them

/// A closed statement, or a field of a record that closed statements are made of: `Does.write-data`.
pub struct Pin {
    pub name: String,
    /// The names of specs/ that it speaks of.
    pub about: BTreeSet<Name>,
}

/// All that can pin a name: of the files with a statement of the table the statements, and the fields of the records that they reach.
pub fn pins(statements: &[statements::Row], all: &[Specs]) -> Vec<Pin> {
    let files = statement_files(statements);
    let rows = || {
        statements
            .iter()
            .filter(|row| files.contains(row.specs.as_str()))
    };
    let items: BTreeSet<Item> = rows()
        .flat_map(|row| reached(&row.specs, &row.statement, all))
        .filter(|item| files.contains(item.file))
        .collect();
    let mut found = Vec::new();
    for item in items {
        let file = all.iter().find(|specs| specs.path == item.file).unwrap();
        let mut add = |name: String, text| {
            let about = about(text, file);
            found.push(Pin { name, about });
        };
        if rows().any(|row| row.statement == item.name && row.specs == item.file) {
            add(item.name.to_string(), item.text);
        }
        for (field, text) in fields(item.text) {
            add(format!("{}.{field}", item.name), text);
        }
    }
    found
}

/// The names of specs/ in a text of this file: its own, and those that it takes.
fn about(text: &str, file: &Specs) -> BTreeSet<Name> {
    let words: BTreeSet<&str> = words(text).collect();
    let own = file.items.iter().map(|(name, _)| name.as_str());
    let own = own.filter(|name| words.contains(name));
    let taken = file.uses.iter().filter(|u| words.contains(u.name.as_str()));
    own.map(|name| Name::of(&file.path, name))
        .chain(taken.filter_map(Name::taken))
        .collect()
}

/// The fields of a record, each with what it says.
fn fields(item: &str) -> Vec<(&str, &str)> {
    let record = item.strip_prefix("pub record ");
    let fields = record.and_then(|text| text.split_once(" where "));
    let fields = fields.map_or("", |(_, fields)| fields).split("pub ");
    fields.filter_map(|field| field.split_once(" : ")).collect()
}

// ---- the rule

/// Why the table does not hold: names without just one row; rows of names that nothing cites, or that their file does not define; rows that
/// do not name what pins them.
pub fn faults(rows: &[Row], names: &BTreeSet<Name>, pins: &[Pin], specs: &[Specs]) -> Vec<String> {
    let mut all = Vec::new();
    for Name { file, name } in names {
        let is_here = |row: &&Row| row.names.iter().any(|n| n.file == *file && n.name == *name);
        match rows.iter().filter(is_here).count() {
            1 => {}
            count => all.push(format!("{name} of {file} has {count} rows")),
        }
    }
    for row in rows {
        for name in &row.names {
            let Name { file, name: word } = name;
            if !names.contains(name) {
                all.push(format!("nothing cites {word} of {file}"));
            }
            if !specs.iter().any(|specs| defines(specs, name)) {
                all.push(format!("{file} does not define {word}"));
            }
        }
        all.extend(row.faults(pins));
    }
    all
}

fn defines(specs: &Specs, name: &Name) -> bool {
    let mut items = specs.items.iter();
    specs.path == name.file && items.any(|(item, _)| *item == name.name)
}

impl Row {
    fn faults(&self, pins: &[Pin]) -> Vec<String> {
        let mut all = Vec::new();
        let is_named = |pin: &&Pin| self.by.contains(&pin.name);
        for by in &self.by {
            if !pins.iter().any(|pin| pin.name == *by) {
                all.push(format!("no statement has {by}"));
            }
        }
        for name in &self.names {
            let Name { file, name: word } = name;
            let mut named = pins.iter().filter(is_named);
            if self.is_open {
                all.push(format!("not pinned: {word} of {file}"));
            } else if !named.any(|pin| pin.about.contains(name)) {
                all.push(format!("what pins {word} of {file} does not speak of it"));
            }
        }
        all
    }
}
