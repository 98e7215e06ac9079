//! What docs/PROVED.md says is proved is a closed statement with a term, it is quoted, and it says what it said; and each name by which
//! statements and contracts go has a statement that pins it.

use std::collections::BTreeSet;
use std::fs;
use yuzkamide_tests::definitions::lines;
use yuzkamide_tests::files::texts;
use yuzkamide_tests::mentions::blocks;
use yuzkamide_tests::pins::{self, OPEN};
use yuzkamide_tests::pins::{cited, data, faults, pins, statement_files, taken, Name};
use yuzkamide_tests::program::root;
use yuzkamide_tests::statements::{
    closed, definition, fault, fingerprint, ghost_uses, quoted, rows, undeclared, uses, Row, Specs,
};

fn document(name: &str) -> String {
    fs::read_to_string(root().join("docs").join(name)).unwrap()
}

/// A file of a crate.
fn source(path: &str) -> String {
    fs::read_to_string(root().join("crates").join(path)).unwrap_or_default()
}

// ---- what is proved

/// What is in the table, all of it: who adds or deletes a row has to say so here too.
const STATEMENTS: &[&str] = &[
    "Demand1",
    "InOrder",
    "InRisingOrder",
    "InSteps",
    "OnBytes",
    "Settles",
    "Values",
    "Numbered",
    "AbsentIs",
    "Storing",
    "StoresInOrder",
    "Acts",
    "Alone",
    "OneMove",
    "RecordOnly",
    "Sweeps",
    "InBytes",
    "Demand2",
    "RoundTrip",
    "Updates",
    "GoodIs",
    "Demand3",
    "HandedOn",
    "MayBeLent",
    "FlatList",
    "AlwaysFair",
    "NothingFound",
    "LastGiven",
    "ZeroAtFirst",
    "SecondOut",
    "ReadsLastGiven",
    "ReadsZeroAtFirst",
    "ReadsRefused",
    "BothWays",
    "Differences",
    "Fills",
    "Told",
    "Tells",
    "ViewBegins",
    "Versioned",
    "Exact",
    "Paper",
    "Tails",
    "Zones",
    "Lit",
    "Folds",
    "Points",
    "Examples",
    "Bench",
    "Unmarked",
    "Rowwise",
    "Refusals",
    "Drawers",
    "Flipped",
    "Sample",
];

/// Types that state nothing, with their crates: they only hold data.
const DATA: &[(&str, &str)] = &[
    ("calls", "Terms"),
    ("layout", "Layout"),
    ("calls", "Event"),
    ("calls", "Fed"),
    ("calls", "Row"),
    ("calls", "Left"), // what a call leaves
    ("history", "Flat"),
    ("history", "Form"), // a way to write the record, and the calls on it
    ("history", "Cabinet"),
    ("history", "Step"), // a call of the sample's script, with what it is lent
];

/// Why a table is not what is proved: rows that do not hold, and statements of the files of specs/ without a row.
fn table_faults(
    table: &[Row],
    specs: &[(String, String)],
    source: impl Fn(&str) -> String,
) -> Vec<String> {
    let mut all: Vec<String> = table
        .iter()
        .filter_map(|row| fault(row, &source(&row.specs), &source(&row.proofs)))
        .collect();
    for (file, text) in specs {
        let of = file.split('/').next().unwrap();
        for name in closed(text) {
            let has = |row: &Row| row.statement == name && row.specs == *file;
            if !table.iter().any(has) && !DATA.contains(&(of, name.as_str())) {
                all.push(format!("{name} of {file} is not in the table"));
            }
        }
    }
    all
}

/// Why a table does not have just the statements of a list, each once.
fn list_faults(table: &[Row], list: &[&str]) -> Vec<String> {
    let count = |name: &str| table.iter().filter(|row| row.statement == name).count();
    let missed = list.iter().filter(|name| count(name) != 1);
    let strange = table.iter().filter(|row| !list.contains(&&*row.statement));
    missed
        .map(|name| format!("{name} has {} rows", count(name)))
        .chain(strange.map(|row| format!("{} is not in the list", row.statement)))
        .collect()
}

#[test]
fn what_is_proved() {
    let table = rows(&document("PROVED.md"));
    let mut faults = table_faults(&table, &specs(), source);
    faults.extend(list_faults(&table, STATEMENTS));
    let files = table.iter().flat_map(|row| [&row.specs, &row.proofs]);
    faults.extend(files.filter_map(|file| undeclared(file, source)));
    assert!(faults.is_empty(), "{faults:#?}");
}

/// What the document quotes is word for word a definition of the table's files, and it quotes every statement that is no record: so
/// one that is weakened is weakened before the reader's eyes.
#[test]
fn statements_are_quoted() {
    let document = document("PROVED.md");
    let quoted = quoted(&document);
    let table = rows(&document);
    let mut seen = 0;
    for row in &table {
        if let Some(text) = definition(&source(&row.specs), &row.statement) {
            assert!(quoted.contains(&text), "PROVED.md does not quote: {text}");
            seen += 1;
        }
    }
    assert!(seen > 10, "the search finds the statements: {seen}");
    for text in quoted {
        let name = text.split(' ').next().unwrap();
        let is_there = |row: &Row| {
            let head = text.split(" =").next().unwrap();
            definition(&source(&row.specs), head).as_ref() == Some(&text)
        };
        assert!(table.iter().any(is_there), "{name} is not defined so");
    }
}

#[test]
fn a_weakened_statement_is_not_the_quoted_one() {
    let document = "text\n\n```antt\nDemand1 = (k : ℕ) → Part k\n\nPart k =\n    k ≡ k\n```\n";
    let quoted = quoted(document);
    assert_eq!(quoted, ["Demand1 = (k : ℕ) → Part k", "Part k = k ≡ k"]);
    assert_eq!(definition(SPECS, "Demand1").as_ref(), quoted.first());
    assert_eq!(definition(SPECS, "Part k").as_ref(), quoted.last());
    assert_eq!(definition(SPECS, "Table"), None);
    let weakened = edited(
        SPECS,
        "= (k : ℕ) → Part k\n",
        "= (k : ℕ)\n    → k < 1 → Part k\n",
    );
    assert_eq!(
        definition(&weakened, "Demand1").unwrap(),
        "Demand1 = (k : ℕ) → k < 1 → Part k"
    );
}

/// Every file of specs/, by its path below crates/, with its text.
fn specs() -> Vec<(String, String)> {
    let mut all = texts(&root().join("crates"), "antt");
    all.retain(|(path, _)| path.split('/').nth(1) == Some("specs"));
    all
}

/// The table has a fingerprint of what each statement says, down to the last definition: who weakens one has to change the table.
#[test]
fn statements_say_what_they_said() {
    let all: Vec<Specs> = specs()
        .iter()
        .map(|(path, text)| Specs::of(path, text))
        .collect();
    assert!(all.len() > 40, "the search finds the files");
    let mut changed = Vec::new();
    for row in rows(&document("PROVED.md")) {
        let now = fingerprint(&row.specs, &row.statement, &all);
        if now != row.fingerprint {
            changed.push(format!(
                "{} says something else: read it again, then note {now}",
                row.statement
            ));
        }
    }
    assert!(changed.is_empty(), "{changed:#?}");
}

/// Every file of src/, by its path below crates/, with its text.
fn sources() -> Vec<(String, String)> {
    texts(&root().join("crates"), "rt")
}

/// A name means the same in every file of specs/, and in every contract: none is changed where it is taken from another file.
#[test]
fn names_are_not_changed_on_the_way() {
    let mut seen = 0;
    let ghost = sources()
        .into_iter()
        .map(|(file, text)| (file, ghost_uses(&text)));
    for (file, text) in specs().into_iter().chain(ghost) {
        let changed = changed_names(&text);
        assert!(changed.is_empty(), "{file}: {changed:?}");
        seen += uses(&text).len();
    }
    assert!(seen > 900, "the search finds the names: {seen}");
}

/// What a file takes under another name; and files that it takes whole, so that no name is seen to come from there. (What Rattle
/// code declares is no file of specs/.)
fn changed_names(text: &str) -> Vec<String> {
    let changed = uses(text).into_iter().filter(|u| u.original != u.name);
    let whole = lines(text).filter(|line| line.starts_with("use ") && !line.contains(".{"));
    let whole = whole.filter(|line| !line.contains(".declared."));
    changed
        .map(|u| format!("{u:?}"))
        .chain(whole.map(str::to_string))
        .collect()
}

#[test]
fn names_of_a_rattle_file() {
    let source = "// A file.
ghost use Rattle.layout.specs.Moves.{move_to};
ghost use Rattle.layout.specs.Home.{
    home_disk, rank_of as rank,
};
use layout::Move;
";
    let ghost = ghost_uses(source);
    assert_eq!(uses(&ghost).len(), 3);
    assert_eq!(changed_names(&ghost).len(), 1);
}

#[test]
fn names_that_are_changed() {
    let right = "use Rattle.layout.specs.Moves.{move_to,\n    move_from}\nuse Rattle.refusals.specs.declared.types.Report.TheVariants as report\n";
    assert_eq!(changed_names(right), [""; 0]);
    for wrong in [
        "use Rattle.layout.specs.Moves.{move_to as move_from}\n",
        "use Rattle.layout.specs.Moves as moves\n",
        "use Rattle.layout.specs.Moves as moves\nuse Rattle.layout.specs.Home.{home_disk}\n",
        "use Rattle.layout.specs.Moves\n",
    ] {
        assert_eq!(changed_names(wrong).len(), 1, "{wrong}");
    }
}

#[test]
fn a_fingerprint_is_of_all_that_is_reached() {
    let far = "use Rattle.layout.specs.Cases.Near.{near}

abbrev pub Far : ℕ → Type 0
Far k = k ≡ near k
";
    let near = "unfoldable pub near : ℕ → ℕ\nnear k = k\n";
    let of = |specs: &str, far: &str, near: &str| {
        let all = [
            Specs::of("calls/specs/Theorem.antt", specs),
            Specs::of("layout/specs/Far.antt", far),
            Specs::of("layout/specs/Cases/Near.antt", near),
            // names that are taken from elsewhere
            Specs::of("calls/specs/Other.antt", "abbrev pub Far : ℕ → Type 0\n"),
            Specs::of("layout/specs/Other.antt", "abbrev pub Demand1 : Type 0\n"),
        ];
        fingerprint("calls/specs/Theorem.antt", "Demand1", &all)
    };
    let specs = edited(SPECS, "Part k = k ≡ k\n", "Part k = Far k\n");
    let specs = format!("use Rattle.layout.specs.Far.{{Far}}\n{specs}");
    let before = of(&specs, far, near);
    assert_eq!(before.len(), 16);
    // comments and breaks, and what is not reached, are no matter
    let table = edited(&specs, "pub first : Part 1", "pub first : Part 2");
    let broken = edited(
        &specs,
        "= (k : ℕ) → Part k\n",
        "=\n    (k : ℕ)\n    → Part k  -- so\n",
    );
    assert_eq!(of(&table, far, near), before);
    assert_eq!(of(&broken, far, near), before);
    // nor is the file that has a definition
    let moved = edited(&specs, "specs.Far.", "specs.Cases.Near.");
    let both = format!("{}\n{near}", edited(far, "use", "-- use"));
    assert_eq!(of(&moved, "", &both), before);
    // the statement itself, a predicate, one of another crate, a function of a folder, and a second definition of a name
    let head = edited(&specs, "(k : ℕ) → Part k\n", "(k : ℕ) → k < 1 → Part k\n");
    let part = edited(&specs, "Part k = Far k\n", "Part k = k < 1 → Far k\n");
    let zero = edited(near, "near k = k\n", "near k = 0\n");
    let twice = format!("{near}\n{zero}");
    for (specs, far, near) in [
        (&head, far, near),
        (&part, far, near),
        (&specs, &edited(far, "Far k = k", "Far k = 0"), near),
        (&specs, far, &zero),
        (&specs, far, &twice),
    ] {
        assert_ne!(of(specs, far, near), before, "{specs}\n{far}\n{near}");
    }
}

/// "proved by `x`": a term of the table.
#[test]
fn proved_by_a_term_of_the_table() {
    let table = rows(&document("PROVED.md"));
    let mut seen = 0;
    for name in ["READING.md", "PROVED.md", "TRUST.md"] {
        for block in blocks(&document(name)) {
            for said in block.split("proved by `").skip(1) {
                let term = said.split('`').next().unwrap();
                seen += 1;
                assert!(
                    table.iter().any(|row| row.term == term),
                    "{name}: proved by {term}"
                );
            }
        }
    }
    assert!(seen > 3, "the search finds them: {seen}");
}

// ---- what pins a name

/// The names by which statements and contracts go: those that a file with a statement takes from other files of specs/, and those that an
/// entry point's contract cites; but for types that only hold data, their constructors, and what files with a statement define.
fn names_to_pin(statements: &[Row]) -> BTreeSet<Name> {
    let files = statement_files(statements);
    let specs = specs();
    let mut all = BTreeSet::new();
    for (_, text) in specs
        .iter()
        .filter(|(file, _)| files.contains(file.as_str()))
    {
        all.extend(taken(text));
    }
    for (file, text) in sources() {
        all.extend(cited(file.split('/').next().unwrap(), &text));
    }
    let held: BTreeSet<Name> = specs
        .iter()
        .flat_map(|(file, text)| data(file, text))
        .collect();
    let is_data = |name: &Name| {
        let in_crate = name.file.split('/').next().unwrap();
        held.contains(name) || DATA.contains(&(in_crate, name.name.as_str()))
    };
    all.retain(|name| !is_data(name) && !files.contains(name.file.as_str()));
    all
}

#[test]
fn every_name_is_pinned() {
    let document = document("PROVED.md");
    let statements = rows(&document);
    let names = names_to_pin(&statements);
    let has = |name: &str| names.iter().any(|n| n.name == name);
    for name in ["total_of", "view_of", "GoodRecord", "written"] {
        assert!(has(name), "the search finds {name}");
    }
    assert!(!has("Answer") && !has("refused") && !has("Record"));
    let specs: Vec<Specs> = specs()
        .iter()
        .map(|(file, text)| Specs::of(file, text))
        .collect();
    let pins = pins(&statements, &specs);
    let faults = faults(&pins::rows(&document), &names, &pins, &specs);
    println!(
        "{} names, {} statements and fields",
        names.len(),
        pins.len()
    );
    assert!(faults.is_empty(), "{faults:#?}");
}

/// Who takes a name from a file with a statement: what stands there is the statement's own, to be read with it, and nothing else goes by it.
fn borrowers(files: &BTreeSet<&str>, texts: &[(String, String)]) -> Vec<String> {
    let mut all = Vec::new();
    for (file, text) in texts {
        let names = taken(text).into_iter();
        for name in names.filter(|name| files.contains(name.file.as_str())) {
            all.push(format!("{file} takes {} of {}", name.name, name.file));
        }
    }
    all
}

/// No contract, and no definition that one could go by, takes a name that is a statement's own.
#[test]
fn no_contract_goes_by_a_statements_own_names() {
    let statements = rows(&document("PROVED.md"));
    let files = statement_files(&statements);
    assert!(
        files.contains("calls/specs/Acts.antt") && files.contains("zone_moves/specs/Exact.antt")
    );
    let mut definitions = specs();
    definitions.retain(|(file, _)| !file.contains("/Cases/") && !files.contains(file.as_str()));
    assert_eq!(borrowers(&files, &sources()), [""; 0]);
    assert_eq!(borrowers(&files, &definitions), [""; 0]);
}

// ---- the rules themselves: what they refuse

const SPECS: &str = "-- what is proved: `Old`
use Rattle.std.specs.Prelude.{ℕ}

unfoldable pub Part : ℕ → Type 0
Part k = k ≡ k

abbrev pub Demand1 : Type 0
Demand1 = (k : ℕ) → Part k

pub record Table : Type 0 where
  pub first : Part 1
";

const PROOFS: &str = "-- Assumes nothing.
use Rattle.std.specs.Prelude.{◌≡◌, refl}
use Rattle.calls.specs.Theorem.{Part,
    Demand1, Table}

module _ (k : ℕ) where
  part : Part k
  part = refl

pub demand1 : Demand1
unfolding Part
demand1 k = part k

pub table : Table
table = record { first = part 1 }
";

fn sample_rows() -> Vec<Row> {
    rows("# A document\n\n## What is proved\n\n| Statement | File | Term | File | Fingerprint | |\n|---|---|---|---|---|---|
| `Demand1` | `calls/specs/Theorem.antt` | `demand1` | `calls/proofs/Theorem.antt` | 0 | what it says |
| `Table` | `calls/specs/Theorem.antt` | `table` | `calls/proofs/Theorem.antt` | 0 | a table |

## Another section

| `Other` | `calls/specs/Theorem.antt` | `other` | `calls/proofs/Theorem.antt` | not of the table |
")
}

/// The faults of the sample table with these texts.
fn sample_faults(specs: &str, proofs: &str) -> Vec<String> {
    let files = [("calls/specs/Theorem.antt".to_string(), specs.to_string())];
    table_faults(&sample_rows(), &files, |path| match path {
        "calls/specs/Theorem.antt" => specs.to_string(),
        "calls/proofs/Theorem.antt" => proofs.to_string(),
        _ => panic!("no file {path}"),
    })
}

/// The text with one piece of it replaced.
fn edited(text: &str, from: &str, to: &str) -> String {
    assert_eq!(text.matches(from).count(), 1, "{from}");
    text.replace(from, to)
}

#[test]
fn a_table_that_holds() {
    assert_eq!(sample_rows().len(), 2);
    assert_eq!(sample_rows()[0].term, "demand1");
    assert_eq!(sample_faults(SPECS, PROOFS), [""; 0]);
    assert_eq!(closed(SPECS), ["Demand1", "Table"]);
}

/// Each of these proofs must be refused with one fault, which says this.
#[test]
fn a_term_of_another_type_proves_nothing() {
    let declared = "pub demand1 : Demand1\n";
    for (to, says) in [
        // a weakened type
        ("pub demand1 : (k : ℕ) → k < 1 → Part k\n", "no term"),
        ("pub demand1 : (e : Event) (b : List ℕ) → accepted (called_bytes e b).answer ≡ true → Answered e b\n", "no term"),
        ("pub demand1 : 1 ≡ 0 → Demand1\n", "no term"),
        ("pub demand1 : Demand1 → Demand1\n", "no term"),
        ("pub demand1 :\n    1 ≡ 0 → Demand1\n", "no term"),
        ("pub demand1 : Demand1\n    → Demand1\n", "no term"),
        ("pub demand1 : Demand1'\n", "no term"),
        // no such term, or one that others cannot see
        ("", "no term"),
        ("-- pub demand1 : Demand1\n", "no term"),
        ("demand1 : Demand1\n", "no term"),
        // inside a module
        ("module _ (false : 1 ≡ 0) where\n  pub demand1 : Demand1\n", "no term"),
    ] {
        let faults = sample_faults(SPECS, &edited(PROOFS, declared, to));
        assert_eq!(faults.len(), 1, "{to}: {faults:?}");
        assert!(faults[0].contains(says), "{to}: {faults:?}");
    }
    let indented = edited(
        PROOFS,
        "pub demand1 : Demand1\nunfolding Part\ndemand1 k = part k\n",
        "module _ (k : ℕ) where\n  pub demand1 : Demand1\n  demand1 k = part k\n",
    );
    assert_eq!(sample_faults(SPECS, &indented).len(), 1);
    let undefined = edited(PROOFS, "demand1 k = part k\n", "");
    assert_eq!(
        sample_faults(SPECS, &undefined),
        ["demand1 is not defined in calls/proofs/Theorem.antt"]
    );
}

#[test]
fn a_statement_with_premises_is_not_closed() {
    for to in [
        "abbrev pub Demand1 : ℕ → Type 0\n",
        "abbrev pub Demand1 (k : ℕ) : Type 0\n",
        "pub record Demand1 (k : ℕ) : Type 0 where\n",
        "module _ (k : ℕ) where\n  abbrev pub Demand1 : Type 0\n",
        "abbrev pub Demand1 : Type 0\n    → Type 0\n",
        "abbrev Demand1 : Type 0\n",
        "-- abbrev pub Demand1 : Type 0\n",
    ] {
        let faults = sample_faults(&edited(SPECS, "abbrev pub Demand1 : Type 0\n", to), PROOFS);
        assert_eq!(
            faults,
            ["Demand1 is no closed type of calls/specs/Theorem.antt"],
            "{to}"
        );
    }
    let record = edited(
        SPECS,
        "pub record Table : Type 0 where",
        "pub record Table (k : ℕ) : Type 0 where",
    );
    assert_eq!(
        sample_faults(&record, PROOFS),
        ["Table is no closed type of calls/specs/Theorem.antt"]
    );
}

#[test]
fn statement_and_term_are_of_one_crate() {
    for (specs, proofs) in [
        ("calls/specs/Theorem.antt", "history/proofs/Theorem.antt"),
        ("calls/specs/Theorem.antt", "calls/specs/Theorem.antt"),
        ("calls/proofs/Theorem.antt", "calls/proofs/Theorem.antt"),
    ] {
        let row = Row {
            specs: specs.to_string(),
            proofs: proofs.to_string(),
            ..sample_rows().remove(0)
        };
        let says = format!("{specs} and {proofs} are not specs and proofs of one crate");
        assert_eq!(fault(&row, SPECS, PROOFS), Some(says));
    }
}

/// Files in a folder of specs/ and of proofs/.
#[test]
fn a_statement_of_a_folder() {
    let row = Row {
        specs: "calls/specs/Cases/Theorem.antt".to_string(),
        proofs: "calls/proofs/Cases/Theorem.antt".to_string(),
        ..sample_rows().remove(0)
    };
    let proofs = edited(PROOFS, "specs.Theorem.", "specs.Cases.Theorem.");
    assert_eq!(fault(&row, SPECS, &proofs), None);
    let says = fault(&row, SPECS, PROOFS).unwrap();
    assert!(says.contains("does not have Demand1 from"), "{says}");

    let declared = |path: &str| match path {
        "calls/specs/Lib.antt" => "pub mod Theorem\npub mod Cases\n".to_string(),
        "calls/specs/Cases.antt" => "-- pub mod Commented\npub mod Drawers\n".to_string(),
        "calls/proofs/Cases.antt" => "pub mod Drawers\n".to_string(),
        _ => String::new(),
    };
    for (path, says) in [
        ("calls/specs/Theorem.antt", None),
        ("calls/specs/Cases/Drawers.antt", None),
        (
            "calls/specs/Drawers.antt",
            Some("calls/specs/Lib.antt does not have Drawers"),
        ),
        (
            "calls/specs/Cases/Commented.antt",
            Some("calls/specs/Cases.antt does not have Commented"),
        ),
        (
            "calls/proofs/Cases/Drawers.antt",
            Some("calls/proofs/Lib.antt does not have Cases"),
        ),
    ] {
        assert_eq!(undeclared(path, declared).as_deref(), says);
    }
}

#[test]
fn a_statement_without_a_row() {
    for statement in [
        "abbrev pub More : Type 0\nMore = Part 2\n",
        "unfoldable pub More : Type 0\n",
        "pub record More : Type 0 where\n",
    ] {
        let faults = sample_faults(&format!("{SPECS}\n{statement}"), PROOFS);
        assert_eq!(
            faults,
            ["More of calls/specs/Theorem.antt is not in the table"]
        );
    }
    let open = format!("{SPECS}\npub record More (k : ℕ) : Type 0 where\n");
    assert_eq!(
        sample_faults(&open, PROOFS),
        [""; 0],
        "a part of a statement"
    );
}

#[test]
fn a_list_that_is_not_whole() {
    let faults = |list: &[&str]| list_faults(&sample_rows(), list);
    assert_eq!(faults(&["Demand1", "Table"]), [""; 0]);
    assert_eq!(faults(&["Demand1"]), ["Table is not in the list"]);
    assert_eq!(faults(&["Demand1", "Table", "More"]), ["More has 0 rows"]);
    let twice = [sample_rows(), sample_rows()].concat();
    assert_eq!(
        list_faults(&twice, &["Demand1", "Table"]),
        ["Demand1 has 2 rows", "Table has 2 rows"]
    );
}

#[test]
fn a_statement_of_the_same_name() {
    let again = |text: &str| {
        edited(
            PROOFS,
            "pub demand1 : Demand1\n",
            &format!("{text}pub demand1 : Demand1\n"),
        )
    };
    for text in [
        "abbrev Demand1 : Type 0\nDemand1 = Unit\n\n",
        "record Demand1 : Type 0 where\n\n",
        "module _ where\n  abbrev pub Demand1 : Type 0\n  Demand1 = Unit\n\n",
    ] {
        let faults = sample_faults(SPECS, &again(text));
        assert_eq!(
            faults,
            ["Demand1 is defined again in calls/proofs/Theorem.antt"],
            "{text}"
        );
    }
    let used = "use Rattle.calls.specs.Theorem.{Part,\n    Demand1, Table}\n";
    for to in [
        "use Rattle.calls.specs.Other.{Demand1}\nuse Rattle.calls.specs.Theorem.{Part, Table}\n",
        "use Rattle.state.specs.Theorem.{Demand1}\nuse Rattle.calls.specs.Theorem.{Part, Table}\n",
        "use Rattle.calls.specs.Theorem.{Part, Part as Demand1, Table}\n",
        "use Rattle.calls.specs.Theorem.{Part, Table}\n-- Demand1\n",
    ] {
        let faults = sample_faults(SPECS, &edited(PROOFS, used, to));
        assert_eq!(faults.len(), 1, "{to}");
        assert!(
            faults[0].contains("does not have Demand1 from"),
            "{faults:?}"
        );
    }
}

// ---- the rules on names

const CALL: &str = "pub data Answer : Type 0 where
  refused : ℕ → Answer
  done : Answer

pub data Open : ℕ → Type 0 where
  one : Open 1

abbrev pub number : Answer → ℕ
number (refused k) = k
number done = 0

abbrev pub count : Answer → ℕ
count a = 0
";

const THEOREM: &str = "use Rattle.std.specs.Prelude.{ℕ}
use Rattle.layout.specs.declared.Geometry.{Geometry}
use Rattle.calls.specs.Call.{Answer, refused, done, number, count, Open}

-- a word of its own
abbrev pub twice : ℕ → ℕ
twice k = k + k

pub record Part (a : Answer) : Type 0 where
  -- `count`
  pub small : number a < 12
  pub even : twice a.count ≡ 0 → Open 1

-- in no statement
pub record Loose (a : Answer) : Type 0 where
  pub said : count a ≡ 0

pub record Values : Type 0 where
  pub refusals : (k : ℕ) → number (refused k) ≡ k
  pub dones : number done ≡ 0
  pub counts : (a : Answer) → count a ≡ 0
  pub parts : (a : Answer) → Part a
";

/// The faults of a table with these rows, for the names that the sample's statement takes.
fn pin_faults(lines: &str) -> Vec<String> {
    let statements = [Row {
        statement: "Values".to_string(),
        specs: "calls/specs/Theorem.antt".to_string(),
        term: "values".to_string(),
        proofs: "calls/proofs/Theorem.antt".to_string(),
        fingerprint: "0".to_string(),
    }];
    let specs = [
        Specs::of("calls/specs/Call.antt", CALL),
        Specs::of("calls/specs/Theorem.antt", THEOREM),
        Specs::of(
            "layout/specs/Other.antt",
            "abbrev pub number : ℕ\nnumber = 1\n",
        ),
    ];
    let mut names = taken(THEOREM);
    let held = data("calls/specs/Call.antt", CALL);
    names.retain(|name| !held.contains(name));
    let document = format!("# A document\n\n## Names, and what pins them\n\n| Name | File | Pinned by |\n|---|---|---|\n{lines}");
    faults(
        &pins::rows(&document),
        &names,
        &pins(&statements, &specs),
        &specs,
    )
}

const NUMBER: &str = "| `number` | `calls/specs/Call.antt` | `Values.refusals`, `dones` |\n";
const OPENED: &str = "| `Open` | `calls/specs/Call.antt` | `Part.even`, by what is open |\n";
const COUNT: &str = "| `count` | `calls/specs/Call.antt` | `Values.counts` |\n";

#[test]
fn names_that_are_pinned() {
    assert_eq!(pin_faults(&[NUMBER, OPENED, COUNT].concat()), [""; 0]);
    let both = "| `number`, `count` | `calls/specs/Call.antt` | `Values` |\n";
    assert_eq!(pin_faults(&[OPENED, both].concat()), [""; 0]);
}

#[test]
fn a_name_without_its_row() {
    let faults = pin_faults(&[NUMBER, OPENED].concat());
    assert_eq!(faults, ["count of calls/specs/Call.antt has 0 rows"]);
    let faults = pin_faults(&[NUMBER, OPENED, COUNT, NUMBER].concat());
    assert_eq!(faults, ["number of calls/specs/Call.antt has 2 rows"]);
}

#[test]
fn a_row_without_its_name() {
    for (row, says) in [
        // the statement's own, data, a name of another file, one that is not there
        (
            "| `twice` | `calls/specs/Theorem.antt` | `Part.even` |",
            "nothing cites twice of calls/specs/Theorem.antt",
        ),
        (
            "| `Answer` | `calls/specs/Call.antt` | `Part` |",
            "nothing cites Answer of calls/specs/Call.antt",
        ),
        (
            "| `number` | `layout/specs/Other.antt` | `Values.dones` |",
            "nothing cites number of layout/specs/Other.antt",
        ),
        (
            "| `other` | `calls/specs/Call.antt` | `Values.dones` |",
            "calls/specs/Call.antt does not define other",
        ),
    ] {
        let faults = pin_faults(&[NUMBER, OPENED, COUNT, row].concat());
        assert!(
            faults.iter().any(|fault| fault == says),
            "{row}: {faults:?}"
        );
    }
}

#[test]
fn what_pins_nothing() {
    let of = "of calls/specs/Call.antt";
    for (by, says) in [
        // another field; a field of that name is not the name; a comment; another name beside it
        (
            "`Values.dones`",
            vec![format!("what pins count {of} does not speak of it")],
        ),
        (
            "`Part.even`",
            vec![format!("what pins count {of} does not speak of it")],
        ),
        (
            "`Part.small`",
            vec![format!("what pins count {of} does not speak of it")],
        ),
        (
            "",
            vec![format!("what pins count {of} does not speak of it")],
        ),
        // no field, no statement, a record in no statement, a field of no record
        (
            "`Values.counts`, `none`",
            vec!["no statement has Values.none".to_string()],
        ),
        (
            "`Values.counts`, `More`",
            vec!["no statement has More".to_string()],
        ),
        (
            "`Values.counts`, `Loose.said`",
            vec!["no statement has Loose.said".to_string()],
        ),
        (
            "`counts`, `Values.counts`",
            vec!["no statement has .counts".to_string()],
        ),
        (
            "`Values.counts` of some; of others NOTHING",
            vec![format!("not pinned: count {of}")],
        ),
    ] {
        let row = format!("| `count` | `calls/specs/Call.antt` | {by} |\n");
        assert_eq!(pin_faults(&[NUMBER, OPENED, &row].concat()), says, "{by}");
    }
    assert_eq!(OPEN, "NOTHING");
    let both = "| `number`, `count` | `calls/specs/Call.antt` | `Values.dones` |\n";
    assert_eq!(
        pin_faults(&[OPENED, both].concat()),
        [format!("what pins count {of} does not speak of it")]
    );
}

#[test]
fn names_of_contracts() {
    let source = "// A call.
ghost use Rattle.std.specs.Prelude.{◌≡◌};
ghost use Rattle.calls.specs.Call.{read, on, number};
ghost use Rattle.calls.specs.Table.{refusal_of};
ghost use Rattle.access.specs.Viewing.{begins};
ghost use Rattle.access.specs.declared.types.Choice.{Choice};
use state::Record;

fn fill(r: Record)
    ensures block { refusal_of r ≡ 0 }
{
}

pub fn read(r: Record, b: u64) -> u8
    requires { refusal_of r ≡ 0 }
    ensures answer { result ≡ number (called (on (read b)) r).answer }
    ensures place { begins Choice ≡ r.refusal_of }
{
    0
}
";
    let names = |in_crate: &str| -> Vec<String> {
        let all = cited(in_crate, source).into_iter();
        all.map(|n| format!("{} {}", n.file, n.name)).collect()
    };
    assert_eq!(
        names("access"),
        [
            "access/specs/Viewing.antt begins",
            "calls/specs/Call.antt number",
            "calls/specs/Call.antt on",
            "calls/specs/Call.antt read",
        ]
    );
    assert_eq!(names("blocks"), [""; 0], "a crate without entry points");
}

#[test]
fn a_contract_by_a_statements_own_name() {
    let files = BTreeSet::from(["calls/specs/Theorem.antt"]);
    let borrows = |text: &str| borrowers(&files, &[("a/src/b.rt".to_string(), text.to_string())]);
    assert_eq!(
        borrows("ghost use Rattle.calls.specs.Theorem.{Part};\n"),
        ["a/src/b.rt takes Part of calls/specs/Theorem.antt"]
    );
    assert_eq!(
        borrows("ghost use Rattle.calls.specs.Call.{on};\n"),
        [""; 0]
    );
    let row = |specs: &str| Row {
        specs: specs.to_string(),
        ..sample_rows().remove(0)
    };
    let rows = [
        row("calls/specs/Theorem.antt"),
        row("calls/specs/Cases/Bench.antt"),
    ];
    assert_eq!(statement_files(&rows), files);
}
