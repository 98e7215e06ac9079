//! docs/READING.md, docs/EDITS.md, docs/PROVED.md, docs/TRUST.md and docs/DECISIONS.md name only what is there, and where it is; and
//! EDITS.md is what tools/edits prints of the must-fail edits.

use std::fs;
use std::path::Path;
use std::process::Command;
use yuzkamide_tests::compile::text;
use yuzkamide_tests::definitions::{
    definitions, of_header, of_proof_language, of_rattle, Definition, Found, Kind,
};
use yuzkamide_tests::files::files;
use yuzkamide_tests::mentions::{faults, Sources};
use yuzkamide_tests::program::{root, Outside};

fn document(name: &str) -> String {
    fs::read_to_string(root().join("docs").join(name)).unwrap()
}

#[test]
fn names_only_what_is_there() {
    let root = root();
    let definitions = definitions(&root);
    let sources = Sources {
        root: &root,
        definitions: &definitions,
    };
    for (name, least) in [
        ("READING.md", 400),
        ("EDITS.md", 200),
        ("PROVED.md", 200),
        ("TRUST.md", 30),
        ("DECISIONS.md", 50),
    ] {
        let (seen, faults) = faults(&document(name), &sources);
        println!("{name}: {seen} things in backquotes");
        assert!(seen > least, "the search finds the names: {seen}");
        assert!(faults.is_empty(), "{name}: not in the sources: {faults:#?}");
    }
}

// ---- the must-fail edits

/// What a copy of tools/edits prints in this folder, or what it says of edits that have not the form.
fn list_of_edits(folder: &Path) -> Result<String, String> {
    let mut command = Command::new(folder.join("tools/edits"));
    let output = command.output().unwrap();
    match output.status.code() {
        Some(0) => Ok(text(&output.stdout).to_string()),
        Some(1) if output.stdout.is_empty() => Err(text(&output.stderr).to_string()),
        status => panic!("{status:?}: {}", text(&output.stderr)),
    }
}

/// Every edit of the crates, as `crate/edit`.
fn edits() -> Vec<String> {
    let crates = root().join("crates");
    let label = |path: &Path| {
        let stem = path.file_stem().unwrap().to_str().unwrap();
        let folder = path.parent().unwrap();
        assert!(folder.ends_with("must-fail"), "{}", path.display());
        let in_crate = folder.parent().unwrap().file_name().unwrap();
        format!("{}/{stem}", in_crate.to_str().unwrap())
    };
    files(&crates, "edit").iter().map(|p| label(p)).collect()
}

/// docs/EDITS.md is what tools/edits prints, and that has a row for each edit.
#[test]
fn the_list_is_what_the_edits_say() {
    let list = list_of_edits(&root()).expect("each comment has the form");
    let edits = edits();
    assert!(edits.len() > 80, "the search finds them: {}", edits.len());
    for edit in &edits {
        let row = format!("\n| `{edit}` | ");
        assert_eq!(list.matches(&row).count(), 1, "{edit}");
    }
    assert_eq!(list.matches("\n| `").count(), edits.len());
    assert!(
        list == document("EDITS.md"),
        "docs/EDITS.md is not what the edits say: make it anew by tools/edits > docs/EDITS.md"
    );
}

/// A folder of one crate, `one`, in which tools/edits reads an edit that begins so, and one after it that is right.
#[test]
fn a_comment_of_another_form() {
    let tree = Outside::new("edits");
    let put = |path: &str, text: &str| tree.put(path, text);
    put(
        "crates.txt",
        "# NAME: what it depends on\nnone:\none staticlib: none\n",
    );
    fs::create_dir_all(tree.join("tools")).unwrap();
    fs::copy(root().join("tools/edits"), tree.join("tools/edits")).unwrap();
    let changes = "file: src/lib.rt\nold: right # not wrong\nnew: wrong\n";
    put(
        "crates/one/must-fail/b.edit",
        &format!("# Another.\n# Refused by `b`.\n{changes}"),
    );
    let list = |comment: &str| {
        put(
            "crates/one/must-fail/a.edit",
            &format!("{comment}{changes}"),
        );
        list_of_edits(&tree)
    };
    for (comment, row) in [
        (
            "# An error.\n# Refused by `name`.\n",
            "| `one/a` | An error. | `name` |",
        ),
        (
            "# An error, as\n# a definition. It is wrong.\n# Refused by `name`, and\n# so `Other`.\n",
            "| `one/a` | An error, as a definition. It is wrong. | `name`, and so `Other` |",
        ),
    ] {
        let list = list(comment).unwrap();
        let (_, rows) = list.split_once("|---|---|---|\n").unwrap();
        assert_eq!(rows, format!("{row}\n| `one/b` | Another. | `b` |\n"));
    }
    for (comment, fault) in [
        ("", "does not begin with an error"),
        ("# An error.\n", "does not end with"),
        ("# An error. Refused by `name`.\n", "does not end with"),
        ("# Refused by `name`.\n", "does not begin with an error"),
        (
            "# An error\n# Refused by `name`.\n",
            "does not begin with an error",
        ),
        ("# An error.\n# Refused by `name`\n", "does not end with"),
        ("# An error.\n# Refused by name.\n", "does not end with"),
        (
            "# An error.\n# Refused by `name`.\n# Refused by `other`.\n",
            "begins two lines",
        ),
        ("# An error | so.\n# Refused by `name`.\n", "has a bar"),
        (
            "# An error.\n# Refused by `name`.\nfile: src/lib.rt\n# A comment.\n",
            "is not at its top",
        ),
    ] {
        let faults = list(comment).unwrap_err();
        let named = "tools/edits: crates/one/must-fail/a.edit: ";
        let has = |line: &str| line.starts_with(named) && line.contains(fault);
        assert!(faults.lines().any(has), "{comment}: {faults}");
        assert!(!faults.contains("b.edit"), "{comment}: {faults}");
    }
}

// ---- definitions and mentions

fn names(found: Vec<Found>) -> Vec<(String, Kind, String)> {
    let whole = |of: Option<String>| of.unwrap_or_default();
    found
        .into_iter()
        .map(|(name, kind, of)| (name, kind, whole(of)))
        .collect()
}

fn is(name: &str, kind: Kind, of: &str) -> (String, Kind, String) {
    (name.to_string(), kind, of.to_string())
}

#[test]
fn a_comment_defines_nothing() {
    let text = "-- `renamed` says so
use Rattle.std.specs.Prelude.{length, taken}

pub data Call : Type 0 where
  read : (b : ℕ) → Call
  status : Call  -- pub commented : ℕ

pub record Claim (e : Event) : Type 0 where
  -- pub commented : ℕ
  pub answer : (b : ℕ) →
      bound : b

unfoldable pub length_of : ℕ → ℕ
length_of k = local : k
  where
    local : ℕ

module _ (parameter : ℕ) where
  law : parameter ≡ 1
  law = go
    where
      go : 1 ≡ 1

  module _ (other : ℕ) where
    pub inner : ℕ
";
    assert_eq!(
        names(of_proof_language(text)),
        [
            is("Call", Kind::Type, ""),
            is("read", Kind::Constructor, "Call"),
            is("status", Kind::Constructor, "Call"),
            is("Claim", Kind::Type, ""),
            is("answer", Kind::Field, "Claim"),
            is("length_of", Kind::Term, ""),
            is("law", Kind::Term, ""),
            is("inner", Kind::Term, ""),
        ]
    );
    let rattle = "// fn commented()
pub enum Health {
    Whole,
    Out(u8),
    Made { count: u64 },
}
pub struct Count { pub made: u64 }
pub fn write(x: u64) -> u8
    ensures answer { result ≡ x }
{
    let bound = x;
    bound
}
";
    assert_eq!(
        names(of_rattle(rattle)),
        [
            is("answer", Kind::Clause, "write"),
            is("write", Kind::Function, ""),
            is("made", Kind::Field, "Count"),
            is("Count", Kind::Type, ""),
            is("Whole", Kind::Constructor, "Health"),
            is("Out", Kind::Constructor, "Health"),
            is("Made", Kind::Constructor, "Health"),
            is("Health", Kind::Type, ""),
        ]
    );
    let header = "/* pbm_commented */\nuint8_t pbm_read(void); // pbm_after\n";
    assert_eq!(names(of_header(header)), [is("pbm_read", Kind::Header, "")]);
}

/// What is wrong with a text about these definitions: `Call` with `read` and `status`, `effect` and the record `Claim` in one
/// file, `stands` in another, and a function `write`.
fn said(text: &str) -> Vec<String> {
    let define = |name: &str, kind, of: Option<&str>, file: &str| Definition {
        name: name.to_string(),
        kind,
        of: of.map(str::to_string),
        file: format!("crates/{file}"),
    };
    let (effect, moves, writing) = (
        "calls/specs/Effect.antt",
        "layout/specs/Moves.antt",
        "access/src/writing.rt",
    );
    let definitions = [
        define("Call", Kind::Type, None, effect),
        define("read", Kind::Constructor, Some("Call"), effect),
        define("status", Kind::Constructor, Some("Call"), effect),
        define("effect", Kind::Term, None, effect),
        define("Claim", Kind::Type, None, effect),
        define("answer", Kind::Field, Some("Claim"), effect),
        define("good_left", Kind::Field, Some("Claim"), effect),
        define("stands", Kind::Term, None, moves),
        define("place", Kind::Field, Some("Layout"), moves),
        define("write", Kind::Function, None, writing),
        define("images", Kind::Clause, Some("write"), writing),
    ];
    let root = root();
    let sources = Sources {
        root: &root,
        definitions: &definitions,
    };
    faults(text, &sources).1
}

#[test]
fn what_is_said_rightly() {
    for text in [
        "`effect` (`calls/specs/Effect.antt`), `stands`",
        "| `effect`, `Call` (`calls/specs/Effect.antt`) | `stands` of `layout/specs/Moves.antt` |",
        "`effect` and\n`Call` (`calls/specs`), `stands` of `layout`",
        "`effect (read b)`, `(read b)` and `effect status`",
        "`Claim.answer`, `good_left`; `stands`",
        "`Claim.answer` (`calls/specs/Effect.antt`)",
        "clause `images` of `write`, `read` of `Call`",
        "`(effect g).place`, `effect g.place`, `List Call`, `length f.place`",
        "`layout/zone_at_once`, `docs/READING.md`, `access`",
        "> `no-such-name`",
    ] {
        assert_eq!(said(text), [""; 0], "{text}");
    }
}

#[test]
fn what_is_said_wrongly() {
    for (text, fault) in [
        ("`efect`", "efect"),
        ("a\n| b | `efect` |", "efect"),
        (
            "`effect` (`layout/specs/Moves.antt`)",
            "effect of layout/specs/Moves.antt",
        ),
        (
            "`effect` of `layout/specs/Moves.antt`",
            "effect of layout/specs/Moves.antt",
        ),
        (
            "`stands`, `effect` (`calls/specs/Effect.antt`)",
            "stands of calls/specs/Effect.antt",
        ),
        (
            "`effect` and\n`stands` (`layout/specs`)",
            "effect of layout/specs",
        ),
        ("`effect` of `layout`", "effect of layout"),
        (
            "`effect (read b)` (`layout/specs/Moves.antt`)",
            "effect (read b) of layout/specs/Moves.antt",
        ),
        ("`effect (reed b)`", "effect (reed b)"),
        ("`efect (read b)`", "efect (read b)"),
        ("`effect (answer b)`", "effect (answer b)"),
        ("`effect missing`", "effect missing"),
        ("`(effect g).plaze`", "(effect g).plaze"),
        ("`effect g.plaze`", "effect g.plaze"),
        ("`effect gg.place`", "effect gg.place"),
        ("`(b)`", "(b)"),
        ("`Claim.images`", "Claim.images"),
        ("`Call.read`", "Call.read"),
        (
            "`Claim.answer` (`layout/specs/Moves.antt`)",
            "Claim.answer of layout/specs/Moves.antt",
        ),
        ("`Claim.answer`, `stands`", "stands"),
        ("clause `answer` of `write`", "answer of write"),
        ("`write` of `Call`", "write of Call"),
        ("`layout/no_such_edit`", "layout/no_such_edit"),
        ("`layout/specs/Nothing.antt`", "layout/specs/Nothing.antt"),
        ("`specs/Theorem.antt`", "specs/Theorem.antt"),
    ] {
        assert_eq!(said(text), [fault], "{text}");
    }
}
