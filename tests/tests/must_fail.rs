//! The must-fail edits are refused because a fact no longer holds, and not because the edit put the code and its proof
//! file, or a definition and its names, out of step. Reads the logs that tools/edit leaves: `rt ci` says one line of each edit.
//!
//! The prover says only that a proof does not fit. That the fact itself is wrong is certain where both sides are values: so an
//! edit of a definition must be refused by a computed case (or, where no value shows it, first by a law that is named here).
//! An edit of code alone has no such case, since a contract speaks of all arguments: it must be refused in the proof of a
//! function's contract, where the two sides that differ are the code's result and the definition's, or where the prover found the proof
//! itself and finds none now.
//!
//! And tools/edit, which tries one edit, takes none for refused that did not reach the prover.

use std::fs;
use std::os::unix::fs::PermissionsExt;
use std::path::PathBuf;
use std::process::Command;
use yuzkamide_tests::compile::text;
use yuzkamide_tests::program::{root, target, Outside};

/// Computed cases, by their file and declaration, and the edits of definitions that they must be among what refuses.
const COMPUTED: &[(&str, &str, &[&str])] = &[
    (
        "proofs/Cases/Folds.antt:",
        "`folds`",
        &["parity/old_parity_left_in", "parity/out_summed_in"],
    ),
    (
        "proofs/Cases/Points.antt:",
        "`points`",
        &[
            "points/big_end_first",
            "points/first_from_last",
            "points/high_bytes_first",
            "points/refused_target_touched",
            "points/saturating_difference",
            "points/sign_turned_both_ways",
        ],
    ),
    (
        "proofs/Cases/Paper.antt:",
        "`paper`",
        &[
            "layout/one_from_each_disk",
            "layout/ranks_from_lowest",
            "layout/zone_at_once",
        ],
    ),
    (
        "proofs/Cases/Tail.antt:",
        "`tails`",
        &["layout/part_of_a_group", "layout/tail_without_numbers"],
    ),
    (
        "proofs/Cases/Zones.antt:",
        "`zones`",
        &["layout/capacity_by_moves", "layout/zone_opened_early"],
    ),
    (
        "proofs/Cases/Lit.antt:",
        "`lit`",
        &[
            "layout/moved_too_early",
            "layout/moved_with_its_parity",
            "layout/new_block_moved",
            "layout/parity_on_old_disk",
        ],
    ),
    (
        "proofs/Cases/Bench.antt:",
        "`unmarked`",
        &["calls/tail_moves"],
    ),
    (
        "proofs/Exact.antt:",
        "`computed`",
        &["zone_moves/thousands_dropped", "zone_moves/zone_of_three"],
    ),
    (
        "proofs/Cases/Drawers.antt:",
        "`drawers`",
        &[
            "calls/blank_of_lost_disk_zero",
            "calls/continue_counts_unwritten",
            "calls/continue_sums_itself",
            "calls/count_kept_after_out",
            "calls/grow_records_first",
            "calls/parity_on_old_disk",
            "calls/parity_skipped",
            "calls/place_left_full",
            "calls/read_of_zeros",
            "calls/record_before_last_stripes",
            "calls/refusal_clears_block",
            "calls/second_out_kept",
            "calls/stripe_in_service_early",
            "calls/table_fed_a_byte",
            "calls/view_fills_always",
        ],
    ),
    (
        "proofs/Cases/Sweeps.antt:",
        "`flipped`",
        &[
            "calls/blanks_not_looked_at",
            "calls/count_is_the_stripe",
            "calls/last_stripe_not_read",
            "calls/last_unsound_first",
        ],
    ),
    (
        "proofs/Cases/Sample.antt:",
        "`sample`",
        &[
            "history/continue_reports_all",
            "history/lengthened_at_the_end",
            "history/lengthened_late",
        ],
    ),
];

/// The edits of definitions that no computed case shows, and the law, or the proof of a contract, that must be the first to
/// refuse them.
const BY_LAW: &[(&str, &str, &[&str])] = &[
    // what is stored is read back
    (
        "proofs/Laws/Block.antt:",
        "`block_at-store`",
        &["blocks/block_from_start"],
    ),
    // the bytes of a number give it back
    (
        "proofs/Laws/Number.antt:",
        "`two_back`",
        &["blocks/big_end_first"],
    ),
    // a point call is refused 11 for what document 02 says, and nothing else
    (
        "proofs/Laws/Answer.antt:",
        "`not-refused`",
        &["points/long_slice_refused"],
    ),
    // and which lengths are even is said in bare numbers
    ("proofs/Theorem.antt:", "`fills`", &["points/even_by_name"]),
    // the stripe within its zone that is printed of a move
    (
        "proofs/Laws/Order.antt:",
        "`within_is`",
        &["layout/within_one_too_small"],
    ),
    // format is refused 6 for what document 01 says, and nothing else
    (
        "proofs/Laws/Reasons.antt:",
        "`unformable`",
        &["calls/one_length_refused"],
    ),
    // which number a grow is given
    (
        "proofs/Numbered.antt:",
        "`of-grow`",
        &["calls/limit_before_grown"],
    ),
    // the numbers of the refusal words, and of what a point call is refused with, are bare numbers
    (
        "proofs/Theorem.antt:",
        "`tells`",
        &["refusals/words_exchanged"],
    ),
    (
        "proofs/Theorem.antt:",
        "`told`",
        &["packing/points_refused_as_a_disk"],
    ),
    // where a view begins is said in bare numbers
    (
        "proofs/Theorem.antt:",
        "`view-begins`",
        &["access/view_elsewhere"],
    ),
    // the version is a bare number
    (
        "proofs/Theorem.antt:",
        "`versioned`",
        &["pbm/version_raised_alone"],
    ),
    // a record's bytes are read back
    (
        "proofs/Laws/Bytes.antt:",
        "`decode-encode`",
        &["state/stripes_backwards"],
    ),
    // good bytes are those of a good record
    (
        "proofs/Theorem.antt:",
        "`good-bytes`",
        &["state/unread_bytes_ignored"],
    ),
    // of a rebuild a stripe is left
    (
        "proofs/Laws/Good.antt:",
        "`health-within`",
        &["state/count_of_all"],
    ),
    // another health, and all else as it was
    (
        "proofs/Laws/Good.antt:",
        "`turned`",
        &["state/health_restarts_growth"],
    ),
    // what a disk that is being rebuilt may hold
    (
        "proofs/Laws/Lending.antt:",
        "`free-to-lend`",
        &["history/rebuilding_disk_in_service"],
    ),
    // only images of the length that is asked for have to be those left
    (
        "proofs/Laws/Lending.antt:",
        "`by-asked`",
        &["history/any_length_kept"],
    ),
];

#[derive(Clone, Copy, Debug, PartialEq)]
enum Kind {
    /// two sides that have to be equal are not: two values, or what the code or a law has and what is asked
    Differ,
    /// numbers were found for which what is given holds and what is asked does not
    Refuted,
    /// nothing that is given proves what is asked
    Unproved,
    /// the proof does not fit what it is given: a name, a pattern or an argument is missing
    Shape,
    /// something that this rests on was refused before it
    Follows,
}

/// What kind of refusal this is; none if its words are not known.
fn kind(words: &str) -> Option<Kind> {
    let message = match words.split_once("`: ") {
        Some((name, message)) if name.starts_with('`') && !name[1..].contains('`') => message,
        _ => words,
    };
    let starts = |with: &[&str]| with.iter().any(|w| message.starts_with(w));
    let has = |part: &[&str]| part.iter().any(|p| message.contains(p));
    let not_checked = [", was not checked: ", ", were not checked: "];
    if has(&["so this cannot be checked"]) || has(&[" that depend"]) && has(&not_checked) {
        Some(Kind::Follows)
    } else if starts(&[GOAL]) {
        match has(&["the facts known there allow values at which this goal is false"]) {
            true => Some(Kind::Refuted),
            false => Some(Kind::Unproved),
        }
    } else if starts(&[
        "expected type `goal.",
        "unsolved ?",
        "list the missing equation with its arguments",
        "replace that `_` with the term",
        // `record X has no field y`, whose end may stand in the next line
        "record `",
    ]) || has(&[
            "is not in scope",
            "that can be named from here",
            "no module is found by the path",
            "` projects from a `",
            "is not a constructor of",
            "is not admitted: unsolved",
            "no equation of the list has an instance in the goal",
            "no part of the goal",
            "no occurrence of the path's left endpoint in the goal",
        ])
    {
        Some(Kind::Shape)
    } else if starts(&["`omega`: the goal does not follow from what it read. All of that holds, and the goal fails, at "])
        || starts(&["`omega`: the part `"]) && has(&["All of that holds, and the part fails, at "])
    {
        Some(Kind::Refuted)
    } else if starts(&["`search`: no proof of `"]) {
        Some(Kind::Unproved)
    } else if starts(&[
        "computed as far as they go, the two ",
        "as printed, the two ",
        "expected type `",
        // what `simp` or `rw` leaves is an equation whose two sides are not the same
        "give a proof of that as the last argument, `simp L t`",
        "give a proof of that as the last argument, `rw L t`",
    ]) {
        Some(Kind::Differ)
    } else {
        None
    }
}

/// How the prover names a goal of a function, by its place in src/, to which no file of proofs/ has an answer, and it found none.
const GOAL: &str = "it is not proved that ";

/// What a log refuses: each place, as file:line:column, with the words that follow it. Other notes are left out.
fn refusals(log: &str) -> Vec<(String, String)> {
    let mut all = Vec::new();
    for line in log.lines() {
        let (line, is_note) = match line.strip_prefix("note: ") {
            Some(rest) => (rest, true),
            None => (line, false),
        };
        let Some((place, words)) = line.split_once(": ") else {
            continue;
        };
        let place = place.strip_prefix("./").unwrap_or(place);
        let is_place = ["proofs/", "specs/", "src/"]
            .iter()
            .any(|p| place.starts_with(p))
            && place.ends_with(|c: char| c.is_ascii_digit());
        let is_help = ["note: ", "help: "].iter().any(|w| words.starts_with(w));
        if !is_place || is_help || (is_note && !words.starts_with(GOAL)) {
            continue;
        }
        let words = words.strip_prefix("error: ").unwrap_or(words);
        all.push((place.to_string(), words.to_string()));
    }
    all
}

/// Whether it is in the proof of a function: in a file of its own, or at a goal of which the prover was to find the proof itself.
fn is_of_function(place: &str, words: &str) -> bool {
    let files = ["/Answers.antt:", "/Invariants.antt:", "/Proof.antt:"];
    let of_laws = place.starts_with("proofs/Laws/");
    words.starts_with(GOAL)
        || (place.starts_with("proofs/") && !of_laws && files.iter().any(|f| place.contains(f)))
}

struct Edit {
    /// crate/label
    label: String,
    /// does it change a definition?
    definition: bool,
    log: PathBuf,
}

impl Edit {
    /// What its log refuses, each with its kind.
    fn refusals(&self) -> Vec<(String, String, Kind)> {
        let label = &self.label;
        let log = fs::read_to_string(&self.log)
            .unwrap_or_else(|e| panic!("{label}: {e} (run `tools/edit {label}` first)"));
        refusals(&log)
            .into_iter()
            .map(|(place, words)| {
                let kind = kind(&words).unwrap_or_else(|| {
                    panic!("{label}: a kind of error that is not known: {place}: {words}")
                });
                (place, words, kind)
            })
            .collect()
    }
}

/// Each edit of the repository.
fn edits() -> Vec<Edit> {
    let mut all = Vec::new();
    for name in fs::read_dir(target().join("../crates")).unwrap() {
        let name = name.unwrap();
        let Ok(folder) = fs::read_dir(name.path().join("must-fail")) else {
            continue;
        };
        for edit in folder {
            let path = edit.unwrap().path();
            let label = path.file_stem().unwrap().to_str().unwrap();
            let text = fs::read_to_string(&path).unwrap();
            all.push(Edit {
                label: format!("{}/{label}", name.file_name().to_str().unwrap()),
                definition: text.lines().any(|line| line.starts_with("file: specs/")),
                log: target()
                    .join("must-fail")
                    .join(name.file_name())
                    .join(format!("{label}.log")),
            });
        }
    }
    assert!(!all.is_empty());
    all
}

/// The file and the declaration that a table names for an edit.
fn named(
    table: &[(&'static str, &'static str, &[&str])],
    label: &str,
) -> Option<(&'static str, &'static str)> {
    table
        .iter()
        .find(|(_, _, labels)| labels.contains(&label))
        .map(|(file, name, _)| (*file, *name))
}

#[test]
fn not_refused_for_its_shape() {
    for edit in edits() {
        let refusals = edit.refusals();
        let label = &edit.label;
        let Some((place, words, kind)) = refusals.first() else {
            panic!("{label}: no error in its log");
        };
        assert!(
            place.starts_with("proofs/") || is_of_function(place, words),
            "{label} is refused outside proofs/: {place}: {words}"
        );
        assert!(
            [Kind::Differ, Kind::Refuted, Kind::Unproved].contains(kind),
            "{label} is refused for its shape: {place}: {words}"
        );
    }
}

#[test]
fn wrong_code_is_refused_at_a_contract() {
    for edit in edits().iter().filter(|edit| !edit.definition) {
        let (place, words, _) = &edit.refusals()[0];
        assert!(
            is_of_function(place, words),
            "{} is not refused first in the proof of a function: {place}: {words}",
            edit.label
        );
    }
}

#[test]
fn wrong_definitions_are_refused_at_a_value() {
    let edits = edits();
    for label in COMPUTED
        .iter()
        .chain(BY_LAW)
        .flat_map(|(_, _, labels)| *labels)
    {
        assert!(
            edits.iter().any(|edit| edit.label == *label),
            "no edit {label}"
        );
    }
    for edit in edits.iter().filter(|edit| edit.definition) {
        let label = &edit.label;
        let refusals = edit.refusals();
        if let Some((file, name)) = named(COMPUTED, label) {
            assert!(
                refusals
                    .iter()
                    .any(|(place, words, kind)| place.starts_with(file)
                        && words.starts_with(name)
                        && *kind == Kind::Differ),
                "{label} is not refused by a computed case"
            );
        } else if let Some((file, name)) = named(BY_LAW, label) {
            let (place, words, _) = &refusals[0];
            assert!(
                place.starts_with(file) && words.starts_with(name),
                "{label} is not refused first by {name}: {place}: {words}"
            );
        } else {
            panic!("{label} edits a definition: name the computed case that refuses it");
        }
    }
}

#[test]
fn kinds_of_error() {
    let samples = [
        (
            "`paper`: as printed, the two types differ only where one has `move 1 2 7 0 3`",
            Some(Kind::Differ),
        ),
        (
            "`block-at`: as printed, the two types first differ where one has `(x ∷ l)` (expected), right after `block_at`",
            Some(Kind::Differ),
        ),
        (
            "`facts`: as printed, the two sides differ only where one has `zeroed m ++ header (grown_by r m) ∷ []`",
            Some(Kind::Differ),
        ),
        (
            "`returns`: computed as far as they go, the two types differ only where one has `2` (expected) and the other has `0` (found)",
            Some(Kind::Differ),
        ),
        (
            "`length-block_at`: computed as far as they go, the two types are `Path ℕ (length (take n l)) n`",
            Some(Kind::Differ),
        ),
        (
            "`zone-moves`: expected type `get_or (zone_moves n m z) 0 0 ≡ k`, but this has type `get_or (indices 0 1) 0 0 ≡ k`",
            Some(Kind::Differ),
        ),
        (
            "`returns-5`: give a proof of that as the last argument, `simp L t` (`simp L ?` shows it as a hole's goal), or add what is missing to the list",
            Some(Kind::Differ),
        ),
        (
            "`returns-2`: give a proof of that as the last argument, `rw L t` (`rw L ?` shows it as a hole's goal), or add what is missing to the list",
            Some(Kind::Differ),
        ),
        (
            "`rank-home`: `omega`: the goal does not follow from what it read. All of that holds, and the goal fails, at `n` = 3, `n - 2` = 1",
            Some(Kind::Refuted),
        ),
        (
            "`returns-2`: `search`: no proof of `Post (Prim.tt {0}) (c .before .args)`",
            Some(Kind::Unproved),
        ),
        (
            "it is not proved that what the function ensures holds when it returns (`returns`); `search` gave up at one of its limits",
            Some(Kind::Unproved),
        ),
        (
            "it is not proved that the sum fits its type (at an index); the facts known there allow values at which this goal is false",
            Some(Kind::Refuted),
        ),
        (
            "`disk-lt`: `simp`: no equation of the list has an instance in the goal `data_disk n S r < n`.",
            Some(Kind::Shape),
        ),
        (
            "`get_or-block_at`: `rw`: no part of the goal `Path ℕ (get_or l i 0) (get_or l (at + i) 0)` is an instance of `get_or l i 0`",
            Some(Kind::Shape),
        ),
        (
            "`data-out`: `rw`: no occurrence of the path's left endpoint in the goal: write the family yourself and transport",
            Some(Kind::Shape),
        ),
        (
            "`spelt`: list the missing equation with its arguments, or rewrite by `rw` or `simp`",
            Some(Kind::Shape),
        ),
        (
            "`block-home`: replace that `_` with the term it stands for",
            Some(Kind::Shape),
        ),
        ("`turn-of-move`: `ap₃` is not in scope", Some(Kind::Shape)),
        (
            "`returns`: module `goal` has no `returns-2` that can be named from here (did you mean `returns`?)",
            Some(Kind::Shape),
        ),
        (
            "no module is found by the path `Rattle.blocks.proofs.sum.Goals`: a path begins with a child of this module",
            Some(Kind::Shape),
        ),
        (
            "`returns`: `.ensures` projects from a `Σ` type or a record, but this has type `a ≡ b`",
            Some(Kind::Shape),
        ),
        (
            "`mul-result`: record `layout.open_stripes.Lts.After-struct-known`",
            Some(Kind::Shape),
        ),
        (
            "`indices`: `◌∷◌` is not a constructor of `ℕ`: it is a constructor of `List`",
            Some(Kind::Shape),
        ),
        (
            "`returns`: expected type `goal.returns`, but this has type `goal.returns-2`",
            Some(Kind::Shape),
        ),
        (
            "`lines-append` is not admitted: unsolved",
            Some(Kind::Shape),
        ),
        (
            "unsolved ?31 in `lines-append`: `_` was not determined",
            Some(Kind::Shape),
        ),
        (
            "`step`: `step-by` was not admitted (it has holes or undetermined implicits, or was rejected), so this cannot be checked",
            Some(Kind::Follows),
        ),
        (
            "2 declarations that depend on `step`, which was not admitted, were not checked: by_step, all",
            Some(Kind::Follows),
        ),
        (
            "1 declaration that depends on `step`, which was rejected, was not checked: returns",
            Some(Kind::Follows),
        ),
        ("`step`: some words that no log has had", None),
    ];
    for (words, expected) in samples {
        assert_eq!(kind(words), expected, "{words}");
    }
}

#[test]
fn reads_a_log() {
    let log = "\
checked layout::moves::move_of, 5 of 29
./proofs/Laws/Lines.antt:94:1: `lines-append` is not admitted: unsolved
  to decide it, write: a term
./proofs/Cases/Paper.antt:13:20: error: `paper`: as printed, the two types differ only where one has `1`
  expected type `a: b`
./proofs/Laws/Lag.antt:1:2: note: `simp` made 1 round(s): none
note: src/parse.rt:53:61: it is not proved that what the function ensures holds when it returns (`returns`); `search` gave up at one of its limits
note: a goal may be false even if its line does not say so: help: try the goal by hand
note: `returns` of proofs/parse/field_of/Answers.antt must prove: a ≡ b
note: proofs/parse/field_of/Answers.antt:1:2: it is not needed
fn layout::moves::move_of: proved
logic=not-proved";
    let expected = [
        (
            "proofs/Laws/Lines.antt:94:1",
            "`lines-append` is not admitted: unsolved",
        ),
        (
            "proofs/Cases/Paper.antt:13:20",
            "`paper`: as printed, the two types differ only where one has `1`",
        ),
        (
            "src/parse.rt:53:61",
            "it is not proved that what the function ensures holds when it returns (`returns`); `search` gave up at one of its limits",
        ),
    ];
    let found = refusals(log);
    assert_eq!(found.len(), expected.len());
    for ((place, words), (p, w)) in found.iter().zip(expected) {
        assert_eq!((place.as_str(), words.as_str()), (p, w));
    }
    let of_function: Vec<bool> = found.iter().map(|(p, w)| is_of_function(p, w)).collect();
    assert_eq!(of_function, [false, false, true]);
    for (place, is_of) in [
        ("proofs/sum/add_group/Answers.antt:47:5", true),
        ("proofs/sum/add_group/Invariants.antt:4:5", true),
        ("proofs/Answers.antt:47:5", true),
        ("proofs/Laws/Sum.antt:47:5", false),
        ("specs/Answers.antt:47:5", false),
    ] {
        assert_eq!(
            is_of_function(place, "`returns`: they differ"),
            is_of,
            "{place}"
        );
    }
}

/// A repository of one crate, in which tools/edit has a stand-in for `rt`: it goes by a word of the source, and notes that it was asked.
#[test]
fn one_edit_is_tried() {
    let rt = "\
#!/bin/sh
[ \"$*\" != version ] || { echo stand-in; exit; }
case \"$*\" in check | 'check --jobs 1') ;; *) exit 2 ;; esac
[ \"${PWD##*/}\" = one ] && [ -e ../../crates.txt ] || exit 2
[ \"$*\" = check ] || [ ! -e out ] && [ -e proofs/f/out/A.antt ] || exit 2
echo asked >>\"$ASKED\"
mkdir -p out && echo built >out/built
case $(cat src/lib.rt) in
*right*) echo logic=proved ;;
*wrong*) echo './proofs/A.antt:1:2: error: they differ' && echo logic=not-proved && exit 1 ;;
*unproved*) echo 'note: src/lib.rt:1:2: it is not proved that it holds' && echo logic=not-proved && exit 1 ;;
*nameless*) echo './specs/A.antt:1:2: error: no such name' && echo logic=not-proved && exit 1 ;;
*odd*) echo 'src/lib.rt:1:2: error: no such word' && exit 1 ;;
*below*) echo logic=not-proved && echo 'rt: the library other did not build' && exit 1 ;;
*) exit 3 ;;
esac >&2
";
    let tree = Outside::new("edit");
    let put = |path: &str, text: &str| tree.put(path, text);
    let (source, tool) = ("crates/one/src/lib.rt", "tools/edit");
    let log = "target/must-fail/one/edit.log";
    put("crates.txt", "one:\n");
    put(source, "// right, all of it\n// it is\n");
    put(
        "crates/one/proofs/f/out/A.antt",
        "-- of a function called out\n",
    );
    put("bin/rt", rt);
    put(tool, &fs::read_to_string(root().join(tool)).unwrap());
    for script in ["bin/rt", tool] {
        let mode = fs::Permissions::from_mode(0o755);
        fs::set_permissions(tree.join(script), mode).unwrap();
    }
    let bin = tree.join("bin");
    let path = format!("{}:{}", bin.display(), std::env::var("PATH").unwrap());
    let mut asked = 1; // without an edit
    for (edit, status, said, more) in [
        (
            "old: right\nnew: wrong",
            0,
            "refused: ./proofs/A.antt:1:2: error: they differ\n",
            1,
        ),
        (
            "old: right\nnew: unproved",
            0,
            "refused: note: src/lib.rt:1:2: it is not proved that it holds\n",
            1,
        ),
        (
            "old: all\nnew: none",
            1,
            "NOT REFUSED: one is still proved with it\n",
            1,
        ),
        (
            "old: right\nnew: nameless",
            2,
            "BAD EDIT: it is refused outside of proofs/, so for no fact: ./specs/A.antt:1:2: error: no such name\n",
            1,
        ),
        (
            "old: right\nnew: odd",
            2,
            "BAD EDIT: it did not reach the prover (exit 1): ",
            1,
        ),
        (
            "old: right\nnew: below",
            2,
            "BAD EDIT: it did not reach the prover (exit 1): ",
            1,
        ),
        (
            "old: right,\nnew:",
            2,
            "BAD EDIT: it did not reach the prover (exit 3): ",
            1,
        ),
        (
            "old: bright\nnew: wrong",
            2,
            "BAD EDIT: an old: text is not in src/lib.rt\n",
            0,
        ),
        (
            "old: it\nnew: that",
            2,
            "BAD EDIT: an old: text is in src/lib.rt more than once\n",
            0,
        ),
        (
            "new: wrong",
            2,
            "BAD EDIT: an old: text is not in src/lib.rt\n",
            0,
        ),
        (
            "old: right",
            2,
            "BAD EDIT: it has no old: and new: pair\n",
            0,
        ),
    ] {
        put(
            "crates/one/must-fail/edit.edit",
            &format!("file: src/lib.rt\n{edit}\n"),
        );
        let mut command = Command::new(tree.join(tool));
        command.arg("one/edit").env("PATH", &path);
        command.env("ASKED", tree.join("asked"));
        let output = command.output().unwrap();
        let out = text(&output.stdout);
        assert!(
            out.starts_with(said),
            "{edit}: {out}{}",
            text(&output.stderr)
        );
        assert!(out.contains("not the verdict"), "{out}");
        assert_eq!(output.status.code(), Some(status), "{edit}");
        asked += more;
        let lines = fs::read_to_string(tree.join("asked")).unwrap();
        assert_eq!(lines.lines().count(), asked, "{edit}");
        // the log is that of this edit, and no other's
        assert_eq!(tree.join(log).exists(), more == 1, "{edit}");
    }
}
