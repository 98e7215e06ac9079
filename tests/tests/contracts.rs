//! Every function that another module can call says what it answers and what it leaves of everything that it is lent to write;
//! entry points require nothing: they refuse; the clauses of their crates have names; the symbols mean what the library says; and no
//! line is too long to be read.

use std::collections::BTreeMap;
use std::fs;
use std::path::PathBuf;
use yuzkamide_tests::contracts::{
    equations, functions, handed_on, named_fields, structs, Function, Structs, Visibility,
    ENTRY_CRATES, RECORDS,
};
use yuzkamide_tests::definitions::{of_proof_language, Kind};
use yuzkamide_tests::files::texts;
use yuzkamide_tests::pbm::{family, in_rattle, Way, NAMES};
use yuzkamide_tests::program::target;
use yuzkamide_tests::statements::{ghost_uses, uses};

/// Functions inside a crate whose answer is left open where no caller looks at it, and limited there: the blanks below a disk
/// are counted only if it is blank itself, and only where all moves of its zone are made, or none.
const LIMITED: &[(&str, &str)] = &[("placement", "count_below")];

/// Functions that print, and answer only whether that was written: this no contract can know.
const PRINTING: &[(&str, &str)] = &[
    ("viewer", "print_case"),
    ("viewer", "print_view"),
    ("viewer", "print_scratch"),
];

/// A function where it stands.
struct Found {
    function: Function,
    in_crate: String,
    /// Below crates/.
    file: String,
    /// Another crate can call it.
    exported: bool,
}

impl Found {
    fn is_of(&self, list: &[(&str, &str)]) -> bool {
        list.contains(&(self.in_crate.as_str(), self.function.name.as_str()))
    }

    fn is_limited(&self) -> bool {
        self.is_of(LIMITED)
    }

    fn is_printing(&self) -> bool {
        self.is_of(PRINTING) && self.function.returns.as_deref() == Some("io::Result<()>")
    }

    fn is_entry_point(&self) -> bool {
        self.function.is_entry_point(&self.in_crate)
    }

    fn in_entry_crate(&self) -> bool {
        ENTRY_CRATES.contains(&self.in_crate.as_str())
    }

    fn place(&self) -> String {
        format!("{} in {}", self.function.name, self.file)
    }
}

fn crates() -> PathBuf {
    target().join("../crates")
}

/// The functions that are `pub` in some way, and all structs.
fn public_functions() -> (Vec<Found>, Structs) {
    let (mut all, structs) = all_functions();
    all.retain(|f| f.function.visibility != Visibility::Private);
    (all, structs)
}

fn all_functions() -> (Vec<Found>, Structs) {
    let mut all = Vec::new();
    let mut all_structs = Structs::new();
    for (file, text) in texts(&crates(), "rt") {
        let in_crate = file.split('/').next().unwrap();
        let lib = crates().join(in_crate).join("src/lib.rt");
        let handed_on = handed_on(&fs::read_to_string(lib).unwrap_or_default());
        for (name, fields) in structs(&text) {
            let other = all_structs.insert(name.clone(), fields);
            assert!(other.is_none(), "two structs have the name {name}");
        }
        let in_lib = file.ends_with("/lib.rt");
        for function in functions(&text) {
            all.push(Found {
                exported: function.visibility == Visibility::Public
                    && (in_lib || handed_on.contains(&function.name)),
                in_crate: in_crate.to_string(),
                file: file.clone(),
                function,
            });
        }
    }
    (all, all_structs)
}

#[test]
fn the_search_finds_the_functions() {
    let (all, structs) = public_functions();
    let exported = |in_crate: &str, name: &str| {
        let is = |f: &Found| f.exported && f.in_crate == in_crate && f.function.name == name;
        all.iter().any(is)
    };
    for name in NAMES {
        let rattle = in_rattle(name);
        assert!(
            exported(family(name), rattle) && exported("lent", rattle),
            "{name}"
        );
        assert!(exported("pbm", &format!("pbm_{name}")), "pbm_{name}");
    }
    assert!(exported("packing", "pack") && exported("packing", "unpack"));
    for name in Way::BOTH.map(Way::name) {
        assert!(exported("pbm", &format!("pbm_{name}")), "pbm_{name}");
    }
    assert!(exported("access", "view") && exported("lent", "view"));
    assert!(
        exported("placement", "place_of"),
        "handed on in a list over lines"
    );
    assert!(!exported("refusals", "is_lost"), "its module is private");
    let lent: usize = all.iter().map(|f| written(&f.function)).sum();
    assert!(lent > 40, "lent to write: {lent}");
    let fields =
        |name: &str| -> Vec<&str> { structs[name].iter().map(|f| f.name.as_str()).collect() };
    assert_eq!(fields("Progress"), ["made", "rec"]);
    assert_eq!(fields("Figures"), ["capacity", "moves", "total", "health"]);
    assert_eq!(fields("Swept"), ["unsound", "read"]);
    assert_eq!(fields("Viewed"), ["view", "left", "outcome"]);
    assert_eq!(fields("Place"), ["stripe", "disk"]);
}

fn written(f: &Function) -> usize {
    f.parameters.iter().filter(|p| p.is_written()).count()
}

#[test]
fn every_public_function_says_what_it_answers() {
    let (all, structs) = public_functions();
    for f in all {
        assert_ne!(
            f.function.says_answer(&structs),
            f.is_limited() || f.is_printing(),
            "{} gives its answer in an ensures clause",
            f.place()
        );
        assert!(!f.is_limited() || !f.exported, "{}", f.place());
    }
}

#[test]
fn every_public_function_says_what_it_leaves() {
    let open: Vec<String> = public_functions()
        .0
        .iter()
        .flat_map(|f| {
            let names = f.function.leaves_open();
            names
                .into_iter()
                .map(|name| format!("{name} of {}", f.place()))
                .collect::<Vec<_>>()
        })
        .collect();
    assert!(open.is_empty(), "not said what is left of {open:?}");
}

#[test]
fn entry_points_require_nothing() {
    let (all, _) = public_functions();
    let entries: Vec<&Found> = all.iter().filter(|f| f.is_entry_point()).collect();
    for name in ["answer_to", "view", "pbm_write"] {
        let is = |f: &&&Found| f.function.name == name;
        assert!(entries.iter().any(|f| is(&f)), "the search finds {name}");
    }
    for f in entries {
        assert!(
            f.function.requires.is_empty(),
            "{} requires something",
            f.place()
        );
    }
}

/// Those of private functions too.
#[test]
fn clauses_have_names() {
    let (all, _) = all_functions();
    let here: Vec<&Found> = all.iter().filter(|f| f.in_entry_crate()).collect();
    let clauses: usize = here.iter().map(|f| f.function.ensures.len()).sum();
    assert!(clauses > 100, "the search finds the clauses: {clauses}");
    let nameless = here.iter().filter(|f| !f.function.names_all());
    let nameless: Vec<String> = nameless.map(|f| f.place()).collect();
    assert!(nameless.is_empty(), "a clause has no name: {nameless:#?}");
}

/// Of a reference to a struct with fields `old` and `new` these words mean the fields: what it holds is `entry.now` and `exit.now`.
#[test]
fn fields_are_not_taken_for_values() {
    let (all, structs) = all_functions();
    assert_eq!(held_as_fields(&all, &structs), [""; 0]);
    let source = "pub fn f(r: &mut Record, a: &mut [u8])\n    ensures { (r.new ≡ a.new) × (r.exit.now.new ≡ 1) }\n{\n}\n";
    let found = Found {
        function: only(source),
        in_crate: "state".to_string(),
        file: "state/src/update.rt".to_string(),
        exported: true,
    };
    assert_eq!(
        held_as_fields(&[found], &structs),
        ["r.new of f in state/src/update.rt"]
    );
}

/// The words `x.old` and `x.new` of clauses where x is lent to write and has fields of these names.
fn held_as_fields(all: &[Found], structs: &Structs) -> Vec<String> {
    let mut found = Vec::new();
    for f in all {
        let clauses = f.function.requires.iter().chain(&f.function.ensures);
        let text: String = clauses.map(|c| format!("{} ", c.formula)).collect();
        let is_name = |c: char| c.is_alphanumeric() || "_.".contains(c);
        let words: Vec<&str> = text.split(|c| !is_name(c)).collect();
        for p in f.function.parameters.iter().filter(|p| p.is_written()) {
            let kind = p.kind.split_whitespace().last().unwrap();
            let fields = structs.get(kind).into_iter().flatten();
            for field in fields.filter(|field| ["old", "new"].contains(&field.name.as_str())) {
                let held = format!("{}.{}", p.name, field.name);
                let is = |w: &&str| **w == held || w.starts_with(&format!("{held}."));
                if words.iter().any(is) {
                    found.push(format!("{held} of {}", f.place()));
                }
            }
        }
    }
    found
}

/// The records that stand for equations hold them.
#[test]
fn records_of_equations() {
    let text = fs::read_to_string(crates().join("zone_moves/specs/Listing.antt")).unwrap();
    let record =
        "pub record Stored (out : List ℕ) (at : ℕ) (text after : List ℕ) (next : ℕ) : Type 0 where
  pub is : after ≡ written out at text
  pub place : next ≡ at + length text
";
    assert!(text.contains(record));
    assert_eq!(RECORDS, [("Stored", &[3, 4][..])]);
}

// ---- the rule itself, on functions that it must refuse or accept

fn only(text: &str) -> Function {
    let mut all = functions(text);
    assert_eq!(all.len(), 1);
    all.remove(0)
}

fn says_answer(text: &str) -> bool {
    only(text).says_answer(&structs("pub struct Pair { pub a: u64, pub b: Count, }\npub struct Count { pub number: u8, pub made: u64 }\npub struct Shown<'a> { pub part: &'a [u8], pub count: u64 }"))
}

/// A function that returns this type, with this clause.
fn answering(kind: &str, clause: &str) -> bool {
    says_answer(&format!(
        "pub fn f(x: u64, y: Record, images: &mut [u8], out: &mut [u8]) -> {kind}\n    {clause}\n{{\n    0\n}}\n"
    ))
}

#[test]
fn an_answer_is_set_equal_to_something() {
    for (kind, clause) in [
        ("u64", "ensures { result ≡ x + 1 }"),
        ("u64", "ensures { x + 1 ≡ result }"),
        ("u64", "ensures answer { (result ≤ 3) × (result ≡ f x) }"),
        ("u64", "ensures answer { ((r : Record) → result ≡ f r) }"),
        (
            "u64",
            "ensures { (r : Record) (a b : ℕ) → (result ≡ f r a b) × (0 ≤ result) }",
        ),
        (
            "u64",
            "ensures answer { result\n        ≡ f x\n            (g x) }",
        ),
        ("u64", "requires { x ≡ 1 }\n    ensures { result ≡ x }"),
        ("u64", "ensures { result ≡ f (record { a = 1; b = x }) }"),
        ("u64", "ensures { result ≡ f images.old x.new (g y).new }"),
        (
            "usize",
            "ensures { Stored out.old at (g x) out.new result }",
        ),
        ("&'a [u8]", "ensures view { result.now ≡ f x }"),
        (
            "Count",
            "ensures { (result.number ≡ 0) × (result.made ≡ x) }",
        ),
        ("Count", "ensures { result ≡ f x }"),
        (
            "Pair",
            "ensures { result.a ≡ x }\n    ensures { (result.b.number ≡ 0) × (result.b.made ≡ 1) }",
        ),
        (
            "Result<Figures, Refusal>",
            "ensures { report_answer result ≡ (called (on status [] []) y).answer }",
        ),
        (
            "Result<Record, Refusal>",
            "ensures { changed_answer result ≡ a }\n    ensures { changed_record y result ≡ b }",
        ),
        (
            "Shown<'a>",
            "ensures { (result.part.now ≡ x) × (result.count ≡ y) }",
        ),
        (
            "Result<Count, Refusal>",
            "ensures { number_of result ≡ f x }\n    ensures { IfOk result (λ c. (c.number ≡ 0) × (c.made ≡ x)) }",
        ),
        ("Self", "ensures { bytes result ≡ xor_b (bytes x) y }"),
        (
            "Option<Count>",
            "ensures { is_some result ≡ f x }\n    ensures { IfSome result (λ c. (c.number ≡ 0) × (c.made ≡ x)) }",
        ),
    ] {
        assert!(answering(kind, clause), "{clause}");
    }
    assert!(says_answer("pub fn f(x: u64) {\n}\n"), "it answers nothing");
}

#[test]
fn less_is_no_answer() {
    for (kind, clause) in [
        ("u64", ""),
        ("u64", "ensures { result ≤ 3 }"),
        ("u64", "ensures { result.len ≤ 3 }"),
        ("u64", "ensures { 1 ≡ 1 }"),
        ("u64", "ensures answer { 1 ≡ 1 }"),
        ("u64", "ensures { result ≡ result }"),
        ("u64", "ensures { result ≡ result + 0 }"),
        ("u64", "ensures { result + 0 ≡ 3 }"),
        ("u64", "ensures { images.new ≡ result }"),
        ("u64", "ensures { x ≡ 1 → result ≡ 2 }"),
        ("u64", "ensures { ((e : Empty) → result ≡ 2) }"),
        ("u64", "ensures { ((result : Record) → result ≡ y) }"),
        ("u64", "ensures { (a : ℕ) (e : Empty) → result ≡ y }"),
        ("u64", "ensures { r ≡ y }"),
        ("u64", "ensures { Listed result (result ≡ x) }"),
        ("u64", "requires { result ≡ 1 }"),
        ("u64", "requires { result ≡ 1 }\n    ensures { result < 2 }"),
        ("[u8; 9]", "ensures { 9 ≡ length result }"),
        ("&'a [u8]", "ensures place { result.ref_ptr ≡ f x }"),
        ("Count", "ensures { result.number ≡ 0 }"),
        ("Pair", "ensures { (result.a ≡ 0) × (result.b.made ≡ 1) }"),
        (
            "Result<Record, Refusal>",
            "ensures { changed_answer result ≡ a }",
        ),
        (
            "Result<Record, Refusal>",
            "ensures { changed_record y result ≡ b }",
        ),
        (
            "Result<Figures, Refusal>",
            "ensures { changed_answer result ≡ a }",
        ),
        ("Shown<'a>", "ensures { result.part.now ≡ x }"),
        (
            "Result<Count, Refusal>",
            "ensures { number_of result ≡ f x }\n    ensures { IfOk result (λ c. c.number ≡ 0) }",
        ),
        (
            "Shown<'a>",
            "ensures { (result.part.ref_ptr ≡ x) × (result.count ≡ y) }",
        ),
        ("Self", "ensures { length (bytes result) ≡ x }"),
        ("Self", "ensures { f (bytes result) ≡ x }"),
        ("Self", "ensures { result.a ≡ x }"),
        ("Option<Count>", "ensures { is_some result ≡ f x }"),
        (
            "Option<Count>",
            "ensures { IfSome result (λ c. (c.number ≡ 0) × (c.made ≡ x)) }",
        ),
        (
            "Option<Count>",
            "ensures { is_some result ≡ f x }\n    ensures { IfSome result (λ c. c.number ≡ 0) }",
        ),
        (
            "Option<Count>",
            "ensures { is_some result ≡ f x }\n    ensures { IfSome y (λ c. (result.number ≡ 0) × (result.made ≡ x)) }",
        ),
        ("u64", "// ensures { result ≡ 2 }"),
    ] {
        assert!(!answering(kind, clause), "{clause}");
    }
}

/// What a function leaves open that is lent these, with this clause.
fn open(parameters: &str, clause: &str) -> Vec<String> {
    let f = only(&format!(
        "pub(crate) fn f<'a>(\n    {parameters},\n) -> &'a [u8]\n    {clause}\n{{\n}}\n"
    ));
    f.leaves_open().into_iter().map(str::to_string).collect()
}

#[test]
fn what_is_lent_to_write_is_named_at_exit() {
    let two = "a: &mut [u8], b: &mut u64, c: &[u8], d: u8";
    let none: [&str; 0] = [];
    for clause in [
        "ensures { (a.new ≡ f c) × (3 ≡ b.new) }",
        "ensures { a.new ≡ f c }\n    ensures x { b.new ≡ 3 }",
        "ensures { ((r : Record) → a.new ≡ f r) × (b.new ≡ 3) }",
        "ensures {\n        (a.new\n            ≡ f c)\n        × (b.new ≡ 3) }",
        "ensures { Stored a.old 0 c a.new result × ((b.new ∷ []) ≡ f c) }",
        "ensures { (a.exit.now ≡ f a.entry.now) × (3 ≡ b.exit.now) }",
    ] {
        assert_eq!(open(two, clause), none, "{clause}");
    }
    for (clause, left) in [
        ("ensures { b.new ≡ 3 }", vec!["a"]),
        ("ensures { a.new ≡ f c }", vec!["b"]),
        ("ensures { length a.new ≡ b.new }", vec!["a", "b"]),
        ("ensures { a.new ≡ a.new }", vec!["a", "b"]),
        (
            "ensures { (length a.new ≡ 3) × (b.new ≤ 3) }",
            vec!["a", "b"],
        ),
        (
            "ensures { d ≡ 1 → (a.new ≡ f c) × (b.new ≡ 3) }",
            vec!["a", "b"],
        ),
        ("ensures { (a.old ≡ f c) × (b.old ≡ 3) }", vec!["a", "b"]),
        (
            "ensures { (a.exit.now ≡ b.exit.now) × (b.entry.now ≡ 3) }",
            vec!["a", "b"],
        ),
        ("requires { (a.new ≡ f c) × (b.new ≡ 3) }", vec!["a", "b"]),
    ] {
        assert_eq!(open(two, clause), left, "{clause}");
    }
}

#[test]
fn what_is_returned_is_handed_back() {
    let lent = "scratch: &'a mut [u8]";
    let bytes = "ensures scratch { result.left.now ≡ (called (f x) r).room }";
    let start = "ensures whole { result.left.ref_ptr ≡ scratch.entry.ref_ptr }";
    let none: [&str; 0] = [];
    assert_eq!(open(lent, &format!("{bytes}\n    {start}")), none);
    for less in [
        "ensures whole { result.left.ref_ptr ≡ images.entry.ref_ptr }",
        "ensures whole { result.view.ref_ptr ≡ scratch.entry.ref_ptr }",
        "",
    ] {
        assert_eq!(open(lent, &format!("{bytes}\n    {less}")), ["scratch"]);
    }
    assert_eq!(open(lent, start), ["scratch"]);
}

#[test]
fn clauses_are_read_over_lines() {
    let f = only(
        "#[unsafe(no_mangle)]
pub extern \"C\" fn pbm_f(
    rec: &mut [u8], // the record
    k: u64,
) -> u8
    requires { k < 3 }
    ensures answer { result ≡ number
            (called (on (f k))).answer }
    ensures { rec.new
            ≡ g (record { a = k }) }
{
    if k == 0 { return 1; }
    0
}
",
    );
    assert_eq!(
        (f.name.as_str(), f.visibility),
        ("pbm_f", Visibility::Public)
    );
    assert_eq!(f.returns.as_deref(), Some("u8"));
    assert_eq!(f.requires.len(), 1);
    let names: Vec<_> = f.ensures.iter().map(|c| c.name.as_deref()).collect();
    assert_eq!(names, [Some("answer"), None]);
    assert!(!f.names_all());
    let sides = |at: usize| equations(&f.ensures[at]);
    assert_eq!(
        sides(0),
        [["result", "number ( called ( on ( f k ) ) ) .answer"]]
    );
    assert_eq!(sides(1), [["rec.new", "g ( record { a = k } )"]]);
    assert_eq!(f.leaves_open(), [""; 0]);
    assert!(f.says_answer(&Structs::new()));
}

#[test]
fn a_clause_without_a_name() {
    let named =
        |clauses: &str| only(&format!("fn f() -> u8\n    {clauses}\n{{\n    0\n}}\n")).names_all();
    assert!(named(
        "requires { x ≡ 1 }\n    ensures answer { result ≡ 0 }"
    ));
    assert!(!named(
        "ensures answer { result ≡ 0 }\n    ensures { result ≡ 0 }"
    ));
}

// ---- symbols

/// Words that mean what the prover's library says, beside every operator.
const LIBRARY_WORDS: &[&str] = &[
    "ℕ",
    "List",
    "Bool",
    "true",
    "false",
    "zero",
    "suc",
    "length",
    "take",
    "drop",
    "get_or",
    "slice_index",
    "set",
    "replicate",
    "map",
    "cond",
    "not",
    "eqb",
    "ltb",
    "leb",
    "min",
    "bit_xor",
];

fn is_symbol(name: &str) -> bool {
    LIBRARY_WORDS.contains(&name) || name.contains('◌')
}

/// The symbols of a text that do not mean what the library says: taken from elsewhere, under another name, or defined here.
fn strange_symbols(text: &str) -> Vec<String> {
    let of_library =
        |module: &str| ["Rattle.std.specs.Prelude", "Rattle.std.specs.Int.Bits"].contains(&module);
    let used = uses(text)
        .into_iter()
        .filter(|u| is_symbol(&u.name) && !(of_library(&u.module) && u.original == u.name))
        .map(|u| format!("{} of {}", u.name, u.module));
    let defined = of_proof_language(text)
        .into_iter()
        .filter(|(name, kind, _)| is_symbol(name) && *kind != Kind::Field)
        .map(|(name, _, _)| name);
    used.chain(defined).collect()
}

/// The files of src/ and specs/, by their paths below crates/.
fn code_and_specs() -> Vec<(String, String)> {
    let mut all = [texts(&crates(), "rt"), texts(&crates(), "antt")].concat();
    all.retain(|(file, _)| ["src", "specs"].contains(&file.split('/').nth(1).unwrap()));
    all
}

/// "A contract's symbols mean what the language's library says": in contracts, and in the definitions that they cite.
#[test]
fn symbols_mean_what_the_library_says() {
    let mut seen = 0;
    for (file, text) in code_and_specs() {
        seen += uses(&text).iter().filter(|u| is_symbol(&u.name)).count();
        let strange = match file.ends_with(".rt") {
            true => strange_symbols(&ghost_uses(&text)),
            false => strange_symbols(&text),
        };
        assert!(strange.is_empty(), "{file}: {strange:?}");
    }
    assert!(seen > 200, "the search finds the symbols: {seen}");
}

#[test]
fn symbols_of_ones_own() {
    for (text, says) in [
        (
            "use Rattle.calls.specs.Call.{◌≡◌}\n",
            "◌≡◌ of Rattle.calls.specs.Call",
        ),
        (
            "ghost use Rattle.calls.specs.Call.{length};\n",
            "length of Rattle.calls.specs.Call",
        ),
        (
            "use Rattle.std.specs.Prelude.{sym as ◌≡◌}\n",
            "◌≡◌ of Rattle.std.specs.Prelude",
        ),
        ("abbrev pub ◌≡◌ : ℕ → ℕ → Type 0\na ≡ b = Unit\n", "◌≡◌"),
        (
            "unfoldable pub length : List ℕ → ℕ\nlength l = 0\n",
            "length",
        ),
    ] {
        assert_eq!(strange_symbols(text), [says], "{text}");
    }
    let right = "use Rattle.std.specs.Prelude.{◌≡◌, sym}\nuse Rattle.std.specs.Prelude.{length}\nuse Rattle.calls.specs.Call.{Call}\n";
    assert_eq!(strange_symbols(right), [""; 0]);
}

// ---- lines

/// In characters.
const LONGEST_LINE: usize = 140;

/// The numbers of the lines that are longer.
fn long_lines(text: &str) -> Vec<usize> {
    let is_long = |line: &str| line.chars().count() > LONGEST_LINE;
    let lines = (1..).zip(text.lines());
    lines
        .filter(|(_, line)| is_long(line))
        .map(|(at, _)| at)
        .collect()
}

/// The prover has the fields of a variant by their order, and not by their names: who exchanged two names would exchange what a caller
/// reads by them, and no statement would say so. So which name stands where is said here.
#[test]
fn fields_of_variants_are_in_order() {
    let mut found = BTreeMap::new();
    for (_, text) in texts(&target().join("../crates"), "rt") {
        found.extend(named_fields(&text));
    }
    let wanted: [(&str, &[&str]); 3] = [
        ("Field::Number", &["value", "next"]),
        ("Health::Rebuilding", &["disk", "done"]),
        ("Request::Zone", &["n", "m", "z"]),
    ];
    let owned = |names: &[&str]| names.iter().map(|n| n.to_string()).collect::<Vec<_>>();
    let wanted = wanted.map(|(variant, names)| (variant.to_string(), owned(names)));
    assert_eq!(found, BTreeMap::from(wanted));
}

#[test]
fn lines_are_not_too_long() {
    let files = code_and_specs();
    assert!(
        files.len() > 80,
        "the search finds the files: {}",
        files.len()
    );
    let long: Vec<String> = files
        .iter()
        .flat_map(|(file, text)| {
            let lines = long_lines(text).into_iter();
            lines.map(move |line| format!("{file}:{line}"))
        })
        .collect();
    assert!(long.is_empty(), "longer than {LONGEST_LINE}: {long:#?}");
}

#[test]
fn a_line_that_is_too_long() {
    let line = |length| "ℕ".repeat(length);
    let text = format!("{}\n{}\n\n{}", line(140), line(141), line(200));
    assert_eq!(long_lines(&text), [2, 4]);
}
