//! The contracts of Rattle functions, read from their text, and the rule that each is held to: what a function answers, and what
//! it leaves of everything that it is lent to write, is set equal to something.

use std::collections::BTreeMap;

pub struct Function {
    pub name: String,
    pub visibility: Visibility,
    pub parameters: Vec<Parameter>,
    /// The type of what it returns.
    pub returns: Option<String>,
    pub requires: Vec<Clause>,
    pub ensures: Vec<Clause>,
    /// What stands between the braces; nothing where a trait only declares it.
    pub body: String,
}

#[derive(Clone, Copy, Debug, PartialEq, Eq)]
pub enum Visibility {
    Private,
    Crate,
    Public,
}

pub struct Parameter {
    pub name: String,
    /// Its type.
    pub kind: String,
}

pub struct Clause {
    pub name: Option<String>,
    /// What stands between its braces.
    pub formula: String,
}

/// The crates whose public functions are handed anything by anyone, and the program's function that is handed what was typed.
pub const ENTRY_CRATES: &[&str] = &[
    "access", "growth", "repair", "scrub", "queries", "lent", "packing", "pbm",
];
const ENTRY_POINT: &str = "answer_to";

/// The fields of each struct, with their types.
pub type Structs = BTreeMap<String, Vec<Parameter>>;

impl Parameter {
    /// `name: Type`
    fn of(text: &str) -> Option<Parameter> {
        let (name, kind) = text.split_once(':')?;
        let name = name.trim().trim_start_matches("mut ");
        Some(Parameter {
            name: name.trim_start_matches("pub ").to_string(),
            kind: kind.trim().to_string(),
        })
    }

    /// Whether it is lent to write.
    pub fn is_written(&self) -> bool {
        self.kind.starts_with('&') && self.kind.split_whitespace().take(2).any(is_mut)
    }
}

fn is_mut(word: &str) -> bool {
    word.trim_start_matches('&') == "mut"
}

// ---- reading

/// The functions of a source file, methods too. Those that a public trait declares are public.
pub fn functions(source: &str) -> Vec<Function> {
    let (members, alone) = members(&without_comments(source));
    let mut all = heads(&alone);
    for m in members {
        let public = m.of_public_trait.then_some(Visibility::Public);
        all.extend(heads(&m.inside).into_iter().map(|f| Function {
            visibility: public.unwrap_or(f.visibility),
            ..f
        }));
    }
    all
}

/// A block that begins with `impl` or `trait`.
pub struct Members {
    /// The type or the trait.
    pub of: String,
    of_public_trait: bool,
    /// What stands between the braces.
    pub inside: String,
}

/// The blocks of a text that begin with `impl` or `trait`, and the text without them.
pub fn members(text: &str) -> (Vec<Members>, String) {
    let mut blocks = Vec::new();
    let mut alone = String::new();
    let mut rest = text;
    while let Some((before, head, behind)) = block(rest) {
        let (inside, behind) = bracketed(behind, '{', '}');
        blocks.push(Members {
            of: owner(head),
            of_public_trait: head.starts_with("pub trait "),
            inside: inside.to_string(),
        });
        alone.push_str(before);
        rest = behind;
    }
    (blocks, alone + rest)
}

/// The first block: what stands before it, its line up to the brace, and what follows that.
fn block(text: &str) -> Option<(&str, &str, &str)> {
    let starts = text.match_indices('\n').map(|(end, _)| end + 1);
    let words = ["impl ", "impl<", "trait ", "pub trait "];
    let is_block = |at: &usize| words.iter().any(|word| text[*at..].starts_with(word));
    let at = [0].into_iter().chain(starts).find(is_block)?;
    let (head, behind) = text[at..].split_once('{')?;
    Some((&text[..at], head, behind))
}

/// `impl<T: Quarter> Wide for Four<T>`: Four<T>. `pub trait Wide: Copy`: Wide.
fn owner(head: &str) -> String {
    let head = head.trim().trim_start_matches("pub ");
    let of = match (head.strip_prefix("trait "), head.rsplit_once(" for ")) {
        (Some(of), _) => of.split([':', '<']).next().unwrap(),
        (_, Some((_, of))) => of,
        _ => match head.strip_prefix("impl<") {
            Some(parameters) => bracketed(parameters, '<', '>').1,
            None => head.trim_start_matches("impl "),
        },
    };
    of.trim().to_string()
}

fn heads(text: &str) -> Vec<Function> {
    let mut all = Vec::new();
    for (at, _) in text.match_indices("fn ") {
        let line_start = text[..at].rfind('\n').map_or(0, |end| end + 1);
        let head = text[line_start..at].trim();
        let words: Vec<&str> = head.split_whitespace().collect();
        let is_head = |word: &&str| ["pub", "pub(crate)", "extern", "\"C\""].contains(word);
        if words.iter().all(is_head) {
            all.push(function(words.first().copied(), &text[at + 3..]));
        }
    }
    all
}

fn function(head: Option<&str>, text: &str) -> Function {
    let (name, rest) = text.split_once('(').expect("parameters");
    let (parameters, rest) = bracketed(rest, '(', ')');
    let mut f = Function {
        name: name.split('<').next().unwrap().to_string(),
        visibility: match head {
            Some("pub") => Visibility::Public,
            Some("pub(crate)") => Visibility::Crate,
            _ => Visibility::Private,
        },
        parameters: split(parameters, ',').filter_map(Parameter::of).collect(),
        returns: None,
        requires: Vec::new(),
        ensures: Vec::new(),
        body: String::new(),
    };
    let mut rest = rest.trim_start();
    if let Some(behind) = rest.strip_prefix("->") {
        let end = [
            " requires",
            " ensures",
            "\n    requires",
            "\n    ensures",
            "{",
            ";\n",
        ]
        .iter()
        .filter_map(|next| behind.find(next))
        .min()
        .expect("a body");
        f.returns = Some(behind[..end].trim().to_string());
        rest = behind[end..].trim_start();
    }
    while !rest.starts_with(['{', ';']) {
        let (keyword, behind) = rest.split_once([' ', '\n']).expect("a clause");
        let (name, behind) = behind.split_once('{').expect("a clause");
        let (inside, behind) = bracketed(behind, '{', '}');
        let clause = clause(name.trim(), inside);
        match keyword {
            "requires" => f.requires.push(clause),
            "ensures" => f.ensures.push(clause),
            _ => panic!("{}: no clause begins with {keyword}", f.name),
        }
        rest = behind.trim_start();
    }
    if let Some(body) = rest.strip_prefix('{') {
        f.body = bracketed(body, '{', '}').0.to_string();
    }
    f
}

fn clause(name: &str, inside: &str) -> Clause {
    Clause {
        name: (!name.is_empty()).then(|| name.to_string()),
        formula: inside.trim().to_string(),
    }
}

/// The structs of a source file, those with no fields too, without their ghost fields.
pub fn structs(source: &str) -> Structs {
    let text = without_comments(source);
    text.match_indices("struct ")
        .map(|(at, word)| {
            let rest = &text[at + word.len()..];
            let (name, behind) = rest.split_at(rest.find(['{', ';']).expect("an end"));
            let inside = behind.strip_prefix('{');
            let fields = inside.map_or("", |rest| bracketed(rest, '{', '}').0);
            let fields = split(fields, ',').filter_map(Parameter::of);
            let fields = fields.filter(|field| !field.name.starts_with("ghost "));
            (head(name).to_string(), fields.collect())
        })
        .collect()
}

/// The name of a type, without its parameters.
fn head(kind: &str) -> &str {
    kind.split('<').next().unwrap().trim()
}

/// The enums of a source file, with the text of each variant.
fn variants(source: &str) -> Vec<(String, Vec<String>)> {
    let text = without_comments(source);
    text.match_indices("enum ")
        .map(|(at, word)| {
            let (name, rest) = text[at + word.len()..].split_once('{').expect("variants");
            let (variants, _) = bracketed(rest, '{', '}');
            let variants = split(variants, ',').map(|v| v.trim().to_string());
            let variants = variants.filter(|v| !v.is_empty());
            (name.trim().to_string(), variants.collect())
        })
        .collect()
}

/// The enums of a source file, with the names of their variants.
pub fn enums(source: &str) -> BTreeMap<String, Vec<String>> {
    let name = |v: &String| v.split(['(', '{']).next().unwrap().trim().to_string();
    let all = variants(source).into_iter();
    all.map(|(of, all)| (of, all.iter().map(name).collect()))
        .collect()
}

/// The variants that have fields with names, `Enum::Variant`, with these names in order.
pub fn named_fields(source: &str) -> BTreeMap<String, Vec<String>> {
    let mut found = BTreeMap::new();
    for (of, all) in variants(source) {
        for (variant, fields) in all.iter().filter_map(|v| v.split_once('{')) {
            let (fields, _) = bracketed(fields, '{', '}');
            let fields = split(fields, ',').filter_map(Parameter::of);
            let names = fields.map(|field| field.name).collect();
            found.insert(format!("{of}::{}", variant.trim()), names);
        }
    }
    found
}

/// What a crate's lib.rt hands on from its modules: `pub use module::name;`, `pub use module::{a, b};`, over lines.
pub fn handed_on(lib: &str) -> Vec<String> {
    let lib = format!("\n{lib}");
    lib.split("\npub use ")
        .skip(1)
        .filter_map(|item| item.split_once(';')?.0.rsplit_once("::"))
        .flat_map(|(_, names)| names.trim_matches(['{', '}']).split(','))
        .map(|name| name.trim().to_string())
        .filter(|name| !name.is_empty())
        .collect()
}

pub(crate) fn without_comments(text: &str) -> String {
    let code = |line: &str| format!("{}\n", line.split("//").next().unwrap());
    text.lines().map(code).collect()
}

/// What stands before the bracket that closes an open one, and after it.
pub(crate) fn bracketed(text: &str, open: char, close: char) -> (&str, &str) {
    let mut depth = 1;
    for (at, c) in text.char_indices() {
        depth += i32::from(c == open) - i32::from(c == close);
        if depth == 0 {
            return (&text[..at], &text[at + c.len_utf8()..]);
        }
    }
    panic!("no {close} closes this: {text}")
}

/// Parts between commas that stand in no brackets.
fn split(text: &str, at: char) -> impl Iterator<Item = &str> {
    let mut depth = 0;
    text.split(move |c: char| {
        depth += i32::from("([<{".contains(c)) - i32::from(")]>}".contains(c));
        c == at && depth == 0
    })
}

// ---- formulas

/// What stands for the answer in a clause.
const ANSWER: &str = "result";

/// Types that have values, so that what is said of all of them says something.
const INHABITED: &[&str] = &["ℕ", "Record", "List ℕ"];

/// Records of equations that contracts cite: name, and the argument that each equation is about. `Stored out at text after next`
/// says what `after` and `next` are.
pub const RECORDS: &[(&str, &[usize])] = &[("Stored", &[3, 4])];

/// What definitions make of an answer that is an enum, a `Result`, or of a type of which a trait knows the bytes
/// alone; those of one type together leave nothing of it open.
const MADE: &[(&str, &[&str])] = &[
    ("Result<(), Refusal>", &["number_of"]),
    ("Result<u64, Refusal>", &["number_of", "count_of"]),
    (
        "Result<Record, Refusal>",
        &["changed_answer", "changed_record"],
    ),
    (
        "Result<Progress, Refusal>",
        &["counted_answer", "counted_record"],
    ),
    ("Result<Figures, Refusal>", &["report_answer"]),
    ("Result<Standing, Refusal>", &["located_answer"]),
    ("Result<Role, Refusal>", &["owned_answer"]),
    ("Result<Swept, Refusal>", &["swept_answer"]),
    ("Result<(), BadPoints>", &["number_of"]),
    ("Self", &["bytes"]),
];

type Words = Vec<String>;

/// The words of a formula; a bracket is one of its own, and so is the field of what stands in brackets: `( f x ) .field`. What a
/// reference holds at exit and at entry has one word, whichever of the two a clause has.
fn words(formula: &str) -> Words {
    let spaced = formula.replace('(', " ( ").replace(')', " ) ");
    let held = |word: &str| {
        let word = format!("{word}.").replace(".exit.now.", ".new.");
        let word = word.replace(".entry.now.", ".old.");
        word[..word.len() - 1].to_string()
    };
    spaced.split_whitespace().map(held).collect()
}

/// The parts between an operator that stands in no brackets.
fn parts(words: &[String], operator: &str) -> Vec<Words> {
    let mut depth = 0;
    let between = words.split(|word| {
        depth += i32::from(word == "(" || word == "{") - i32::from(word == ")" || word == "}");
        word == operator && depth == 0
    });
    between.map(bare).collect()
}

/// Without brackets around the whole.
fn bare(words: &[String]) -> Words {
    let mut depth = 0;
    let closes = words.iter().position(|word| {
        depth += i32::from(word == "(") - i32::from(word == ")");
        depth == 0
    });
    match words {
        [first, inner @ .., _] if first == "(" && closes == Some(words.len() - 1) => bare(inner),
        _ => words.to_vec(),
    }
}

/// The equations that a clause promises, as two sides each: those under no premise, for all values of types that have some.
pub fn equations(clause: &Clause) -> Vec<[String; 2]> {
    promised(&bare(&words(&clause.formula)))
}

fn promised(formula: &[String]) -> Vec<[String; 2]> {
    let premises = parts(formula, "→");
    let (conclusion, premises) = premises.split_last().unwrap();
    if !premises.iter().all(|premise| is_binder(premise)) {
        return Vec::new();
    }
    let both = parts(conclusion, "×");
    if both.len() > 1 || !premises.is_empty() {
        return both.iter().flat_map(|part| promised(part)).collect();
    }
    match &parts(conclusion, "≡")[..] {
        [left, right] => vec![[left.join(" "), right.join(" ")]],
        _ => cited(conclusion),
    }
}

/// `(x y : T) (z : U)`, of types that have values; no variable must hide the answer.
fn is_binder(premise: &[String]) -> bool {
    let groups = match premise.first() {
        Some(first) if first == "(" => arguments(premise),
        _ => vec![premise.join(" ")],
    };
    groups.iter().all(|group| match group.split_once(" : ") {
        Some((names, kind)) => {
            names.split(' ').all(|name| name != ANSWER) && INHABITED.contains(&kind)
        }
        None => false,
    })
}

/// The equations of `IfSome result (λ x. formula)`, or of `IfOk`, with the answer for x: what is said of its value, if it has one.
fn of_value(formula: &[String]) -> Option<Vec<[String; 2]>> {
    let [word, value, function] = &arguments(formula)[..] else {
        return None;
    };
    let (name, inside) = function.strip_prefix("λ ")?.split_once(". ")?;
    let named = |word: String| match word.strip_prefix(name) {
        Some(field) if field.is_empty() || field.starts_with('.') => format!("{ANSWER}{field}"),
        _ => word,
    };
    let inside: Words = words(inside).into_iter().map(named).collect();
    (["IfSome", "IfOk"].contains(&word.as_str()) && value == ANSWER)
        .then(|| promised(&bare(&inside)))
}

/// The equations of a record that the formula cites, or of `IfSome` or `IfOk`.
fn cited(formula: &[String]) -> Vec<[String; 2]> {
    if let Some(equations) = of_value(formula) {
        return equations;
    }
    let is_cited = |name: &str| formula.first().is_some_and(|first| first == name);
    let known = RECORDS.iter().find(|(name, _)| is_cited(name));
    let Some((name, about)) = known else {
        return Vec::new();
    };
    let arguments = arguments(&formula[1..]);
    about
        .iter()
        .map(|&at| [arguments[at].clone(), format!("what {name} says")])
        .collect()
}

/// The arguments of an application: words, or what stands in brackets.
fn arguments(words: &[String]) -> Vec<String> {
    let mut depth = 0;
    let mut found: Vec<Words> = Vec::new();
    for word in words {
        if depth == 0 {
            found.push(Words::new());
        }
        depth += i32::from(word == "(") - i32::from(word == ")");
        found.last_mut().unwrap().push(word.clone());
    }
    found.iter().map(|words| bare(words).join(" ")).collect()
}

// ---- the rule

impl Function {
    /// Whether it is handed anything by anyone, being of this crate.
    pub fn is_entry_point(&self, in_crate: &str) -> bool {
        let public = self.visibility == Visibility::Public;
        self.name == ENTRY_POINT || (public && ENTRY_CRATES.contains(&in_crate))
    }

    /// Whether a side of an equation speaks of what is known only at exit: of the answer, or of the new value of a parameter.
    fn is_open(&self, side: &str) -> bool {
        side.split(' ').any(|word| {
            let (name, rest) = word.split_once('.').unwrap_or((word, ""));
            let is_written = |p: &Parameter| p.name == name && p.is_written();
            let at_exit = matches!(rest.split('.').next(), Some("new" | "exit"));
            name == ANSWER || (at_exit && self.parameters.iter().any(is_written))
        })
    }

    /// What the clauses set equal to something that is known at entry.
    fn given(&self) -> Vec<String> {
        let all = self.ensures.iter().flat_map(equations);
        all.flat_map(|[left, right]| [(left.clone(), right.clone()), (right, left)])
            .filter(|(_, other)| !self.is_open(other))
            .map(|(side, _)| side)
            .collect()
    }

    /// Whether it says what it answers; true of one that answers nothing.
    pub fn says_answer(&self, structs: &Structs) -> bool {
        match &self.returns {
            None => true,
            Some(kind) => says_all(&self.given(), ANSWER, kind, structs),
        }
    }

    /// Whether it says what it leaves of this parameter, which it is lent to write: what it holds at exit; or, where it is spent on what
    /// is returned, in which part of that it is handed back.
    pub fn says_exit(&self, parameter: &Parameter) -> bool {
        let name = &parameter.name;
        let held = format!("{name}.new");
        let given = self.given();
        given.iter().any(|side| lists(side).contains(&held)) || self.hands_back(name, &given)
    }

    /// Whether a part of the answer begins where `name` began, and its bytes are said.
    fn hands_back(&self, name: &str, given: &[String]) -> bool {
        let entry = format!("{name}.entry.ref_ptr");
        let is_said = |side: &String| {
            let part = side.strip_suffix(".ref_ptr");
            part.is_some_and(|part| {
                part.starts_with(ANSWER) && given.contains(&format!("{part}.now"))
            })
        };
        let mut sides = self.ensures.iter().flat_map(equations);
        sides.any(|two| two.contains(&entry) && two.iter().any(is_said))
    }

    /// The parameters that it is lent to write and does not speak of.
    pub fn leaves_open(&self) -> Vec<&str> {
        self.parameters
            .iter()
            .filter(|p| p.is_written() && !self.says_exit(p))
            .map(|p| p.name.as_str())
            .collect()
    }

    /// Whether every clause on what it does has a name.
    pub fn names_all(&self) -> bool {
        self.ensures.iter().all(|clause| clause.name.is_some())
    }
}

/// Whether the sides have a value of this type: itself, all fields of a struct, all that the definitions make of it, for an enum or
/// what a trait knows the bytes of, or of an `Option` or `Result` whether it has a value and what that is.
fn says_all(given: &[String], value: &str, kind: &str, structs: &Structs) -> bool {
    if kind.starts_with('&') {
        return given.contains(&format!("{value}.now"));
    }
    if given.iter().any(|side| side == value) {
        return true;
    }
    if let Some((_, definitions)) = MADE.iter().find(|(name, _)| *name == kind) {
        let says = |name: &&str| given.iter().any(|side| is_made(side, name, value));
        return definitions.iter().all(says);
    }
    let kept = kind.strip_prefix("Result<");
    if let Some(kind) = kept.and_then(|kind| kind.strip_suffix(", Refusal>")) {
        let is_told = given.iter().any(|side| is_made(side, "number_of", value));
        return is_told && says_all(given, value, kind, structs);
    }
    let optional = kind.strip_prefix("Option<");
    if let Some(kind) = optional.and_then(|kind| kind.strip_suffix('>')) {
        let is_told = given.iter().any(|side| is_made(side, "is_some", value));
        return is_told && says_all(given, value, kind, structs);
    }
    structs.get(head(kind)).is_some_and(|fields| {
        let says =
            |f: &Parameter| says_all(given, &format!("{value}.{}", f.name), &f.kind, structs);
        !fields.is_empty() && fields.iter().all(says)
    })
}

/// Whether a side is the definition applied to the value, which comes last.
fn is_made(side: &str, definition: &str, value: &str) -> bool {
    let words: Vec<&str> = side.split(' ').collect();
    words[0] == definition && words.last() == Some(&value)
}

/// The elements of a list that is written out, or the one value.
fn lists(side: &str) -> Vec<String> {
    let words: Words = side.split(' ').map(str::to_string).collect();
    parts(&words, "∷")
        .iter()
        .map(|part| part.join(" "))
        .collect()
}
