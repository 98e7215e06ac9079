//! README.md, CHANGES.md and all of docs/: links and commands name what is there, each landing has its note, the toolchain is named; and
//! one word that plain English has no need of. (docs/LAYOUT.md's numbers: layout_document.rs; those of docs/SPEED.md: speed.rs; the
//! header: header.rs.)

use std::path::Path;
use yuzkamide_tests::documents::{numbers, Document};
use yuzkamide_tests::program::root;

/// A path from the root, `..` taken away: is it there?
fn is_there(path: &Path) -> bool {
    let mut parts: Vec<&str> = Vec::new();
    for part in path.iter().map(|part| part.to_str().unwrap()) {
        match part {
            ".." => assert!(parts.pop().is_some(), "{path:?} leads out"),
            _ => parts.push(part),
        }
    }
    let path = parts.join("/");
    root().join(path).exists()
}

#[test]
fn links_lead_to_what_is_there() {
    let mut seen = 0;
    for document in Document::all() {
        for link in document.text.split("](").skip(1) {
            let link = link.split([')', '#']).next().unwrap();
            if link.contains("://") || link.is_empty() {
                continue;
            }
            let to = Path::new(&document.path).parent().unwrap().join(link);
            assert!(is_there(&to), "{}: {link}", document.path);
            seen += 1;
        }
    }
    assert!(seen > 50, "the search finds the links: {seen}");
}

/// The titles in CHANGES.md of what brought no request, each with its note, and how that begins.
const NO_REQUEST: &[(&str, &str, &str)] = &[
    ("Today's Rattle", "PORT", "LANDED: "),
    (
        "The look back",
        "LOOK-BACK",
        "# The look back at the design pass\n",
    ),
    (
        "The design pass",
        "DESIGN-PASS",
        "The design pass began at commit ",
    ),
];

/// CHANGES.md has at most six lines for each landing, one of them with its note, which has the same title.
#[test]
fn landings_have_their_notes() {
    let changes = Document::read("CHANGES.md").text;
    let mut seen = 0;
    for landing in changes.split("\n## ").skip(1) {
        let (title, rest) = landing.split_once('\n').unwrap();
        let other = NO_REQUEST.iter().find(|(of, ..)| title == *of);
        let name = match (title.split_once("Request ("), other) {
            (Some((_, letter)), _) => format!("landings/{}", &letter[..1]),
            (_, Some((_, name, _))) => name.to_string(),
            _ => format!("landings/base-{}", numbers(title)[0]),
        };
        let note = format!("docs/{name}.md");
        assert!(rest.contains(&format!("({note})")), "{title}: {note}");
        let text = Document::read(&note).text;
        let begin = other.map_or(format!("# {title}\n"), |(.., begin)| begin.to_string());
        assert!(text.starts_with(&begin), "{note}: {title}");
        let lines = rest.lines().filter(|line| !line.is_empty()).count();
        assert!(lines <= 6, "{title}: {lines} lines");
        seen += 1;
    }
    assert!(seen >= 15, "the search finds the landings: {seen}");
}

/// A word of a command that is a path: a file of the repository, or a program that is built from one. A note may tell of what was there
/// when it was written.
#[test]
fn commands_name_what_is_there() {
    let mut seen = 0;
    let is_note = |document: &Document| document.path.starts_with("docs/landings/");
    for document in Document::all().iter().filter(|d| !is_note(d)) {
        let commands = document.fences("sh").join("\n");
        for word in commands.split_whitespace().filter(|w| w.contains('/')) {
            // the gate's own clone has what this one has
            let word = word.strip_prefix("../yuzkamide-gate").unwrap_or(word);
            let source = match word.rsplit_once('/') {
                Some(("build", name)) => format!("examples/{name}.c"),
                _ => word.trim_start_matches('/').to_string(),
            };
            let is_there = is_there(Path::new(&source));
            assert!(is_there, "{}: {word}", document.path);
            seen += 1;
        }
    }
    assert!(seen >= 5, "the search finds the commands: {seen}");
}

/// README has the toolchain with which the last landing was proved, as `rt version` prints it. Another one may prove the next.
#[test]
fn the_toolchain_of_the_last_landing_is_named() {
    let readme = Document::read("README.md").text;
    let quoted = readme.split('`').skip(1).step_by(2);
    let named: Vec<&str> = quoted
        .filter_map(|name| name.strip_prefix("rattle-kit-"))
        .collect();
    assert_eq!(named.len(), 1, "README names one toolchain: {named:?}");
    let (kit, logic) = named[0].split_once(" logic ").expect(named[0]);
    let is_kit = |c: char| c.is_ascii_alphanumeric() || c == '-';
    let is_digit = |c: char| matches!(c, '0'..='9' | 'a'..='f');
    assert!(!kit.is_empty() && kit.chars().all(is_kit), "{kit}");
    assert!(logic.len() == 16 && logic.chars().all(is_digit), "{logic}");
}

// ---- plain English

/// What a text says in its own words: nothing fenced, quoted, or in quotation marks or backquotes. A quotation ends with its paragraph.
fn own_words(text: &str) -> String {
    let outside = |text: &str, mark: char| text.split(mark).step_by(2).collect::<String>();
    let mut is_fenced = false;
    let mut own = String::new();
    for paragraph in text.split("\n\n") {
        let lines = paragraph.lines().filter(|line| {
            let is_fence = line.trim_start().starts_with("```");
            is_fenced ^= is_fence;
            !is_fenced && !is_fence && !line.starts_with('>')
        });
        let paragraph = lines.collect::<Vec<_>>().join(" ");
        own += &outside(&outside(&paragraph, '`'), '"');
        own.push('\n');
    }
    own
}

#[test]
fn what_own_words_are() {
    let text = "One \"behind\n  two\" and `behind`,\n> behind\nthree\n\n```sh\nbehind\n\nbehind\n```\n\nfour \"behind\n\nbehind";
    assert_eq!(own_words(text), "One  and , three\n\n\nfour \nbehind\n");
}

/// What follows comes after, not behind. READING.md and PROVED.md, which quote other documents in their tables, and the notes of
/// landings are left out.
#[test]
fn after_not_behind() {
    let mut documents = Document::all();
    documents.push(Document::read("include/pbm.h"));
    documents.retain(|document| {
        let folder = Path::new(&document.path).parent().unwrap();
        let quotes = ["docs/READING.md", "docs/PROVED.md"];
        folder.iter().count() <= 1 && !quotes.contains(&document.path.as_str())
    });
    assert!(documents.len() >= 7);
    for document in documents {
        let own = own_words(&document.text).to_lowercase();
        let mut lines = own.lines();
        let found = lines.find(|line| {
            line.split(|c: char| !c.is_alphabetic())
                .any(|w| w == "behind")
        });
        assert_eq!(found, None, "{}", document.path);
    }
}
