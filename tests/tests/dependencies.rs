//! crates.txt gives no crate a dependency that its text does not name.

use std::fs;
use yuzkamide_tests::definitions::lines;
use yuzkamide_tests::files::texts;
use yuzkamide_tests::program::root;

/// The lines `NAME: NAME ..`, as crate and what it depends on; `staticlib` may stand after a crate's name.
fn dependencies(list: &str) -> Vec<(&str, Vec<&str>)> {
    list.lines()
        .filter(|line| !line.starts_with('#'))
        .filter_map(|line| line.split_once(':'))
        .map(|(name, on)| {
            let name = name.strip_suffix(" staticlib").unwrap_or(name);
            (name, on.split_whitespace().collect())
        })
        .collect()
}

/// A crate's code and proofs, without comments.
fn text_of(name: &str) -> String {
    let folder = root().join("crates").join(name);
    let code = |line: &str| format!("{}\n", line.split("//").next().unwrap());
    let rattle = texts(&folder, "rt");
    let rattle = rattle.iter().flat_map(|(_, text)| text.lines().map(code));
    let proofs = texts(&folder, "antt");
    let proofs = proofs.iter().flat_map(|(_, text)| lines(text));
    rattle
        .chain(proofs.map(|line| format!("{line}\n")))
        .collect()
}

/// `name::` in code, `Rattle.name.` in contracts, specs and proofs.
fn is_named(name: &str, text: &str) -> bool {
    let path = format!("{name}::");
    let begins = |at: usize| !text[..at].ends_with(|c: char| c.is_alphanumeric() || c == '_');
    let in_code = text.match_indices(&path).any(|(at, _)| begins(at));
    in_code || text.contains(&format!("Rattle.{name}."))
}

#[test]
fn every_dependency_is_used() {
    let list = fs::read_to_string(root().join("crates.txt")).unwrap();
    let crates = dependencies(&list);
    assert!(crates.len() >= 10, "the search finds the crates");
    for (name, on) in crates {
        let text = text_of(name);
        for other in on {
            assert!(is_named(other, &text), "{name} does not use {other}");
        }
    }
}

/// `crates/NAME/out` is rt's; deeper in a crate a folder of that name is a function's.
#[test]
fn what_rt_makes_is_no_source() {
    let all = texts(&root().join("crates"), "antt");
    let of_function = "repair/proofs/failing/out/Answers.antt";
    assert!(all.iter().any(|(path, _)| path == of_function));
    let is_made = |path: &str| path.split('/').nth(1) == Some("out");
    assert!(!all.iter().any(|(path, _)| is_made(path)));
}

#[test]
fn what_is_a_use() {
    for text in [
        "use io::print;\n",
        "    io::print(x);\n",
        "ghost use Rattle.io.specs.Call.{read};\n",
    ] {
        assert!(is_named("io", text), "{text}");
    }
    for text in [
        "use studio::print;\n",
        "use my_io::print;\n",
        "let io = 1;\n",
        "ghost use Rattle.io_more.specs.Call.{read};\n",
        "ghost use Rattle.radio.specs.Call.{read};\n",
    ] {
        assert!(!is_named("io", text), "{text}");
    }
}

#[test]
fn the_list_is_read() {
    let list = "# NAME: what it depends on\nlayout:\nstate: layout io\npbm staticlib: state\n";
    assert_eq!(
        dependencies(list),
        [
            ("layout", vec![]),
            ("state", vec!["layout", "io"]),
            ("pbm", vec!["state"])
        ]
    );
}
