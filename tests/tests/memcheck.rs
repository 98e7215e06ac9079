//! Valgrind's memcheck over the C program and over short histories: no byte outside of what was lent is touched, and no answer
//! hangs on a byte that was never set. And its helgrind over calls that only read, at the same time: they share nothing that one
//! of them writes.

use std::env::current_exe;
use std::process::Command;
use yuzkamide_tests::compile::{interface, program, run, text};
use yuzkamide_tests::history;
use yuzkamide_tests::pbm::Bytes;
use yuzkamide_tests::random::Random;
use yuzkamide_tests::tally::Tally;

const HISTORIES: u64 = 5;

fn valgrind(tool: &str) -> Command {
    assert!(
        Command::new("valgrind").arg("--version").output().is_ok(),
        "valgrind is missing: install the Debian package `valgrind`"
    );
    let mut command = Command::new("valgrind");
    command.args([tool, "--quiet", "--error-exitcode=9"]);
    command
}

fn memcheck() -> Command {
    let mut command = valgrind("--tool=memcheck");
    command.arg("--leak-check=no");
    command
}

#[test]
fn over_the_c_program() {
    let program = interface("interface-memcheck", &["gcc", "-std=c11"]);
    run(memcheck().arg("--track-origins=yes").arg(program));
}

/// Memory on the heap, of just the length that is lent.
#[test]
fn histories_on_the_heap() {
    let seed = Random::seed("histories_on_the_heap");
    for seed in (0..HISTORIES).map(|i| seed.wrapping_add(i)) {
        let loan = Bytes {
            record: Vec::new(),
            images: Vec::new(),
            block: Vec::new(),
        };
        history::run(seed, loan, &mut Tally::default());
    }
}

#[test]
fn over_histories() {
    let seed = Random::seed("over_histories").to_string();
    let output = run(memcheck()
        .arg(current_exe().unwrap())
        .args(["--exact", "histories_on_the_heap"])
        .env("SEED", seed));
    assert!(text(&output.stdout).contains("1 passed"));
}

#[test]
fn readers_at_the_same_time() {
    let program = program(
        "readers-helgrind",
        &["gcc", "-std=c11", "-pthread"],
        &["tests/c/readers.c"],
    );
    run(valgrind("--tool=helgrind").arg(program));
}
