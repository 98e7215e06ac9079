//! Compiles C programs with the library, and runs tools over what was built.

use crate::program::{out, root, target};
use std::fs;
use std::path::PathBuf;
use std::process::{Command, Output};

/// The archive that `rt lib` writes in crates/pbm.
pub fn archive() -> PathBuf {
    out("pbm").join("libpbm.a")
}

/// Compiles these sources by this command to target/c/`name`, without a warning, and links the library.
pub fn program(name: &str, compiler: &[&str], sources: &[&str]) -> PathBuf {
    let folder = target().join("c");
    fs::create_dir_all(&folder).unwrap();
    let program = folder.join(name);
    let mut command = Command::new(compiler[0]);
    command
        .args(&compiler[1..])
        .args(["-Wall", "-Wextra", "-Wpedantic", "-Werror", "-g", "-I"])
        .arg(root().join("include"))
        .args(sources.iter().map(|source| root().join(source)))
        // the archive is no source, whatever language the compiler was told
        .args(["-x", "none"])
        .arg(archive())
        .arg("-o")
        .arg(&program);
    let output = run(&mut command);
    assert!(output.stderr.is_empty(), "{}", text(&output.stderr));
    program
}

/// tests/c/interface.c, compiled by this command.
pub fn interface(name: &str, compiler: &[&str]) -> PathBuf {
    program(name, compiler, &["tests/c/interface.c"])
}

/// Runs a command that must succeed.
pub fn run(command: &mut Command) -> Output {
    let output = command
        .output()
        .unwrap_or_else(|e| panic!("{command:?}: {e}"));
    assert!(
        output.status.success(),
        "{command:?} ended with {}\n{}{}",
        output.status,
        text(&output.stdout),
        text(&output.stderr)
    );
    output
}

pub fn text(bytes: &[u8]) -> &str {
    std::str::from_utf8(bytes).expect("programs print text")
}
