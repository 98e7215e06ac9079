//! Runs a program that `rt` built.

use std::io::Write;
use std::ops::Deref;
use std::path::{Path, PathBuf};
use std::process::{self, Child, Command, Stdio};
use std::{env, fs};

/// The folder for what our tests compile and run.
pub fn target() -> PathBuf {
    PathBuf::from(env!("CARGO_MANIFEST_DIR")).join("../target")
}

/// The repository.
pub fn root() -> PathBuf {
    target().join("..")
}

/// The folder to which `rt` builds a crate.
pub fn out(of: &str) -> PathBuf {
    root().join("crates").join(of).join("out")
}

/// An empty folder outside of the repository, in which `rt ci` takes each source for a part of a crate. It is removed in the end.
pub struct Outside(PathBuf);

impl Outside {
    pub fn new(name: &str) -> Outside {
        let folder = env::temp_dir().join(format!("yuzkamide-{}-{name}", process::id()));
        let _ = fs::remove_dir_all(&folder);
        fs::create_dir_all(&folder).unwrap();
        Outside(folder.canonicalize().unwrap())
    }

    pub fn put(&self, path: &str, text: &str) {
        let path = self.join(path);
        fs::create_dir_all(path.parent().unwrap()).unwrap();
        fs::write(path, text).unwrap();
    }
}

impl Deref for Outside {
    type Target = Path;

    fn deref(&self) -> &Path {
        &self.0
    }
}

impl Drop for Outside {
    fn drop(&mut self) {
        let _ = fs::remove_dir_all(&self.0);
    }
}

pub fn start(name: &str) -> Child {
    let path = out(name).join(name);
    Command::new(&path)
        .stdin(Stdio::piped())
        .stdout(Stdio::piped())
        .spawn()
        .unwrap_or_else(|e| panic!("{}: {e} (run `rt ci` first)", path.display()))
}

/// What the program prints when it is given just this input.
pub fn run(name: &str, input: &[u8]) -> String {
    let mut child = start(name);
    // The program may end before it has read all of a long input: then the pipe breaks, which is no fault.
    let _ = child.stdin.take().unwrap().write_all(input);
    let output = child.wait_with_output().unwrap();
    assert!(
        output.status.success(),
        "{name} ended with {}",
        output.status
    );
    String::from_utf8(output.stdout).expect("the program prints text")
}
