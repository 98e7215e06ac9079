//! The files of the repository.

use std::fs;
use std::path::{Path, PathBuf};

/// The files of a folder, and of those in it, with this ending; but for what `rt` makes in a crate.
pub fn files(folder: &Path, ending: &str) -> Vec<PathBuf> {
    let entries = fs::read_dir(folder).unwrap_or_else(|e| panic!("{}: {e}", folder.display()));
    let mut all = Vec::new();
    for entry in entries {
        let path = entry.unwrap().path();
        if path.is_dir() {
            if !is_made(&path) {
                all.extend(files(&path, ending));
            }
        } else if path.extension().is_some_and(|e| e == ending) {
            all.push(path);
        }
    }
    all.sort();
    all
}

/// `crates/NAME/out`; deeper in a crate a folder of that name is a function's.
fn is_made(folder: &Path) -> bool {
    let above = folder.parent().and_then(Path::parent);
    folder.ends_with("out") && above.is_some_and(|above| above.ends_with("crates"))
}

/// The same as paths below the folder, each with the file's text.
pub fn texts(folder: &Path, ending: &str) -> Vec<(String, String)> {
    let below = |path: &Path| {
        path.strip_prefix(folder)
            .unwrap()
            .to_str()
            .unwrap()
            .to_string()
    };
    files(folder, ending)
        .iter()
        .map(|path| (below(path), fs::read_to_string(path).unwrap()))
        .collect()
}
