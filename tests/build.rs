//! Links the archive that `rt lib` writes in crates/pbm.

use std::path::Path;

fn main() {
    let folder = Path::new(env!("CARGO_MANIFEST_DIR")).join("../crates/pbm/out");
    let archive = folder.join("libpbm.a");
    println!("cargo:rerun-if-changed={}", archive.display());
    if !archive.exists() {
        eprintln!("crates/pbm/out/libpbm.a is missing: run `rt lib` in crates/pbm first");
        std::process::exit(1);
    }
    println!("cargo:rustc-link-search=native={}", folder.display());
    println!("cargo:rustc-link-lib=static=pbm");
}
