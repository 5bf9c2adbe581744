//! Links the archives of trial_c (libtrial.a), trial_book and masters, which tests/made writes.

use std::path::Path;

fn main() {
    let top = Path::new(env!("CARGO_MANIFEST_DIR")).join("../../..");
    let folder = top.join("target/staticlib");
    println!("cargo:rustc-link-search=native={}", folder.display());
    for name in ["trial", "trial_book", "masters"] {
        println!("cargo:rustc-link-lib=static={name}");
        let archive = folder.join(format!("lib{name}.a"));
        println!("cargo:rerun-if-changed={}", archive.display());
    }
}
