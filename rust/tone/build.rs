//! Links the archive of each half that is asked for. `examples/archive.sh` writes
//! them into the repository's `target/staticlib`; `TONE_ARCHIVE_DIR` names another
//! folder.

use std::env;
use std::path::{Path, PathBuf};

/// The archives, and whether the features ask for them.
const ARCHIVES: [(&str, bool); 2] = [
    ("tone_builder", cfg!(feature = "builder")),
    ("tone", cfg!(feature = "player")),
];

fn archive_dir() -> PathBuf {
    println!("cargo::rerun-if-env-changed=TONE_ARCHIVE_DIR");
    match env::var_os("TONE_ARCHIVE_DIR") {
        Some(dir) => PathBuf::from(dir),
        None => Path::new(env!("CARGO_MANIFEST_DIR")).join("../../target/staticlib"),
    }
}

fn main() {
    println!("cargo::rerun-if-changed=build.rs");
    let dir = archive_dir();
    println!("cargo::rustc-link-search=native={}", dir.display());
    for (name, _) in ARCHIVES.iter().filter(|(_, asked)| *asked) {
        let archive = dir.join(format!("lib{name}.a"));
        println!("cargo::rerun-if-changed={}", archive.display());
        println!("cargo::rustc-link-lib=static={name}");
        if !archive.is_file() {
            println!(
                "cargo::error={} is missing: run `bash examples/archive.sh {name}` in the repository's root first",
                archive.display()
            );
        }
    }
}
