//! Where the tests find the repository and its archives.

use std::env;
use std::path::{Path, PathBuf};

pub fn repository() -> PathBuf {
    Path::new(env!("CARGO_MANIFEST_DIR")).join("../..")
}

/// Where the build script finds the archives, too.
pub fn archive_dir() -> PathBuf {
    match env::var_os("TONE_ARCHIVE_DIR") {
        Some(dir) => PathBuf::from(dir),
        None => repository().join("target/staticlib"),
    }
}
