//! The program `hum`: it writes into what its path leads to, which stays what it is.

#![cfg(unix)]

use std::fs;
use std::os::unix::fs::symlink;
use std::path::{Path, PathBuf};
use std::process::{Command, Output};

/// A folder that is removed at the end.
struct Folder(PathBuf);

impl Folder {
    fn new(name: &str) -> Folder {
        let path = std::env::temp_dir().join(format!("hum-{name}-{}", std::process::id()));
        fs::create_dir(&path).unwrap();
        Folder(path)
    }

    fn link(&self, to: impl AsRef<Path>) -> PathBuf {
        let link = self.0.join("link");
        symlink(to, &link).unwrap();
        link
    }
}

impl Drop for Folder {
    fn drop(&mut self) {
        let _ = fs::remove_dir_all(&self.0);
    }
}

fn run(out: &Path) -> Output {
    let mut command = Command::new(env!("CARGO_BIN_EXE_hum"));
    command.arg(out).output().unwrap()
}

#[test]
fn a_link_to_a_file_stays() {
    let folder = Folder::new("file");
    let file = folder.0.join("hum.wav");
    fs::write(&file, "older").unwrap();
    let link = folder.link("hum.wav");
    assert_eq!(run(&link).status.code(), Some(0));
    assert!(link.is_symlink());
    assert_eq!(fs::read(&file).unwrap(), hum::wav(1));
}

/// As /dev/stdout in `hum /dev/stdout | ..`.
#[cfg(target_os = "linux")]
#[test]
fn a_link_to_a_pipe_stays() {
    let folder = Folder::new("pipe");
    let link = folder.link("/proc/self/fd/1");
    let output = run(&link);
    assert_eq!(output.status.code(), Some(0));
    assert!(output.stdout == hum::wav(1));
    assert_eq!(fs::read_link(&link).unwrap(), Path::new("/proc/self/fd/1"));
    assert_eq!(fs::read_dir(&folder.0).unwrap().count(), 1);
}

#[test]
fn a_folder_is_refused() {
    let folder = Folder::new("folder");
    assert_eq!(run(&folder.0).status.code(), Some(2));
    assert_eq!(fs::read_dir(&folder.0).unwrap().count(), 0);
}
