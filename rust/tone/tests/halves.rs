//! Each half alone: the Rust examples of a studio and of a unit are packages of
//! their own that ask for one feature. Each is built where only its archive can be
//! found, and prints what its twin in C prints.

mod places;

use places::{archive_dir, repository};
use std::env;
use std::fs;
use std::path::{Path, PathBuf};
use std::process::{Command, Output};

/// An empty folder of this name.
fn emptied(name: &str) -> PathBuf {
    let path = Path::new(env!("CARGO_TARGET_TMPDIR")).join(name);
    let _ = fs::remove_dir_all(&path);
    fs::create_dir_all(&path).unwrap();
    path
}

/// Builds a package with the archives of a folder. Hands out cargo's answer and
/// the folder of programs.
fn built(manifest: &Path, words: &[&str], archives: &Path) -> (Output, PathBuf) {
    let target = archives.with_extension("target");
    let mut cargo = Command::new(env!("CARGO"));
    cargo.args(["build", "--offline", "--locked", "--manifest-path"]);
    cargo.arg(manifest).args(words);
    cargo.arg("--target-dir").arg(&target);
    cargo.env("TONE_ARCHIVE_DIR", archives);
    (cargo.output().unwrap(), target.join("debug"))
}

fn manifest_of(example: &str) -> PathBuf {
    repository().join(format!("examples/rust/{example}/Cargo.toml"))
}

#[track_caller]
fn alone(example: &str, archive: &str) {
    let archives = emptied(example);
    fs::copy(archive_dir().join(archive), archives.join(archive)).unwrap();
    let (output, programs) = built(&manifest_of(example), &[], &archives);
    let errors = String::from_utf8_lossy(&output.stderr);
    assert!(output.status.success(), "{errors}");
    let printed = Command::new(programs.join(example)).output().unwrap();
    assert!(printed.status.success());
    let expected = repository().join(format!("examples/c/{example}.txt"));
    let expected = fs::read_to_string(expected).unwrap();
    assert_eq!(String::from_utf8(printed.stdout).unwrap(), expected);
}

#[test]
fn a_studio_has_the_builder_alone() {
    alone("studio", "libtone_builder.a");
}

#[test]
fn a_unit_has_the_player_alone() {
    alone("unit", "libtone.a");
}

/// The commands that cargo's answer says to run first.
fn told_to_run(output: &Output) -> Vec<String> {
    assert!(!output.status.success());
    let errors = String::from_utf8_lossy(&output.stderr).into_owned();
    let told = errors
        .lines()
        .filter_map(|line| Some(line.split_once("is missing: run `")?.1));
    let command = |rest: &str| rest.split('`').next().unwrap().to_owned();
    told.map(command).collect()
}

#[test]
fn a_missing_archive_is_named() {
    let none = emptied("no-archives");
    let (output, _) = built(&manifest_of("studio"), &[], &none);
    assert_eq!(
        told_to_run(&output),
        ["bash examples/archive.sh tone_builder"]
    );
    let (output, _) = built(&manifest_of("unit"), &[], &none);
    assert_eq!(told_to_run(&output), ["bash examples/archive.sh tone"]);
}

#[test]
fn one_half_at_least() {
    let manifest = repository().join("rust/tone/Cargo.toml");
    let words = ["--lib", "--no-default-features"];
    let (output, _) = built(&manifest, &words, &emptied("neither"));
    assert!(!output.status.success());
    let errors = String::from_utf8_lossy(&output.stderr);
    assert!(errors.contains("two halves"), "{errors}");
}
