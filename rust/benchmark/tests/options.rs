//! The benchmark's command line: what is taken, and what is refused.

use benchmark::options::{Options, USAGE};
use benchmark::setting::Sizes;
use std::process::Command;

fn parsed(line: &str) -> Result<Options, String> {
    Options::of(line.split_whitespace().map(String::from))
}

#[test]
fn nothing_asked_for() {
    let options = parsed("").expect("no arguments");
    assert!(!options.grid && !options.markdown);
    assert_eq!(options.sizes, Sizes::default());
    assert_eq!((options.sizes.taps, options.sizes.phases), (12, 64));
}

#[test]
fn all_that_is_taken() {
    let options = parsed("--taps 24 --markdown --phases 128 --quick").expect("good arguments");
    assert_eq!((options.sizes.taps, options.sizes.phases), (24, 128));
    assert!(options.markdown);
    assert!(options.rounds < parsed("").expect("no arguments").rounds);
    assert!(parsed("--grid --quick").expect("good arguments").grid);
}

#[test]
fn every_size_of_a_book_is_taken_and_no_other() {
    for size in 0..=300 {
        let taps = parsed(&format!("--taps {size}"));
        assert_eq!(taps.is_ok(), size % 2 == 0 && (2..=24).contains(&size));
        let phases = parsed(&format!("--phases {size}"));
        let good = [1, 2, 4, 8, 16, 32, 64, 128].contains(&size);
        assert_eq!(phases.is_ok(), good);
    }
}

#[test]
fn all_else_is_refused() {
    for line in [
        "--fast",
        "12",
        "--taps",
        "--taps --quick",
        "--taps -2",
        "--taps 12.0",
        "--phases",
        "--phases 1 2",
        "--grid --taps 8",
        "--phases 8 --grid",
    ] {
        let message = parsed(line).expect_err(line);
        assert!(message.ends_with(USAGE), "{message}");
    }
}

#[test]
fn the_command_fails_on_what_is_refused() {
    let output = Command::new(env!("CARGO_BIN_EXE_benchmark"))
        .args(["--taps", "13"])
        .output()
        .expect("the command runs");
    assert!(!output.status.success() && output.stdout.is_empty());
    let message = String::from_utf8_lossy(&output.stderr);
    assert!(message.starts_with("--taps 13: not a size"), "{message}");
}
