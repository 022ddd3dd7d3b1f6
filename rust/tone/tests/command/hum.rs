//! `tone hum`, and the test drive by the command's own means.

use std::fs;
use std::path::Path;
use std::process::Command;

use crate::bench::{accepted, unusable, wav_of, Folder};
use crate::places::repository;

/// States of the test hum after `state`, by document 02's rule.
fn states(state: u64) -> impl Iterator<Item = u64> {
    let next = |state: &u64| Some((1_664_525 * state + 1_013_904_223) % (1 << 32));
    std::iter::successors(next(&state), next)
}

fn samples(count: usize) -> Vec<i16> {
    let sample = |state: u64| (state / 65536) as i64 - 32768;
    states(0)
        .take(count)
        .map(|state| sample(state) as i16)
        .collect()
}

#[test]
fn hum_writes_the_first_samples() {
    let folder = Folder::new();
    let out = folder.path("hum.wav");
    for count in [0, 1, 2, 4095, 4096, 4097, 6400, 100_000] {
        let output = run!("hum", count.to_string(), out);
        assert_eq!(accepted(&output), format!("{count} samples\n"));
        assert_eq!(fs::read(&out).unwrap(), wav_of(48000, &samples(count)));
    }
    assert_eq!(samples(1), [-17298]);
    assert_eq!(folder.names(), ["hum.wav"]);
}

#[test]
fn the_sample_rate_of_the_hum() {
    let folder = Folder::new();
    let out = folder.path("hum.wav");
    accepted(&run!("hum", "--sample-rate", "8000", "3", out));
    assert_eq!(fs::read(&out).unwrap(), wav_of(8000, &samples(3)));
}

#[test]
fn counts_that_cannot_be_used() {
    let folder = Folder::new();
    let out = folder.path("hum.wav");
    for count in ["2147483626", "99999999999999999999"] {
        unusable(&run!("hum", count, out), &["COUNT", "more than a WAV file"]);
    }
    for count in ["", "3.5", "many"] {
        unusable(&run!("hum", count, out), &["COUNT", "whole number"]);
    }
    unusable(&run!("hum", "--", "-1", out), &["COUNT", "whole number"]);
    let usage = ["wrong count", "usage is tone hum COUNT OUT.wav: see"];
    unusable(&run!("hum", "3"), &usage);
    unusable(&run!("hum", "3", out, "4"), &usage);
    unusable(&run!("hum", "3", folder.path), &["not a regular file"]);
    assert!(folder.names().is_empty());
}

/// The calls of the test drive: 64 orders, one state each after the hum's.
fn drive() -> String {
    let call = |state: u64| {
        let rate = 1.0 + (state >> 24) as f64 / 64.0;
        match state % 2 {
            0 => format!("jump {rate}\nplay 20\n"),
            _ => format!("glide {rate} 10\nplay 20\n"),
        }
    };
    states(0).skip(6400).take(64).map(call).collect()
}

/// What `tone` makes of the test hum, its book and its orders is the text that the
/// program `test_drive` must print.
#[test]
fn the_test_drive_by_the_command() {
    let folder = Folder::new();
    let [hum, store, out] = ["hum.wav", "hum.store", "out.wav"].map(|name| folder.path(name));
    let book = folder.book(&[2, 1, 0, 0, 16, 0, 16384, 16384, -16384, 16384, 16384]);
    accepted(&run!("hum", "6400", hum));
    let built = accepted(&run!("build", book, hum, "2", store));
    assert_eq!(built, "S 6400, T 2: 11205 words\n");
    let drive = folder.write("drive.txt", drive());
    let played = accepted(&run!("play", book, store, "1", drive, out));
    // a test of rust/drives has these counts from the renderer
    let expected = "1280 outputs, 45 fades, 14400 multiplies, 11.25 per output\n";
    assert_eq!(played, expected);
    let text = fs::read_to_string(repository().join("crates/test_drive/stdout")).unwrap();
    let samples: Vec<i16> = text.lines().map(|line| line.parse().unwrap()).collect();
    assert_eq!(fs::read(&out).unwrap(), wav_of(48000, &samples));
}

/// The checksum that `md5sum` prints for a file.
fn checksum(path: &Path) -> String {
    let output = Command::new("md5sum").arg(path).output().unwrap();
    let printed = String::from_utf8(output.stdout).unwrap();
    printed.split(' ').next().unwrap().to_owned()
}

/// The checksums in README are those of the program's text and of the hum.
#[test]
fn the_checksums_of_the_readme() {
    let folder = Folder::new();
    let hum = folder.path("hum.wav");
    accepted(&run!("hum", "6400", hum));
    let readme = fs::read_to_string(repository().join("README.md")).unwrap();
    for file in [&repository().join("crates/test_drive/stdout"), &hum] {
        let sum = checksum(file);
        assert_eq!(sum.len(), 32);
        assert!(readme.contains(&sum), "{}: {sum}", file.display());
    }
}
