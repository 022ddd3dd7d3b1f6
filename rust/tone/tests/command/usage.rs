//! The command line.

use crate::bench::{accepted, unusable};

#[test]
fn help_and_version() {
    for option in ["--help", "-h"] {
        let help = accepted(&run!(option));
        for part in [
            "tone check BOOK",
            "tone build BOOK RECORDING.wav T STORE\n",
            "tone play BOOK STORE RATE DRIVE OUT.wav\n",
            "tone report BOOK STORE RATE DRIVE [--html OUT.html]\n",
            "tone moved BOOK OLD.wav NEW.wav T [RATE DRIVE]\n",
            "tone hum COUNT OUT.wav\n",
            "--sample-rate",
            "Exit status",
        ] {
            assert!(help.contains(part), "{part}");
        }
    }
    for option in ["--version", "-V"] {
        assert_eq!(
            accepted(&run!(option)),
            format!("tone {}\n", env!("CARGO_PKG_VERSION"))
        );
    }
}

#[test]
fn wrong_usage() {
    unusable(&run!(), &["no command", "--help"]);
    unusable(&run!("tune"), &["no command tune"]);
    let check = ["wrong count", "usage is tone check BOOK: see tone --help"];
    unusable(&run!("check"), &check);
    unusable(&run!("check", "a", "b"), &check);
    unusable(
        &run!("build", "a", "b", "1"),
        &["wrong count", "tone build BOOK RECORDING.wav T STORE:"],
    );
    let play = ["wrong count", "tone play BOOK STORE RATE DRIVE OUT.wav:"];
    unusable(&run!("play", "a", "b", "1", "d"), &play);
    // S and T are in the store, and no arguments
    unusable(&run!("play", "a", "b", "3", "1", "1", "d", "o"), &play);
    let report = [
        "wrong count",
        "tone report BOOK STORE RATE DRIVE [--html OUT.html]:",
    ];
    unusable(&run!("report", "a", "b", "1"), &report);
    unusable(&run!("report", "a", "b", "1", "d", "o"), &report);
    let moved = [
        "wrong count",
        "tone moved BOOK OLD.wav NEW.wav T [RATE DRIVE]:",
    ];
    unusable(&run!("moved", "a", "b", "c"), &moved);
    unusable(&run!("moved", "a", "b", "c", "1", "1"), &moved);
    unusable(&run!("moved", "a", "b", "c", "1", "1", "d", "o"), &moved);
    unusable(&run!("check", "--fast", "a"), &["no option --fast"]);
    unusable(&run!("check", "--fast=3", "a"), &["no option --fast=3"]);
    for name in ["check", "build", "play", "moved", "hum", "tune"] {
        let html = ["--html goes with tone report"];
        unusable(&run!(name, "--html", "o"), &html);
        unusable(&run!(name, "--html=o"), &html);
    }
    for name in ["check", "build", "report", "moved"] {
        let output = run!(name, "--sample-rate", "8000", "a");
        unusable(&output, &["goes with tone play and tone hum"]);
    }
    unusable(
        &run!("build", "a", "b", "two", "s"),
        &["T", "\"two\"", "whole number"],
    );
    unusable(
        &run!("moved", "a", "b", "c", "two"),
        &["T", "\"two\"", "whole number"],
    );
    unusable(
        &run!("build", "a", "b", "--", "-1", "s"),
        &["T", "\"-1\"", "whole number"],
    );
}

#[test]
fn wrong_numbers_for_play() {
    let play =
        |rate: &str, hertz: &str| run!("play", "--sample-rate", hertz, "a", "b", rate, "d", "o");
    for rate in ["nan", "inf", "1e1", "", "one"] {
        unusable(&play(rate, "8000"), &["RATE", "not a decimal"]);
    }
    for hertz in ["0", "2147483648", "99999999999999999999"] {
        unusable(&play("1", hertz), &["--sample-rate", "outside"]);
    }
    for hertz in ["fast", "3.5"] {
        unusable(&play("1", hertz), &["--sample-rate", "whole number"]);
    }
    unusable(
        &run!("play", "--sample-rate"),
        &["--sample-rate takes a number"],
    );
    unusable(&run!("report", "a", "--html"), &["--html takes a file"]);
    unusable(
        &run!("report", "a", "b", "one", "d"),
        &["RATE", "not a decimal"],
    );
}
