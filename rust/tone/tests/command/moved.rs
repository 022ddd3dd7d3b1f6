//! `tone moved`.

use std::path::{Path, PathBuf};
use std::process::Output;

use renderer::levels::{build, store_length};
use renderer::voice::{open, order, play, Card, Lent, Order};
use renderer::Edition;
use tone::{Refusal, Voice};

use crate::bench::{
    accepted, bad_books, example_book, pattern, refused, text_of, unusable, wav_of, Folder, K,
};

/// Two recordings and a book in a folder.
struct Takes {
    folder: Folder,
    book: PathBuf,
    old: PathBuf,
    new: PathBuf,
}

impl Takes {
    fn new(book: &[i32], old: &[i16], new: &[i16]) -> Takes {
        let folder = Folder::new();
        Takes {
            book: folder.book(book),
            old: folder.write("old.wav", wav_of(48000, old)),
            new: folder.write("new.wav", wav_of(44100, new)),
            folder,
        }
    }

    fn moved(&self, top: &str) -> Output {
        run!("moved", self.book, self.old, self.new, top)
    }

    fn moved_in(&self, top: &str, rate: &str, drive: &str) -> Output {
        let drive = self.folder.write("drive.txt", drive);
        run!("moved", self.book, self.old, self.new, top, rate, drive)
    }

    /// The drive's file, and a line in it.
    fn drive(&self) -> PathBuf {
        self.folder.path("drive.txt")
    }

    fn line(&self, number: usize) -> String {
        format!("{}:{number}", self.drive().display())
    }
}

/// The lines about recordings and drives.
fn text(recordings: &str, drives: &[&str]) -> String {
    let lines = [&[recordings][..], drives].concat();
    lines.iter().map(|line| format!("{line}\n")).collect()
}

fn bound(steps: &str, top: u32) -> String {
    format!(
        "No sample of any drive moves by more than {steps} steps: \
         8 x 2^T x D + (126 + 4 x 2^T)/128 with T = {top}."
    )
}

#[test]
fn the_bound_for_each_t() {
    for (top, steps, whole) in [
        (0, "97.015625", 97),
        (1, "193.046875", 193),
        (2, "385.109375", 385),
        (3, "769.234375", 769),
        (4, "1537.484375", 1537),
    ] {
        let takes = Takes::new(&K, &[5, -6, 7, 0], &[5, 6, -5, 1]);
        let recordings =
            "The recordings differ by at most 12 steps of 16 bits, first at sample 1 of 4: D = 12.";
        let most = format!("Samples are whole, so {whole} is the most.");
        let expected = text(recordings, &[&bound(steps, top), &most]);
        assert_eq!(accepted(&takes.moved(&top.to_string())), expected);
        assert_eq!(takes.folder.names(), ["book.txt", "new.wav", "old.wav"]);
    }
}

#[test]
fn recordings_that_are_equal() {
    let takes = Takes::new(&K, &pattern(300), &pattern(300));
    let equal = "The recordings are equal, all 300 samples: D = 0.";
    let none = "No sample of any drive moves.";
    assert_eq!(accepted(&takes.moved("3")), text(equal, &[none]));
    let drive = format!("In {} none of 20 outputs moves.", takes.drive().display());
    let output = takes.moved_in("3", "1.5", "play 20\n");
    assert_eq!(accepted(&output), text(equal, &[none, &drive]));
}

#[test]
fn recordings_as_far_apart_as_can_be() {
    let takes = Takes::new(&K, &[32767], &[-32768]);
    let recordings =
        "The recordings differ by at most 65535 steps of 16 bits, first at sample 0 of 1: D = 65535.";
    let most = "Samples have 16 bits, so 65535 is the most.";
    let expected = text(recordings, &[&bound("8388481.484375", 4), most]);
    assert_eq!(accepted(&takes.moved("4")), expected);
}

/// The proof's instance, crates/sensitivity: the book's sums are the largest, and the
/// tone moves by 8 x 2 x 100.
#[test]
fn a_drive_that_reaches_the_factor() {
    let book = [
        4, 1, 0, 0, 1, 0, -32768, -32768, 0, -32768, 0, 32768, 0, -32768, -32768,
    ];
    let takes = Takes::new(
        &book,
        &[10, 20, 30, 40, 50, 60],
        &[110, 20, 130, 40, 150, 60],
    );
    let output = takes.moved_in("1", "2", "play 2\nplay 1\nseek 0\nplay 1\n");
    let expected = text(
        "The recordings differ by at most 100 steps of 16 bits, first at sample 0 of 6: D = 100.",
        &[
            &bound("1601.046875", 1),
            "Samples are whole, so 1601 is the most.",
            &format!(
                "In {} the most is 1600 steps, first at output 0 of 4.",
                takes.drive().display()
            ),
        ],
    );
    assert_eq!(accepted(&output), expected);
}

/// What the renderer plays: 700 outputs at rate 0.8, then a glide to 5 over 900.
fn rendered(book: &[i32], samples: &[i16], top: u64) -> Vec<i16> {
    let edition = Edition::H;
    let mut store = vec![0; store_length(edition, samples.len() as u64, top)];
    assert_eq!(build(edition, book, samples, top.into(), &mut store), 0);
    let lent = Lent {
        book,
        second: &[],
        store: &store,
        samples: 0,
    };
    let (_, voice) = open(edition, Card { rate: 0.8, top });
    let (mut first, mut rest) = (vec![0; 700], vec![0; 900]);
    let voice = play(edition, &voice, &lent, &mut first).voice;
    let (number, voice) = order(edition, &voice, Order::Glide(5.0, 900));
    assert_eq!(number, 0);
    assert_eq!(play(edition, &voice, &lent, &mut rest).number, 0);
    [first, rest].concat()
}

#[test]
fn a_drive_moves_as_the_renderer_says() {
    let book = example_book();
    let old = pattern(4000);
    let step = |n: i16| if n < 1000 { 0 } else { n % 90 - 45 };
    let new: Vec<i16> = old.iter().zip(0..).map(|(x, n)| x + step(n)).collect();
    let tones = [&old, &new].map(|samples| rendered(&book, samples, 2));
    let differences = || tones[0].iter().zip(&tones[1]).map(|(x, y)| x.abs_diff(*y));
    let most = differences().max().unwrap();
    let place = differences().position(|steps| steps == most).unwrap();
    // past the first play, so that places are counted over all of them
    assert!(most > 20 && place > 700, "{most} at {place}");
    let takes = Takes::new(&book, &old, &new);
    let output = takes.moved_in("2", "0.8", "play 700\nglide 5 900\n\nplay 400\nplay 500\n");
    let drive = format!(
        "In {} the most is {most} steps, first at output {place} of 1600.\n",
        takes.drive().display()
    );
    let said = accepted(&output);
    assert!(said.starts_with("The recordings differ by at most 45 steps"));
    assert!(said.ends_with(&drive), "{said}\n{drive}");
}

#[test]
fn recordings_of_two_lengths() {
    let takes = Takes::new(&K, &[0; 5], &[0; 4]);
    unusable(
        &takes.moved("1"),
        &["new.wav: 4 samples, and ", "old.wav has 5"],
    );
}

#[test]
fn what_a_build_refuses() {
    let refusal = |book: &[i32], samples: &[i16], top| -> Refusal {
        tone::build(book, samples, top, &mut []).unwrap_err()
    };
    for book in bad_books() {
        let takes = Takes::new(&book, &[1], &[2]);
        refused(&takes.moved("0"), "build", refusal(&book, &[1], 0));
    }
    let takes = Takes::new(&K, &[1], &[2]);
    refused(&takes.moved("5"), "build", refusal(&K, &[1], 5));
    let none = Takes::new(&K, &[], &[]);
    refused(&none.moved("0"), "build", refusal(&K, &[], 0));
}

#[test]
fn what_a_drive_is_refused_for() {
    let takes = Takes::new(&K, &[1, 2], &[2, 1]);
    let ten = Voice::open(4.0, 1).unwrap_err();
    refused(&takes.moved_in("1", "4", "play 1\n"), "opening", ten);
    let output = takes.moved_in("1", "1", "play 1\njump 4\nplay 1\n");
    refused(&output, &takes.line(2), ten);
    let output = takes.moved_in("1", "1", "play 1\nstop\n");
    unusable(&output, &[&takes.line(2), "stop"]);
    let output = takes.moved_in("1", "fast", "play 1\n");
    unusable(&output, &["RATE", "not a decimal"]);
}

#[test]
fn files_that_cannot_be_read() {
    let takes = Takes::new(&K, &[1, 2], &[2, 1]);
    let none = takes.folder.path("none");
    let text = takes.folder.write("text.wav", text_of(&K));
    let moved = |book: &Path, old: &Path, new: &Path| run!("moved", book, old, new, "1");
    unusable(&moved(&none, &takes.old, &takes.new), &["none"]);
    unusable(&moved(&takes.book, &none, &takes.new), &["none"]);
    unusable(&moved(&takes.book, &takes.old, &text), &["text.wav"]);
    let output = run!("moved", takes.book, takes.old, takes.new, "1", "1", none);
    unusable(&output, &["none"]);
}
