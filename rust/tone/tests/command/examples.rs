//! The example book, hum and drive.

use std::ffi::OsStr;
use std::fs;

use tone::Voice;

use crate::bench::{
    accepted, error_text, example_book, examples, python, store_of, wav_of, Folder,
};
use crate::places::repository;

#[test]
fn the_example_book_is_accepted() {
    let book = example_book();
    assert_eq!(book[..5], [12, 64, 40, 20, 64]);
    tone::check(&book).unwrap();
}

#[test]
fn the_example_book_is_what_its_script_makes() {
    let script = examples().join("book/make_book.py");
    let Some(made) = python(&[script.as_os_str()]) else {
        return;
    };
    assert_eq!(error_text(&made), "");
    let stored = fs::read(examples().join("book/book.txt")).unwrap();
    assert!(made.stdout == stored, "make_book.py makes another book");
}

#[test]
fn the_example_book_keeps_a_steady_level() {
    let book = example_book();
    for phase in book[5..5 + 64 * 12].chunks(12) {
        assert_eq!(phase.iter().sum::<i32>(), 16384);
    }
    // in the middle of a long steady recording every output is the sample
    let store = store_of(&book, &[12345; 20000], 4);
    for rate in [0.0625, 0.7, 1.0, 1.99, 3.3, 7.0, 15.0, 31.9] {
        let mut voice = Voice::open(rate, 4).unwrap();
        voice.seek(5000 << 28).unwrap();
        let mut out = [0; 200];
        voice.play(&book, &store, &mut out).unwrap();
        assert!(out[50..].iter().all(|sample| *sample == 12345), "{rate}");
    }
}

#[test]
fn the_example_book_has_its_figures() {
    let script = examples().join("book/make_book.py");
    let Some(made) = python(&[script.as_os_str(), OsStr::new("--figures")]) else {
        return;
    };
    let figures = accepted(&made);
    let worst = |line: &str| -> f64 {
        let (_, value) = line.split_once("at most ").unwrap();
        value.strip_suffix(" dB").unwrap().parse().unwrap()
    };
    let stop_bands: Vec<f64> = figures
        .lines()
        .filter(|line| line.contains("stop"))
        .map(worst)
        .collect();
    assert_eq!(stop_bands.len(), 3);
    assert!(stop_bands.iter().all(|value| *value <= -65.0), "{figures}");
}

/// What `examples/run.sh` does: a hum, its store, and a drive through it.
#[test]
fn the_example_flow() {
    let folder = Folder::new();
    let examples = examples();
    let (hum, store, out) = (
        folder.path("hum.wav"),
        folder.path("hum.store"),
        folder.path("out.wav"),
    );
    fs::write(&hum, hum::wav(1)).unwrap();
    let (book, drive) = (examples.join("book/book.txt"), examples.join("drive.txt"));
    assert_eq!(accepted(&run!("check", book)), "accepted\n");
    let built = run!("build", book, hum, "2", store);
    assert_eq!(accepted(&built), "S 96000, T 2: 168005 words\n");
    let played = run!("play", book, store, "1", drive, out);
    // past 2, to 0.75, past 2 and 4, and on the way down past 15/16 of each
    let count = 100_000 * (4 * 12 + 2 * 20 + 1) + 6 * 64 * 2 * 12;
    let expected = format!("100000 outputs, 6 fades, {count} multiplies, 89.09 per output\n");
    assert_eq!(accepted(&played), expected);
    let bytes = fs::read(&out).unwrap();
    assert_eq!(bytes.len(), 44 + 2 * 100_000);
    assert_eq!(bytes[..44], wav_of(48000, &[0; 100_000])[..44]);
    // it hums all the way, but for the rise at the two beginnings and the end
    let samples: Vec<i16> = bytes[44..]
        .chunks(2)
        .map(|b| i16::from_le_bytes([b[0], b[1]]))
        .collect();
    let loudest = |block: &[i16]| {
        block
            .iter()
            .map(|sample| sample.unsigned_abs())
            .max()
            .unwrap()
    };
    assert!(samples.chunks(1000).all(|block| loudest(block) > 1000));
    assert!(loudest(&samples) < 32767);
}

/// What README shows of `tone moved`, for the example drive and two takes of the hum.
#[test]
fn another_take_of_the_hum() {
    let folder = Folder::new();
    let takes = [1, 2].map(|take| folder.write(&format!("take{take}.wav"), hum::wav(take)));
    let (book, drive) = (
        examples().join("book/book.txt"),
        examples().join("drive.txt"),
    );
    let moved = run!("moved", book, takes[0], takes[1], "2", "1", drive);
    let named = accepted(&moved).replace(&drive.display().to_string(), "examples/drive.txt");
    let readme = fs::read_to_string(repository().join("README.md")).unwrap();
    assert!(readme.contains(&named), "{named}");
}
