//! `tone build`.

use std::fs;
use std::path::Path;

use crate::bench::{
    accepted, bad_books, example_book, pattern, refused, store_of, text_of, unusable, wav_of,
    words_of, Folder, K,
};

#[test]
fn build_writes_the_library_s_store() {
    let folder = Folder::new();
    let (book, samples) = (example_book(), pattern(5001));
    let (book_file, recording) = (folder.book(&book), folder.recording(&samples));
    for top in 0..=4 {
        let store = folder.path("hum.store");
        let output = run!("build", book_file, recording, top.to_string(), store);
        let expected = store_of(&book, &samples, top);
        assert_eq!(
            accepted(&output),
            format!("S 5001, T {top}: {} words\n", expected.len())
        );
        assert_eq!(words_of(&fs::read(&store).unwrap()), expected);
        let header = [5001, top as i32, 5001, 2501, 1251, 626, 313];
        assert_eq!(expected[..3 + top as usize], header[..3 + top as usize]);
        assert_eq!(tone::top_level(&expected), Ok(top));
    }
    assert_eq!(folder.names(), ["book.txt", "hum.store", "hum.wav"]);
}

#[test]
fn build_takes_the_most_samples_and_no_more() {
    let folder = Folder::new();
    let book = folder.book(&K);
    let store = folder.path("hum.store");
    let samples = pattern(tone::MOST_SAMPLES + 1);
    let long = folder.recording(&samples);
    let output = run!("build", book, long, "4", store);
    refused(
        &output,
        "build",
        tone::build(&K, &samples, 4, &mut []).unwrap_err(),
    );
    let samples = &samples[1..];
    let longest = folder.recording(samples);
    assert_eq!(
        accepted(&run!("build", book, longest, "4", store)),
        "S 1048576, T 4: 2031623 words\n"
    );
    assert_eq!(
        words_of(&fs::read(&store).unwrap()),
        store_of(&K, samples, 4)
    );
}

#[test]
fn build_refusals_leave_no_file() {
    let folder = Folder::new();
    let samples = [0, 1000, 2000];
    let good = folder.book(&K);
    let recording = folder.recording(&samples);
    let build = |book: &Path, recording: &Path, top: &str| {
        run!("build", book, recording, top, folder.path("hum.store"))
    };
    let eight = tone::build(&K, &samples, 5, &mut []).unwrap_err();
    assert_eq!(eight.number(), 8);
    refused(&build(&good, &recording, "5"), "build", eight);
    refused(&build(&good, &recording, "4294967296"), "build", eight);
    let empty = folder.write("empty.wav", wav_of(48000, &[]));
    refused(&build(&good, &empty, "1"), "build", eight);
    for words in bad_books() {
        let book = folder.write("bad.txt", text_of(&words));
        let refusal = tone::check(&words).unwrap_err();
        refused(&build(&book, &recording, "1"), "build", refusal);
        refused(&build(&book, &empty, "5"), "build", refusal);
    }
    assert_eq!(
        folder.names(),
        ["bad.txt", "book.txt", "empty.wav", "hum.wav"]
    );
}

#[test]
fn a_refused_build_keeps_the_old_store() {
    let folder = Folder::new();
    let store = folder.write("hum.store", "an older store");
    let (book, recording) = (folder.book(&K), folder.recording(&[1, 2, 3]));
    assert_eq!(
        run!("build", book, recording, "5", store).status.code(),
        Some(1)
    );
    assert_eq!(fs::read(&store).unwrap(), b"an older store");
    accepted(&run!("build", book, recording, "0", store));
    let words = [3, 0, 3, 256, 512, 768];
    assert_eq!(words_of(&fs::read(&store).unwrap()), words);
    assert_eq!(folder.names(), ["book.txt", "hum.store", "hum.wav"]);
}

#[test]
fn recordings_that_cannot_be_used() {
    let folder = Folder::new();
    let book = folder.book(&K);
    let whole = wav_of(48000, &[1, 2, 3]);
    let changed = |at: usize, byte: u8| {
        let mut bytes = whole.clone();
        bytes[at] = byte;
        bytes
    };
    let cases = [
        (b"a text that is no recording".to_vec(), "not a WAV file"),
        (changed(8, b'B'), "not a WAV file"),
        (whole[..whole.len() - 1].to_vec(), "ends before"),
        (whole[..30].to_vec(), "ends before"),
        (changed(16, 200), "ends before"),
        (changed(20, 3), "not PCM"),
        (changed(22, 2), "2 channels"),
        (changed(34, 24), "24 bits"),
        (changed(36, b'D'), "no chunk \"data\""),
        (changed(12, b'F'), "no chunk \"fmt \""),
        (changed(40, 5), "half a sample"),
    ];
    for (bytes, text) in cases {
        let recording = folder.write("bad.wav", bytes);
        let output = run!("build", book, recording, "1", folder.path("hum.store"));
        unusable(&output, &["bad.wav", text]);
    }
    let missing = folder.path("missing.wav");
    unusable(
        &run!("build", book, missing, "1", folder.path("hum.store")),
        &["missing.wav"],
    );
    assert_eq!(folder.names(), ["bad.wav", "book.txt"]);
}

#[test]
fn recordings_with_other_chunks() {
    let folder = Folder::new();
    let plain = wav_of(48000, &[1, -2, 3]);
    let mut bytes = b"RIFF\0\0\0\0WAVELIST\x03\0\0\0odd\0".to_vec();
    bytes.extend(&plain[12..]);
    bytes.extend(b"id3 \x05\0\0\0data!\0");
    let size = bytes.len() as u32 - 8;
    bytes[4..8].copy_from_slice(&size.to_le_bytes());
    let recording = folder.write("hum.wav", bytes);
    let store = folder.path("hum.store");
    accepted(&run!("build", folder.book(&K), recording, "0", store));
    let words = [3, 0, 3, 256, -512, 768];
    assert_eq!(words_of(&fs::read(&store).unwrap()), words);
}
