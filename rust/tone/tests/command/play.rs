//! `tone play`.

use std::ffi::OsStr;
use std::fs;

use tone::{Refusal, Voice};

use crate::bench::{
    accepted, bad_books, example_book, pattern, refused, run, store_of, unusable, wav_of, Stage, K,
};

#[test]
fn play_writes_the_library_s_samples() {
    let stage = Stage::new(&example_book(), &pattern(4000), 2);
    let drive = "# up and on\nplay 300\nglide 3.3 500\nplay 200\nplay 400\n\njump 0.3\nplay 1\n\
                 seek 268435456000\njump 7.99\nplay 100\nplay 0\nglide 0.0625 65536\nplay 77\n";
    let output = stage.play("1.1", drive);
    // to level 1 past 2, to 0 at 0.3, and from there, once that one has ended, to 2: an
    // output takes 4 x 12 + 2 x 20 + 1, and each of a fade's 64 points 2 x 12 more
    let count = 1078 * 89 + 3 * 64 * 24;
    let expected = format!("1078 outputs, 3 fades, {count} multiplies, 93.27 per output\n");
    assert_eq!(accepted(&output), expected);

    let mut voice = Voice::open(1.1, 2).unwrap();
    let mut samples = stage.perform(&mut voice, 300);
    voice.glide(3.3, 500).unwrap();
    samples.extend(stage.perform(&mut voice, 600));
    voice.jump(0.3).unwrap();
    samples.extend(stage.perform(&mut voice, 1));
    voice.seek(268_435_456_000).unwrap();
    voice.jump(7.99).unwrap();
    samples.extend(stage.perform(&mut voice, 100));
    voice.glide(0.0625, 65536).unwrap();
    samples.extend(stage.perform(&mut voice, 77));
    assert_eq!(stage.out(), wav_of(48000, &samples));
    assert!(samples.iter().any(|sample| *sample != 0));
    assert_eq!(
        stage.folder.names(),
        ["book.txt", "drive.txt", "hum.store", "out.wav"]
    );
}

/// Three trembles across 2: the level stays down to 15/16 of it. Whatever F is, each
/// fade counts once, also where it begins in one play and ends in the next.
#[test]
fn fades_and_multiplies_are_counted() {
    for fade in [1, 2, 3, 64, 255, 256] {
        let mut book = K;
        book[4] = fade;
        let stage = Stage::new(&book, &pattern(2000), 1);
        for (low, fades) in [("1.95", 0), ("1.875", 0), ("1.8749999", 6), ("0.5", 6)] {
            let tremble =
                format!("glide {low} 150\nplay 150\nplay 130\nglide 2.05 150\nplay 280\n");
            let output = stage.play("2", &tremble.repeat(3));
            // 9 for an output, and 4 more for each point of a fade
            let count = 1680 * 9 + fades * fade * 4;
            let mean = f64::from(count) / 1680.0;
            let expected =
                format!("1680 outputs, {fades} fades, {count} multiplies, {mean:.2} per output\n");
            assert_eq!(accepted(&output), expected, "F {fade}, down to {low}");
        }
    }
}

#[test]
fn bench_case_a() {
    let stage = Stage::new(&K, &[0, 1000, 2000], 0);
    accepted(&stage.play("1", "play 4\n"));
    assert_eq!(stage.out(), wav_of(48000, &[500, 1500, 1000, 0]));
}

#[test]
fn sample_rate_is_written() {
    let stage = Stage::small();
    let drive = stage.folder.write("drive.txt", "play 2");
    let paths = ["book.txt", "hum.store"].map(|name| stage.folder.path(name));
    let out = stage.folder.path("out.wav");
    let [book, store] = &paths;
    for option in [&["--sample-rate", "44100"][..], &["--sample-rate=44100"]] {
        let mut arguments = vec![OsStr::new("play")];
        arguments.extend(option.iter().map(OsStr::new));
        arguments.extend([book, store].map(|path| path.as_os_str()));
        arguments.push(OsStr::new("1.0"));
        arguments.extend([&drive, &out].map(|path| path.as_os_str()));
        assert_eq!(
            accepted(&run(&arguments)),
            "2 outputs, 0 fades, 18 multiplies, 9.00 per output\n"
        );
        assert_eq!(stage.out(), wav_of(44100, &[500, 1500]));
    }
}

#[test]
fn a_drive_without_plays_writes_an_empty_file() {
    let stage = Stage::small();
    assert_eq!(
        accepted(&stage.play("1", "# nothing\njump 2\nplay 0\n")),
        "0 outputs, 0 fades, 0 multiplies\n"
    );
    assert_eq!(stage.out(), wav_of(48000, &[]));
}

#[test]
fn a_store_may_have_words_after_its_levels() {
    let stage = Stage::small();
    let words = [&stage.store[..], &[i32::MAX; 3]].concat();
    accepted(&stage.play_store(&words, "1", "play 3"));
    assert_eq!(stage.out(), wav_of(48000, &[500, 1500, 1000]));
}

/// A file is read as far as the largest store goes, its header among its words.
#[test]
fn the_largest_store_is_read_whole() {
    let stage = Stage::new(&K, &vec![1000; tone::MOST_SAMPLES], tone::MOST_TOP);
    let words = [&stage.store[..], &[i32::MIN; 9]].concat();
    let end = format!("seek {}\nplay 2", (tone::MOST_SAMPLES - 1) << 28);
    accepted(&stage.play_store(&words, "16", &end));
    let mut voice = Voice::open(16.0, tone::MOST_TOP).unwrap();
    voice.seek(((tone::MOST_SAMPLES - 1) as u64) << 28).unwrap();
    assert_eq!(stage.out(), wav_of(48000, &stage.perform(&mut voice, 2)));
}

#[test]
fn the_longest_play_and_one_more() {
    let stage = Stage::small();
    assert_eq!(
        accepted(&stage.play("1", "play 1048576")),
        "1048576 outputs, 0 fades, 9437184 multiplies, 9.00 per output\n"
    );
    let mut voice = Voice::open(1.0, 1).unwrap();
    assert!(stage.out() == wav_of(48000, &stage.perform(&mut voice, 1_048_576)));
    fs::remove_file(stage.folder.path("out.wav")).unwrap();

    let mut out = vec![0; 1_048_577];
    let mut voice = Voice::open(1.0, 1).unwrap();
    let eleven = voice.play(&K, &stage.store, &mut out).unwrap_err();
    assert_eq!(eleven.number(), 11);
    for count in [
        "1048577",
        "4294967296",
        "18446744073709551616",
        "99999999999999999999999999",
    ] {
        let output = stage.play("1", &format!("play 4\n\nplay {count}\nplay 4\n"));
        refused(&output, &stage.line(3), eleven);
        stage.left_nothing();
    }
}

#[test]
fn refused_lines_are_named() {
    let stage = Stage::small();
    let voice = || Voice::open(1.0, 1).unwrap();
    let ten = voice().jump(4.0).unwrap_err();
    let eleven = voice().glide(1.5, 0).unwrap_err();
    let twelve = voice().seek((1 << 60) + 1).unwrap_err();
    assert_eq!([ten, eleven, twelve].map(Refusal::number), [10, 11, 12]);
    let cases = [
        ("jump 4", ten),
        ("jump 0.06249999", ten),
        ("jump -1", ten),
        ("jump 3.99999999", ten), // the nearest f32 is 4
        ("jump 9999999999999999999999999999999999999999999999", ten),
        ("glide 4 100", ten),
        ("glide 4 0", ten),
        ("glide 1.5 0", eleven),
        ("glide 1.5 65537", eleven),
        ("glide 1.5 99999999999", eleven),
        ("seek 1152921504606846977", twelve),
        ("seek 99999999999999999999", twelve),
    ];
    for (line, refusal) in cases {
        let output = stage.play("1", &format!("# a drive\nplay 3\n{line}\nplay 3\n"));
        refused(&output, &stage.line(3), refusal);
        stage.left_nothing();
    }
    let edges = "jump 3.9999997\njump 0.0625\nglide 2 65536\nseek 1152921504606846976\nplay 1\n";
    accepted(&stage.play("1", edges));
}

#[test]
fn openings_that_are_refused() {
    let stage = Stage::small();
    for rate in ["4", "0.06", "-1", "0"] {
        let refusal = Voice::open(rate.parse().unwrap(), 1).unwrap_err();
        assert_eq!(refusal.number(), 10);
        refused(&stage.play(rate, "play 1"), "opening", refusal);
    }
    stage.left_nothing();
}

/// T is the store's, and rates go up to below 2^(T+1).
#[test]
fn the_store_s_top_level_sets_the_highest_rate() {
    for (top, below, end) in [
        (0, "1.9999999", "2"),
        (2, "7.9999995", "8"),
        (4, "31.999998", "32"),
    ] {
        let stage = Stage::new(&K, &[0, 1000, 2000], top);
        accepted(&stage.play(below, "play 3"));
        fs::remove_file(stage.folder.path("out.wav")).unwrap();
        let ten = Voice::open(end.parse().unwrap(), top).unwrap_err();
        assert_eq!(ten.number(), 10);
        refused(&stage.play(end, "play 3"), "opening", ten);
        stage.left_nothing();
    }
}

#[test]
fn books_that_play_refuses() {
    let stage = Stage::small();
    for words in bad_books() {
        stage.folder.book(&words);
        let refusal = tone::check(&words).unwrap_err();
        // no play in the drive: it is tested all the same
        for drive in ["play 1", "jump 2"] {
            refused(&stage.play("1", drive), "opening", refusal);
        }
    }
    stage.left_nothing();
}

/// Plays a store that is refused by this number, with a play in the drive and
/// with none, and a rate that no store takes.
#[track_caller]
fn refuses_store(stage: &Stage, store: &[i32], number: u32) {
    let refusal = tone::check_store(store).unwrap_err();
    assert_eq!(refusal.number(), number);
    for (rate, drive) in [("1", "play 1"), ("1", "jump 2"), ("100", "play 1")] {
        stage.refused_store(&stage.play_store(store, rate, drive), refusal);
    }
}

#[test]
fn headers_that_play_refuses() {
    let stage = Stage::small();
    let changed = |at: usize, word: i32| {
        let mut store = stage.store.clone();
        store[at] = word;
        store
    };
    for sample_count in [0, -3, 1_048_577] {
        refuses_store(&stage, &changed(0, sample_count), 8);
    }
    for top in [-1, 5] {
        refuses_store(&stage, &changed(1, top), 8);
    }
    for (at, length) in [(2, 2), (2, 4), (3, 1), (3, 3)] {
        refuses_store(&stage, &changed(at, length), 18);
    }
    // the store is tested before the book, since opening needs its T
    stage.folder.book(&K[..4]);
    refuses_store(&stage, &changed(2, 4), 18);
}

#[test]
fn stores_that_were_cut_off() {
    let stage = Stage::small();
    for length in 0..stage.store.len() {
        refuses_store(&stage, &stage.store[..length], 9);
    }
}

/// Stores were once the levels alone.
#[test]
fn stores_without_a_header() {
    let stage = Stage::small();
    refuses_store(&stage, &stage.store[4..], 8);
    let levels_of = |samples: &[i16]| store_of(&K, samples, 0)[3..].to_vec();
    // 4 x 256 and 0 pass for S and T
    let quiet = |count: usize| [&[4, 0][..], &vec![5; count]].concat();
    refuses_store(&stage, &levels_of(&quiet(1000)), 9);
    refuses_store(&stage, &levels_of(&quiet(2000)), 18);
    // built again, it plays
    let recording = stage.folder.recording(&[0, 1000, 2000]);
    let store = stage.folder.path("hum.store");
    let book = stage.folder.path("book.txt");
    accepted(&run!("build", book, recording, "1", store));
    accepted(&stage.play("1", "play 3"));
    assert_eq!(stage.out(), wav_of(48000, &[500, 1500, 1000]));
}

#[test]
fn drives_and_stores_that_cannot_be_read() {
    let stage = Stage::small();
    for line in [
        "stop", "jump", "jump nan", "jump 1e0", "glide 2", "seek -1", "play 1.5", "play 1 2",
    ] {
        // a bad line is found before the first call is made
        let output = stage.play("1", &format!("jump 100\n\n# three\n{line}\n"));
        unusable(&output, &[&stage.line(4)]);
    }
    unusable(
        &stage.play("1", &"play 1048576\n".repeat(2048)),
        &["2147483648 samples", "WAV"],
    );
    stage.folder.write("hum.store", [0; 21]);
    unusable(&stage.play("1", "play 1"), &["hum.store", "4-byte words"]);
    stage.left_nothing();
    fs::remove_file(stage.folder.path("hum.store")).unwrap();
    unusable(&stage.play("1", "play 1"), &["hum.store"]);
    assert_eq!(stage.folder.names(), ["book.txt", "drive.txt"]);
}
