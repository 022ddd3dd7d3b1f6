//! `tone report`: the text.

use std::process::Output;

use renderer::programs::drive_report;
use renderer::Edition;
use tone::{Refusal, Voice};

use crate::bench::{
    accepted, bad_books, bytes_of, error_text, example_book, examples, pattern, refused, store_of,
    text_of, unusable, Folder, Stage, K,
};

/// Status 0 and these lines, with these refusals on standard error.
#[track_caller]
fn reported(stage: &Stage, output: &Output, text: &str, refusals: &[(usize, &str)]) {
    let line = |&(number, why): &(usize, &str)| format!("tone: {}: {why}\n", stage.line(number));
    assert_eq!(
        error_text(output),
        refusals.iter().map(line).collect::<String>()
    );
    assert_eq!(String::from_utf8(output.stdout.clone()).unwrap(), text);
    assert_eq!(output.status.code(), Some(0));
    stage.left_nothing();
}

#[test]
fn a_line_for_each_play() {
    let stage = Stage::small();
    let output = stage.report("1", "play 4096\n");
    reported(&stage, &output, "1 4096 36864 0\ntotal 4096 36864\n", &[]);
    // 9 for an output and 4 for the one point of a fade, which ends at once
    let drive = "# up\nplay 10\njump 2\nseek 0\n\nplay 1\nglide 0.5 20\nplay 0\nplay 40\n";
    let text = "1 10 90 0\n2 1 13 1\n3 0 0 1\n4 40 364 0\ntotal 51 467\n";
    reported(&stage, &stage.report("1", drive), text, &[]);
}

/// A fade of 64 points takes 32 outputs, with 2 x 2 more multiplies a point. The
/// level at the end of a play is the old one while it runs.
#[test]
fn the_level_in_a_fade_is_the_old_one() {
    let mut book = K;
    book[4] = 64;
    let stage = Stage::new(&book, &pattern(2000), 2);
    let drive = "play 5\njump 7\nplay 31\nplay 1\njump 1\nplay 31\njump 2\nplay 1\nplay 32\nplay 1";
    let text = "1 5 45 0\n2 31 527 0\n3 1 17 2\n4 31 527 2\n5 1 17 0\n6 32 544 1\n7 1 9 1\n\
                total 102 1686\n";
    reported(&stage, &stage.report("1.5", drive), text, &[]);
}

/// Each line is what the library answers to the same play, made in one call.
#[test]
fn lines_are_the_library_s_answers() {
    let stage = Stage::new(&example_book(), &pattern(4000), 3);
    let mut voice = Voice::open(1.0, 3).unwrap();
    let (mut drive, mut text, mut sums) = (String::new(), String::new(), [0, 0]);
    for number in 1..=200 {
        let rate = (number * number % 61 + 1) as f32 / 4.0;
        let (glide, outputs) = (number as u32 % 7 * 40 + 1, number * 37 % 300);
        voice.glide(rate, glide).unwrap();
        let mut out = vec![0; outputs];
        let multiplies = voice.play(&stage.book, &stage.store, &mut out).unwrap();
        drive += &format!("glide {rate} {glide}\nplay {outputs}\n");
        text += &format!("{number} {outputs} {multiplies} {}\n", voice.words()[1]);
        sums = [sums[0] + outputs as u64, sums[1] + multiplies];
    }
    text += &format!("total {} {}\n", sums[0], sums[1]);
    reported(&stage, &stage.report("1", &drive), &text, &[]);
}

/// A drive in the language of request (f), where a rate is a whole number of 256ths,
/// and the same for the command, where it is a decimal.
fn two_languages() -> (String, String) {
    let (mut whole, mut decimal) = (String::new(), String::new());
    for k in 0..600u64 {
        let a = k * k * 7919 % 2100;
        let rate = a as f64 / 256.0;
        let (count, position) = (k * 97 % 700, (k * k) << (k % 48));
        let (first, second) = match k % 5 {
            0 => (format!("jump {a}"), format!("jump {rate}")),
            1 => (
                format!("glide {a} {count}"),
                format!("glide {rate} {count}"),
            ),
            2 => (format!("seek {position}"), format!("seek {position}")),
            3 if k % 10 == 3 => ("stop".to_owned(), "stop".to_owned()),
            _ => (format!("play {count}"), format!("play {count}")),
        };
        whole += &format!("{first}\n");
        decimal += &format!("{second}\n");
    }
    (whole, decimal)
}

/// On the test drive's hum, book and opening the text is that of request (f).
#[test]
fn the_text_of_the_drive_report() {
    let mut book = K;
    book[4] = 16;
    let mut samples = vec![0; 6400];
    tone::test_hum(0, &mut samples);
    let stage = Stage::new(&book, &samples, 2);
    let (whole, decimal) = two_languages();
    let expected = drive_report(Edition::H, whole.as_bytes());
    let output = stage.report("1", &decimal);
    assert_eq!(String::from_utf8(output.stdout).unwrap(), expected);
    for seen in ["refused\n", " 0\n", " 1\n", " 2\n"] {
        assert!(expected.contains(seen), "{seen:?}");
    }
}

#[test]
fn drives_without_calls() {
    let stage = Stage::small();
    for drive in ["", "\n", "# nothing\n\n   \n#", "\r\n"] {
        reported(&stage, &stage.report("1", drive), "total 0 0\n", &[]);
    }
    reported(
        &stage,
        &stage.report("1", "jump 2\nseek 5"),
        "total 0 0\n",
        &[],
    );
    reported(
        &stage,
        &stage.report("1", "play 0"),
        "1 0 0 0\ntotal 0 0\n",
        &[],
    );
}

#[test]
fn line_ends() {
    let stage = Stage::small();
    for drive in [
        "play 3\nplay 4",
        "play 3\nplay 4\n",
        "play 3\r\n\tplay  4 \r\n",
    ] {
        let text = "1 3 27 0\n2 4 36 0\ntotal 7 63\n";
        reported(&stage, &stage.report("1", drive), text, &[]);
    }
}

/// What is refused leaves no trace in what is played after it.
#[test]
fn refused_lines_are_passed_over() {
    let stage = Stage::small();
    let ten = "refused 10: the rate is not from 1/16 up to below 2^(T+1)";
    let eleven = "refused 11: the count of outputs is outside its range (a glide 1..65536, a play \
                  0..1048576)";
    let cases = [
        ("jump 4", ten),
        ("glide 4 100", ten),
        ("glide 1.5 0", eleven),
        ("glide 1.5 65537", eleven),
        ("play 1048577", eleven),
        ("play 99999999999999999999", eleven),
        (
            "seek 1152921504606846977",
            "refused 12: the position is beyond 2^60",
        ),
        ("stop", "\"stop\" is not jump, glide, seek or play"),
        ("Play 3", "\"Play 3\" is not jump, glide, seek or play"),
        ("jump nan", "\"nan\" is not a decimal rate"),
        ("jump", "jump takes a rate"),
        ("play 3 # three", "play takes a count of outputs"),
        (
            "\u{1b}<&>",
            "\"\\u{1b}<&>\" is not jump, glide, seek or play",
        ),
    ];
    for (line, why) in cases {
        let drive = format!("play 3\n\n{line}\njump 2\nplay 4\n");
        let text = "1 3 27 0\nrefused\n2 4 40 1\ntotal 7 67\n";
        reported(&stage, &stage.report("1", &drive), text, &[(3, why)]);
    }
    let drive = "x\n# no\njump 9\n\nplay 2\nplay 1048577\nplay 1";
    let text = "refused\nrefused\n1 2 18 0\nrefused\n2 1 9 0\ntotal 3 27\n";
    let refusals = [
        (1, "\"x\" is not jump, glide, seek or play"),
        (3, ten),
        (6, eleven),
    ];
    reported(&stage, &stage.report("1", drive), text, &refusals);
}

#[test]
fn the_longest_play() {
    let stage = Stage::small();
    let text = "1 1048576 9437184 0\ntotal 1048576 9437184\n";
    reported(&stage, &stage.report("1", "play 1048576"), text, &[]);
}

#[test]
fn the_sums_are_those_of_play() {
    let stage = Stage::new(&example_book(), &pattern(4000), 2);
    let drive = std::fs::read_to_string(examples().join("drive.txt")).unwrap();
    let report = accepted(&stage.report("1", &drive));
    let played = accepted(&stage.play("1", &drive));
    let sums = report.lines().last().unwrap().split(' ');
    let [total, outputs, multiplies] = sums.collect::<Vec<_>>()[..] else {
        panic!("{report}");
    };
    assert_eq!((total, outputs), ("total", "100000"));
    let begins = format!("{outputs} outputs, 6 fades, {multiplies} multiplies, ");
    assert!(played.starts_with(&begins), "{played}");
}

/// As `tone play` has them.
#[test]
fn openings_books_and_stores_that_are_refused() {
    let stage = Stage::small();
    for rate in ["4", "0.06", "-1"] {
        let ten = Voice::open(rate.parse().unwrap(), 1).unwrap_err();
        assert_eq!(ten.number(), 10);
        refused(&stage.report(rate, "play 1"), "opening", ten);
    }
    for words in bad_books() {
        stage.folder.book(&words);
        let refusal: Refusal = tone::check(&words).unwrap_err();
        refused(&stage.report("1", "jump 2"), "opening", refusal);
    }
    stage.folder.write("book.txt", text_of(&K));
    let store = store_of(&K, &[1, 2, 3], 0);
    stage.folder.write("hum.store", bytes_of(&store[..4]));
    let nine = tone::check_store(&store[..4]).unwrap_err();
    stage.refused_store(&stage.report("1", "play 1"), nine);
}

#[test]
fn files_that_cannot_be_read() {
    let stage = Stage::small();
    // not UTF-8: the same failure as that of tone play
    let drive = stage.folder.write("drive.txt", b"play 1\n\xff\n");
    let (book, store) = (
        stage.folder.path("book.txt"),
        stage.folder.path("hum.store"),
    );
    let report = run!("report", book, store, "1", drive);
    let play = run!(
        "play",
        book,
        store,
        "1",
        drive,
        stage.folder.path("out.wav")
    );
    unusable(&report, &["drive.txt", "UTF-8"]);
    assert_eq!(error_text(&report), error_text(&play));
    let nowhere = Folder::new().path("nowhere.txt");
    unusable(&run!("report", book, store, "1", nowhere), &["nowhere.txt"]);
    stage.left_nothing();
}
