//! Document 01's bench cases and every refusal number, through the crate.

use tone::{archive, build, check, check_store, store_words, top_level};
use tone::{Refusal, Voice, VOICE_LENGTH, VOICE_WORDS};

/// Book K with another F, h[0] and g[0].
fn book_k(f: i32, h: i32, g: i32) -> Vec<i32> {
    vec![2, 1, 0, 0, f, 0, 16384, 16384, -16384, h, g]
}

fn plain_k() -> Vec<i32> {
    book_k(1, 16384, 16384)
}

fn store_of(book: &[i32], samples: &[i16], top: u32) -> Vec<i32> {
    let mut store = vec![0; store_words(samples.len(), top).unwrap()];
    build(book, samples, top, &mut store).unwrap();
    store
}

/// Opens, jumps where a rate to jump to is given, and plays `count` outputs.
fn drive(
    book: &[i32],
    top: u32,
    samples: &[i16],
    rates: &[f32],
    count: usize,
) -> (Vec<i16>, Voice) {
    let store = store_of(book, samples, top);
    let mut voice = Voice::open(rates[0], top_level(&store).unwrap()).unwrap();
    for rate in &rates[1..] {
        voice.jump(*rate).unwrap();
    }
    let mut out = vec![0; count];
    voice.play(book, &store, &mut out).unwrap();
    (out, voice)
}

fn number<T: std::fmt::Debug>(answer: Result<T, Refusal>) -> u32 {
    answer.unwrap_err().number()
}

/// R, which stands in words 4 and 5.
fn fixed_rate(voice: &Voice) -> u64 {
    wide(voice.words(), 4)
}

fn wide(words: &[i32; VOICE_WORDS], at: usize) -> u64 {
    u64::from(words[at] as u32) | u64::from(words[at + 1] as u32) << 32
}

fn with(voice: &Voice, changes: &[(usize, i32)]) -> Voice {
    let mut words = *voice.words();
    for (at, word) in changes {
        words[*at] = *word;
    }
    Voice::from_words(words)
}

#[test]
fn cases_a_and_b() {
    let samples = [0, 1000, 2000];
    let (out, _) = drive(&plain_k(), 0, &samples, &[1.0], 4);
    assert_eq!(out, [500, 1500, 1000, 0]);
    let (out, _) = drive(&plain_k(), 1, &samples, &[2.0], 3);
    assert_eq!(out, [1000, 1000, 0]);
}

#[test]
fn cases_c_and_d() {
    let samples = [0, 1000, 0, 1000];
    let (out, voice) = drive(&book_k(4, 16384, 16384), 1, &samples, &[1.0, 2.0], 2);
    assert_eq!(out, [500, 0]);
    assert_eq!(voice.words()[1..4], [1, 1, 0]);
    let (out, _) = drive(&plain_k(), 1, &samples, &[1.0, 2.0], 2);
    assert_eq!(out, [0, 0]);
}

#[test]
fn case_g() {
    let book = book_k(1, 16384, 32767);
    assert_eq!(drive(&book, 0, &[32767; 3], &[1.0], 1).0, [32767]);
    assert_eq!(drive(&book, 0, &[-32768; 3], &[1.0], 1).0, [-32768]);
}

#[test]
fn glides_of_case_h_and_after() {
    let book = plain_k();
    let store = store_of(&book, &[0; 8], 1);
    let rates = |from: f32, to: f32, count: u32| {
        let mut voice = Voice::open(from, 1).unwrap();
        voice.glide(to, count).unwrap();
        let step = |_| {
            voice.play(&book, &store, &mut [0]).unwrap();
            fixed_rate(&voice)
        };
        (0..count).map(step).collect::<Vec<_>>()
    };
    assert_eq!(rates(2.0, 1.0, 3)[0], 223_696_213);
    let expected = [167_772_160, 201_326_592, 234_881_024, 268_435_456];
    assert_eq!(rates(1.0, 2.0, 4), expected);
}

#[test]
fn limits_of_counts_and_positions() {
    let fresh = Voice::open(1.0, 0).unwrap();
    let mut voice = fresh.clone();
    assert_eq!(number(voice.glide(1.5, 0)), 11);
    assert_eq!(number(voice.glide(1.5, 65_537)), 11);
    assert_eq!(number(voice.seek((1 << 60) + 1)), 12);
    assert_eq!(voice, fresh);
    voice.glide(1.5, 65_536).unwrap();
    voice.seek(1 << 60).unwrap();
    assert_eq!(wide(voice.words(), 12), 1 << 60);
    let store = store_of(&plain_k(), &[0; 3], 0);
    let before = voice.clone();
    voice.play(&plain_k(), &store, &mut []).unwrap();
    assert_eq!(voice, before);
}

/// A book for each of 1 to 7, by the change that brings it about.
fn refused_books() -> Vec<Vec<i32>> {
    let changed = |at: usize, word: i32| {
        let mut book = plain_k();
        book[at] = word;
        book
    };
    vec![
        plain_k()[..4].to_vec(),
        changed(0, 3),
        plain_k()[..10].to_vec(),
        changed(9, 32768),
        changed(5, 1),
        changed(7, 1),
        vec![2, 1, 0, 1, 1, 0, 16384, 16384, -16384, 16384, 16384, 8193],
    ]
}

#[test]
fn books_that_are_refused() {
    assert_eq!(check(&plain_k()), Ok(()));
    let store = store_of(&plain_k(), &[5; 3], 0);
    let fresh = Voice::open(1.0, 0).unwrap();
    for (at, book) in refused_books().iter().enumerate() {
        let expected = at as u32 + 1;
        assert_eq!(number(check(book)), expected);
        let mut space = [77; 6];
        assert_eq!(number(build(book, &[5; 3], 0, &mut space)), expected);
        assert_eq!(space, [77; 6]);
        let (mut voice, mut out) = (fresh.clone(), [77; 3]);
        assert_eq!(number(voice.play(book, &store, &mut out)), expected);
        assert_eq!((voice, out), (fresh.clone(), [77; 3]));
    }
}

#[test]
fn stores_that_are_refused() {
    let book = plain_k();
    assert_eq!(number(build(&book, &[], 0, &mut [0; 6])), 8);
    assert_eq!(number(build(&book, &[1], 5, &mut [0; 16])), 8);
    assert_eq!(number(build(&book, &[1; 3], 1, &mut [0; 8])), 9);
    assert_eq!(number(Voice::open(1.0, 5)), 8);
    let built = store_of(&book, &[1; 3], 1);
    let changed = |at: usize, word: i32| {
        let mut store = built.clone();
        store[at] = word;
        store
    };
    let cases = [
        (9, built[..1].to_vec()),
        (8, changed(0, 0)),
        (8, changed(0, 1 << 21)),
        (8, changed(1, -1)),
        (8, changed(1, 5)),
        (9, built[..8].to_vec()),
        (18, changed(2, 4)),
        (18, changed(3, 1)),
    ];
    let fresh = Voice::open(1.0, 1).unwrap();
    for (expected, store) in cases {
        let (mut voice, mut out) = (fresh.clone(), [77; 2]);
        assert_eq!(number(check_store(&store)), expected);
        assert_eq!(number(voice.play(&book, &store, &mut out)), expected);
        assert_eq!((voice, out), (fresh.clone(), [77; 2]));
    }
    assert_eq!(check_store(&built), Ok(()));
}

/// A store as it was before it named its levels: the samples stand where the
/// header should.
#[test]
fn stores_without_a_header() {
    let book = plain_k();
    let levels_of = |samples: &[i16]| store_of(&book, samples, 0)[3..].to_vec();
    assert_eq!(number(check_store(&levels_of(&[0, 1000, 2000]))), 8);
    assert_eq!(number(check_store(&levels_of(&[-1; 2000]))), 8);
    assert_eq!(number(check_store(&levels_of(&[1; 2000]))), 8);
    // 4 x 256 and 0 pass for S and T
    let quiet = |count: usize| [&[4, 0][..], &vec![5; count]].concat();
    assert_eq!(number(check_store(&levels_of(&quiet(1000)))), 9);
    assert_eq!(number(check_store(&levels_of(&quiet(2000)))), 18);
}

#[test]
fn voices_that_are_refused() {
    let book = plain_k();
    let store = store_of(&book, &[5; 3], 1);
    let fresh = Voice::open(1.0, 1).unwrap();
    let cases = [
        (13, with(&fresh, &[(0, 5)])),
        (13, with(&fresh, &[(0, -1)])),
        (13, with(&fresh, &[(1, 2), (2, 2)])),
        (13, with(&fresh, &[(0, 2), (2, 3)])),
        (19, with(&fresh, &[(0, 2)])),
        (19, with(&fresh, &[(0, 0)])),
        (19, with(&fresh, &[(0, 2), (3, 1), (5, 1)])),
        (14, with(&fresh, &[(3, 1)])),
        (14, with(&fresh, &[(3, 1), (5, 1)])),
        (15, with(&fresh, &[(5, 1)])),
        (16, with(&fresh, &[(12, 1), (13, 1 << 28)])),
        (17, with(&fresh, &[(94, (1 << 29) + 1)])),
        (17, with(&fresh, &[(14, i32::MIN)])),
    ];
    for (expected, damaged) in cases {
        let (mut voice, mut out) = (damaged.clone(), [77; 2]);
        let played = voice.play(&book, &store, &mut out);
        assert_eq!((number(played), out), (expected, [77; 2]));
        // 14 needs a book's F and 19 a store's T, so both are for play alone.
        if ![14, 19].contains(&expected) {
            assert_eq!(number(voice.jump(1.0)), expected);
            assert_eq!(number(voice.glide(1.0, 1)), expected);
            assert_eq!(number(voice.seek(0)), expected);
        }
        assert_eq!(voice, damaged);
    }
}

/// One output after another, with the multiply count of each.
fn counts(book: &[i32], store: &[i32], voice: &mut Voice, outputs: usize) -> Vec<u64> {
    let one = |_| voice.play(book, store, &mut [0]).unwrap();
    (0..outputs).map(one).collect()
}

/// N 2 and B 0: 9 for an output, and 4 more for each of its points in a fade, to the
/// last one.
#[test]
fn multiplies_of_fades_that_end_at_either_point() {
    let cases: [(i32, [u64; 4]); 5] = [
        (1, [13, 9, 9, 9]),
        (2, [17, 9, 9, 9]),
        (3, [17, 13, 9, 9]),
        (4, [17, 17, 9, 9]),
        (256, [17; 4]),
    ];
    for (fade, expected) in cases {
        let book = book_k(fade, 16384, 16384);
        let store = store_of(&book, &[5; 30], 1);
        let mut voice = Voice::open(1.0, 1).unwrap();
        assert_eq!(counts(&book, &store, &mut voice, 3), [9; 3]);
        voice.jump(2.0).unwrap();
        let mut whole = voice.clone();
        assert_eq!(counts(&book, &store, &mut voice, 4), expected, "F {fade}");
        let count = whole.play(&book, &store, &mut [0; 4]).unwrap();
        assert_eq!((count, whole), (expected.iter().sum(), voice));
    }
}

/// 55 an output for N 12 and B 3, in the longest play too.
#[test]
fn multiplies_of_long_plays() {
    let impulses = [0, 0, 0, 0, 0, 0, 16384, 0, 0, 0, 0, 0];
    let differences = [0, 0, 0, 0, 0, 16384, -16384, 0, 0, 0, 0, 0];
    let taps = [16384, 16384, 0, 0, 0];
    let book = [&[12, 1, 0, 3, 1][..], &impulses, &differences, &taps].concat();
    let store = store_of(&book, &[5; 30], 0);
    let mut voice = Voice::open(1.0, 0).unwrap();
    let mut out = vec![0; 1_048_576];
    for outputs in [0, 1, 63, 64, 65, 255, 256, 4096, 1_048_576] {
        let count = voice.play(&book, &store, &mut out[..outputs]).unwrap();
        assert_eq!(count, 55 * outputs as u64);
    }
}

/// A refused call has none, whatever stood there.
#[test]
fn multiplies_of_refused_plays() {
    let book = plain_k();
    let store = store_of(&book, &[5; 3], 1);
    let fresh = *Voice::open(1.0, 1).unwrap().words();
    let damaged = *with(&Voice::from_words(fresh), &[(3, 1)]).words();
    let cases: [(&[i32], &[i32], [i32; VOICE_WORDS], u32); 4] = [
        (&book[..4], &store, fresh, 1),
        (&book, &store[..8], fresh, 9),
        (&book, &store, damaged, 14),
        (&book, &store, fresh, 0),
    ];
    for (book, store, mut words, expected) in cases {
        let mut multiplies = 77;
        let number = archive::play(&mut words, book, store, &mut [7; 3], &mut multiplies);
        let count = if expected == 0 { 27 } else { 0 };
        assert_eq!((number, multiplies), (expected, count));
    }
}

#[test]
fn a_slice_of_too_many_outputs() {
    let book = plain_k();
    let store = store_of(&book, &[0, 1000, 2000], 0);
    let fresh = Voice::open(1.0, 0).unwrap();
    let (mut voice, mut out) = (fresh.clone(), vec![77; 1_048_577]);
    assert_eq!(number(voice.play(&book, &store, &mut out)), 11);
    assert_eq!(voice, fresh);
    assert!(out.iter().all(|sample| *sample == 77));
    voice.play(&book, &store, &mut out[..1_048_576]).unwrap();
    assert_eq!(out[..4], [500, 1500, 1000, 0]);
    assert_eq!(out[1_048_575..], [0, 77]);
}

#[test]
fn voice_slices_of_another_length() {
    let book = plain_k();
    let store = store_of(&book, &[5; 3], 0);
    for length in [0, 1, 94, 96, 200] {
        let mut voice = vec![77; length];
        let mut out = [77; 2];
        assert_eq!(archive::open(1.0, 0, &mut voice), VOICE_LENGTH);
        assert_eq!(archive::open(f32::NAN, 9, &mut voice), VOICE_LENGTH);
        assert_eq!(archive::jump(&mut voice, 1.0), VOICE_LENGTH);
        assert_eq!(archive::glide(&mut voice, 1.0, 1), VOICE_LENGTH);
        assert_eq!(archive::seek(&mut voice, 0), VOICE_LENGTH);
        for lent in [(&book[..], &store[..]), (&[], &[])] {
            let mut multiplies = 77;
            let played = archive::play(&mut voice, lent.0, lent.1, &mut out, &mut multiplies);
            assert_eq!((played, multiplies), (VOICE_LENGTH, 0));
        }
        assert_eq!((voice, out), (vec![77; length], [77; 2]));
    }
}

#[test]
fn every_number_has_a_meaning() {
    let book = plain_k();
    let store = [1, 0, 1, 256];
    let of_another_top = Voice::open(1.0, 1).unwrap().play(&book, &store, &mut []);
    let refusals = [
        check(&[]).unwrap_err(),
        build(&book, &[], 0, &mut []).unwrap_err(),
        Voice::open(1.0, 5).unwrap_err(),
        Voice::from_words([0; VOICE_WORDS]).jump(1.0).unwrap_err(),
        check_store(&[]).unwrap_err(),
        check_store(&[1, 0, 2, 256]).unwrap_err(),
        of_another_top.unwrap_err(),
    ];
    let lines = refusals.map(|refusal| refusal.to_string());
    assert_eq!(lines[0], "refused 1: the book is shorter than 5 words");
    assert_eq!(lines[1], lines[2]);
    assert_eq!(
        lines[1],
        "refused 8: the count of samples is outside 1..1048576, or the top level outside 0..4"
    );
    assert!(lines[3].starts_with("refused 15: "));
    assert_eq!(
        lines[4],
        "refused 9: the store is shorter than its header and levels"
    );
    assert_eq!(
        lines[5],
        "refused 18: a level length in the store's header is not the one that its S and T give"
    );
    assert_eq!(
        lines[6],
        "refused 19: the voice's top level is not the store's"
    );
}
