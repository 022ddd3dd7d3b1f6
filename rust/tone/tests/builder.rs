//! The studio's half: what needs no voice.

use tone::{build, check, store_words, test_hum};

/// Book K with another h[0].
fn book_k(h: i32) -> Vec<i32> {
    vec![2, 1, 0, 0, 1, 0, 16384, 16384, -16384, h, 16384]
}

fn store_of(book: &[i32], samples: &[i16], top: u32) -> Vec<i32> {
    let mut store = vec![0; store_words(samples.len(), top).unwrap()];
    build(book, samples, top, &mut store).unwrap();
    store
}

/// The stores that cases A to D play.
#[test]
fn levels_of_the_bench_cases() {
    let book = book_k(16384);
    check(&book).unwrap();
    let one_level = [3, 0, 3, 0, 256_000, 512_000];
    assert_eq!(store_of(&book, &[0, 1000, 2000], 0), one_level);
    let two_levels = [3, 1, 3, 2, 0, 256_000, 512_000, 0, 512_000];
    assert_eq!(store_of(&book, &[0, 1000, 2000], 1), two_levels);
    let teeth = [4, 1, 4, 2, 0, 256_000, 0, 256_000, 0, 0];
    assert_eq!(store_of(&book, &[0, 1000, 0, 1000], 1), teeth);
}

/// S, T and the T+1 lengths, each the half of the one before, rounded up.
#[test]
fn headers() {
    let book = book_k(16384);
    let cases: [(usize, &[i32]); 6] = [
        (1, &[1, 1, 1, 1, 1]),
        (2, &[2, 1, 1, 1, 1]),
        (16, &[16, 8, 4, 2, 1]),
        (17, &[17, 9, 5, 3, 2]),
        (1000, &[1000, 500, 250, 125, 63]),
        (1_048_576, &[1_048_576, 524_288, 262_144, 131_072, 65_536]),
    ];
    for (sample_count, lengths) in cases {
        for top in 0..=4 {
            let store = store_of(&book, &vec![1; sample_count], top);
            let lengths = &lengths[..=top as usize];
            assert_eq!(store[..2], [sample_count as i32, top as i32]);
            assert_eq!(store[2..2 + lengths.len()], *lengths);
            // level 0 begins behind them, and the levels end the store
            assert_eq!(store[2 + lengths.len()], 256);
            let words = lengths.iter().sum::<i32>() as usize;
            assert_eq!(store.len(), 2 + lengths.len() + words);
        }
    }
}

/// A longer store keeps its other words; one that is a word too short, all.
#[test]
fn stores_of_other_lengths() {
    let (book, samples) = (book_k(16384), [5; 9]);
    for top in 0..=4 {
        let store = store_of(&book, &samples, top);
        let mut longer = vec![77; store.len() + 3];
        build(&book, &samples, top, &mut longer).unwrap();
        assert_eq!(longer, [&store[..], &[77; 3]].concat());
        for length in 0..store.len() {
            let mut short = vec![77; length];
            let refusal = build(&book, &samples, top, &mut short).unwrap_err();
            assert_eq!((refusal.number(), short), (9, vec![77; length]));
        }
    }
}

#[test]
fn case_f() {
    let book = book_k(32);
    assert_eq!(store_of(&book, &[1], 1), [1, 1, 1, 1, 256, 0]);
    assert_eq!(store_of(&book, &[-1], 1), [1, 1, 1, 1, -256, 0]);
}

#[test]
fn case_i() {
    assert_eq!(store_words(3, 1), Some(9));
    assert_eq!(store_words(1, 4), Some(12));
    assert_eq!(store_words(1_048_576, 4), Some(2_031_623));
    for (sample_count, top) in [
        (0, 0),
        (1_048_577, 0),
        (usize::MAX, 4),
        (1, 5),
        (1, u32::MAX),
    ] {
        assert_eq!(store_words(sample_count, top), None);
    }
}

/// From a state, by document 02's rule, in one call or in two.
#[test]
fn samples_and_states_of_the_test_hum() {
    for state in [0, 1, 0x8000_0000, u32::MAX] {
        let (mut last, mut expected) = (u64::from(state), Vec::new());
        for _ in 0..300 {
            last = (1_664_525 * last + 1_013_904_223) % (1 << 32);
            expected.push((last / 65536) as i64 - 32768);
        }
        for cut in [0, 1, 299, 300] {
            let mut samples = [7; 300];
            let (first, second) = samples.split_at_mut(cut);
            let end = test_hum(test_hum(state, first), second);
            assert_eq!(u64::from(end), last);
            assert_eq!(samples.map(i64::from), expected[..]);
        }
    }
}
