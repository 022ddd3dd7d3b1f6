//! The unit's half: what needs no builder.

use std::iter::successors;
use tone::{archive, check_store, top_level, Refusal, Voice, MOST_SAMPLES, VOICE_WORDS};

/// Book K of document 01.
const K: [i32; 11] = [2, 1, 0, 0, 1, 0, 16384, 16384, -16384, 16384, 16384];

/// A store for S and T, both in range, whose levels are all of one word.
fn store_of(sample_count: i32, top: i32) -> Vec<i32> {
    let halves = successors(Some(sample_count), |length| Some(length - length / 2));
    let lengths: Vec<i32> = halves.take(top as usize + 1).collect();
    let levels = vec![256_000; lengths.iter().sum::<i32>() as usize];
    [&[sample_count, top], &lengths[..], &levels].concat()
}

/// A store with one word changed.
fn changed(store: &[i32], at: usize, word: i32) -> Vec<i32> {
    let mut store = store.to_vec();
    store[at] = word;
    store
}

/// The check and play accept a store of this T.
#[track_caller]
fn accepts(store: &[i32], top: u32) {
    assert_eq!(check_store(store), Ok(()));
    assert_eq!(top_level(store), Ok(top));
    let mut voice = Voice::open(1.0, top).unwrap();
    assert_eq!(voice.play(&K, store, &mut [0; 3]), Ok(27));
}

/// The check and play give a store's number, and play writes nothing. A voice of
/// any T, a damaged one too, comes after the store.
#[track_caller]
fn refuses(store: &[i32], expected: u32) {
    assert_eq!(archive::check_store(store), expected);
    assert_eq!(top_level(store).map_err(Refusal::number), Err(expected));
    for top in [0, 2, 5] {
        let mut words = *Voice::open(1.0, 0).unwrap().words();
        words[0] = top;
        let (mut voice, mut out) = (Voice::from_words(words), [77; 3]);
        let played = voice.play(&K, store, &mut out).map_err(Refusal::number);
        assert_eq!((played, out), (Err(expected), [77; 3]));
        assert_eq!(*voice.words(), words);
    }
}

/// R, whose low word is word 4.
fn fixed_rate(voice: &Voice) -> i32 {
    voice.words()[4]
}

#[test]
fn case_b_from_its_store() {
    let store = [3, 1, 3, 2, 0, 256_000, 512_000, 0, 512_000];
    let mut voice = Voice::open(2.0, top_level(&store).unwrap()).unwrap();
    let mut out = [0; 3];
    voice.play(&K, &store, &mut out).unwrap();
    assert_eq!(out, [1000, 1000, 0]);
}

#[test]
fn stores_that_are_accepted() {
    for sample_count in [1, 2, 5, 1000, MOST_SAMPLES as i32] {
        for top in 0..=4 {
            let store = store_of(sample_count, top);
            accepts(&store, top as u32);
            let last = store.len() - 1;
            accepts(&changed(&store, last, i32::MIN), top as u32);
            refuses(&store[..last], 9);
        }
    }
}

/// What stands after the levels is not looked at, and no output comes from it.
#[test]
fn words_after_the_levels_are_anything() {
    let store = store_of(5, 2);
    let played = |store: &[i32]| {
        let mut voice = Voice::open(1.9, 2).unwrap();
        let mut out = [0; 40];
        voice.play(&K, store, &mut out).unwrap();
        (out, voice)
    };
    for words in [&[0][..], &[i32::MAX; 9], &[i32::MIN, 3, 3, 3]] {
        let longer = [&store[..], words].concat();
        accepts(&longer, 2);
        assert_eq!(played(&longer), played(&store));
    }
}

#[test]
fn sample_counts_and_top_levels_out_of_range() {
    let store = store_of(5, 2);
    for sample_count in [0, -1, -5, i32::MIN, 1_048_577, i32::MAX] {
        refuses(&changed(&store, 0, sample_count), 8);
    }
    for top in [-1, -2, i32::MIN, 5, i32::MAX] {
        refuses(&changed(&store, 1, top), 8);
    }
    // a store that is long enough for one sample more than the most
    let mut longest = store_of(MOST_SAMPLES as i32, 0);
    longest.push(0);
    accepts(&longest, 0);
    longest[0] += 1;
    longest[2] += 1;
    refuses(&longest, 8);
}

#[test]
fn level_lengths_that_are_wrong() {
    for top in 0..=4 {
        let store = store_of(37, top);
        for at in 2..3 + top as usize {
            let length = store[at];
            for wrong in [length - 1, length + 1, -length, 0, i32::MIN, i32::MAX] {
                refuses(&changed(&store, at, wrong), 18);
            }
        }
    }
    // lengths of other samples, in a store that is long enough
    let longer = [&store_of(5, 2)[..], &[256_000; 30]].concat();
    refuses(&changed(&longer, 0, 6), 18);
    refuses(&changed(&longer, 0, 4), 18);
    // and one length too few: a level's word stands in its place
    refuses(&changed(&longer, 1, 3), 18);
}

/// 9 for fewer than two words, then 8, then 9 for fewer than the header and the
/// levels, then 18.
#[test]
fn stores_that_are_too_short() {
    refuses(&[], 9);
    refuses(&[0], 9);
    refuses(&[5], 9);
    refuses(&[5, 2], 9);
    refuses(&[0, 2], 8);
    refuses(&[5, 5], 8);
    let store = store_of(5, 2);
    let wrong = changed(&store, 2, 6);
    for length in 2..store.len() {
        refuses(&store[..length], 9);
        refuses(&wrong[..length], 9);
        refuses(&changed(&store, 0, 0)[..length], 8);
    }
    refuses(&wrong, 18);
    // two words that call for the longest store
    refuses(&[MOST_SAMPLES as i32, 4], 9);
}

/// The book comes before the store.
#[test]
fn a_book_that_is_refused_hides_the_store() {
    let mut voice = Voice::open(1.0, 2).unwrap();
    for store in [&[][..], &[0, 0], &changed(&store_of(5, 2), 2, 6)] {
        let refusal = voice.play(&K[..10], store, &mut [77]).unwrap_err();
        assert_eq!(refusal.number(), 3);
    }
}

/// A voice of another T is refused whole, above the store's or below it.
#[test]
fn a_voice_of_another_top_level() {
    for top in 0..=4 {
        let store = store_of(5, top);
        for other in (0..=4).filter(|other| *other != top) {
            let fresh = Voice::open(1.0, other as u32).unwrap();
            let (mut voice, mut out) = (fresh.clone(), [77; 3]);
            let refusal = voice.play(&K, &store, &mut out).unwrap_err();
            assert_eq!((refusal.number(), out), (19, [77; 3]));
            assert_eq!(
                refusal.meaning(),
                "the voice's top level is not the store's"
            );
            assert_eq!(voice.play(&K, &store, &mut []), Err(refusal));
            assert_eq!(voice, fresh);
        }
    }
}

#[test]
fn case_j() {
    assert_eq!(fixed_rate(&Voice::open(0.0625, 0).unwrap()), 8_388_608);
    let below_two = f32::from_bits(2f32.to_bits() - 1);
    assert_eq!(fixed_rate(&Voice::open(below_two, 0).unwrap()), 268_435_440);
    assert_eq!(Voice::open(2.0, 0).unwrap_err().number(), 10);
}

#[test]
fn a_refused_opening_writes_the_zero_record() {
    for (rate, top, expected) in [(1.0, 5, 8), (32.0, 4, 10), (f32::NAN, 0, 10)] {
        let mut voice = [77; VOICE_WORDS];
        assert_eq!(archive::open(rate, top, &mut voice), expected);
        assert_eq!(voice, [0; VOICE_WORDS]);
    }
}
