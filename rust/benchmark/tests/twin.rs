//! The twin against the archives: every number, sample, store word and voice
//! word, on random books, stores and drives, refused calls among them.
//!
//! `TWIN_SEED` and `TWIN_COUNT` set the first drive's seed and the count of
//! drives.

use benchmark::setting::{book, Sizes};
use benchmark::twin;
use renderer::book::assemble;
use renderer::random::{
    bad_rate, random_book, random_rate, random_recording, wild_i32, wild_u64, Rng,
};
use std::collections::BTreeSet;
use tone::archive;

/// Book K of document 01.
const K: [i32; 11] = [2, 1, 0, 0, 1, 0, 16384, 16384, -16384, 16384, 16384];

/// The largest N of a book.
const MOST_TAPS: i64 = 24;

/// A number from the environment, or a default.
fn setting(name: &str, default: u64) -> u64 {
    match std::env::var(name) {
        Ok(text) => text.parse().expect("a number"),
        Err(_) => default,
    }
}

/// The archive's voice words and the twin's voice.
struct Pair {
    words: [i32; tone::VOICE_WORDS],
    twin: twin::Voice,
}

impl Pair {
    fn open(rate: f32, top: u32) -> (u32, Pair) {
        let mut words = [-1; tone::VOICE_WORDS];
        let number = archive::open(rate, top, &mut words);
        let (twin_number, twin) = twin::Voice::open(rate, top);
        assert_eq!(number, twin_number, "open {rate} {top}");
        let pair = Pair { words, twin };
        pair.same();
        (number, pair)
    }

    /// Both, from any words.
    fn set(&mut self, words: [i32; tone::VOICE_WORDS]) {
        self.words = words;
        self.twin = twin::Voice::from_words(&words);
        self.same();
    }

    fn same(&self) {
        assert_eq!(self.words, self.twin.words(), "voice");
    }

    fn jump(&mut self, rate: f32) -> u32 {
        let number = archive::jump(&mut self.words, rate);
        assert_eq!(number, self.twin.jump(rate), "jump {rate}");
        self.same();
        number
    }

    fn glide(&mut self, rate: f32, count: u32) -> u32 {
        let number = archive::glide(&mut self.words, rate, count);
        assert_eq!(number, self.twin.glide(rate, count), "glide {rate} {count}");
        self.same();
        number
    }

    fn seek(&mut self, position: u64) -> u32 {
        let number = archive::seek(&mut self.words, position);
        assert_eq!(number, self.twin.seek(position), "seek {position}");
        self.same();
        number
    }

    fn play(&mut self, book: &[i32], store: &[i32], outputs: usize) -> u32 {
        let mut out = vec![9; outputs];
        let mut twin_out = out.clone();
        let mut multiplies = 77;
        let number = archive::play(&mut self.words, book, store, &mut out, &mut multiplies);
        let answer = match number {
            0 => Ok(multiplies),
            _ => Err(number),
        };
        let twin_answer = self.twin.play(book, store, &mut twin_out);
        assert_eq!(answer, twin_answer, "play {outputs}");
        assert!(out == twin_out, "outputs of play {outputs}");
        self.same();
        number
    }
}

/// What a drive plays with.
struct Lent {
    book: Vec<i32>,
    store: Vec<i32>,
    /// The number of the book, or else of the store: no voice goes before it.
    number: u32,
    /// S and T that the store was built with.
    sample_count: usize,
    top: u32,
}

/// The numbers that were seen at each call.
#[derive(Default)]
struct Seen {
    build: BTreeSet<u32>,
    check_store: BTreeSet<u32>,
    jump: BTreeSet<u32>,
    glide: BTreeSet<u32>,
    seek: BTreeSet<u32>,
    play: BTreeSet<u32>,
}

impl Seen {
    /// Every number at every call that can give it, but for 11 of play, which
    /// [`longest_play`] has.
    fn all(&self) {
        assert_eq!(self.build, (0..=9).collect(), "numbers of build");
        assert_eq!(self.check_store, [0, 8, 9, 18].into(), "of check_store");
        let of_order = [0, 10, 13, 15, 16, 17];
        assert_eq!(self.jump, of_order.into(), "numbers of jump");
        let of_glide = of_order.into_iter().chain([11]);
        assert_eq!(self.glide, of_glide.collect(), "numbers of glide");
        let of_seek = [0, 12, 13, 15, 16, 17];
        assert_eq!(self.seek, of_seek.into(), "numbers of seek");
        let of_play = (0..=9).chain(13..=19);
        assert_eq!(self.play, of_play.collect(), "numbers of play");
    }
}

/// A rate that is accepted for T.
fn good_rate(rng: &mut Rng, top: u32) -> f32 {
    random_rate(rng, u64::from(top))
}

/// A book with one impulse or a centre tap moved by one, and right differences:
/// many a sum is at its limit.
fn nudged(rng: &mut Rng, book: &[i32]) -> Vec<i32> {
    let sizes: [i32; 5] = book[..5].try_into().expect("five sizes");
    let array = (sizes[0] * sizes[1]) as usize;
    let level = 5 + 2 * array;
    let decimation = level + sizes[2] as usize + 1;
    let mut words = book.to_vec();
    let impulse = 5 + rng.below(array as u64) as usize;
    let place = rng.pick(&[impulse, level, decimation]);
    words[place] += rng.pick(&[-1, 1]);
    let (level_taps, decimation_taps) = words[level..].split_at(decimation - level);
    assemble(sizes, &words[5..5 + array], level_taps, decimation_taps)
}

/// A book, damaged once in a while.
fn lent_book(rng: &mut Rng) -> Vec<i32> {
    let mut book = random_book(rng, MOST_TAPS);
    match rng.below(12) {
        0 => {
            let at = rng.below(book.len() as u64) as usize;
            book[at] = wild_i32(rng);
        }
        1 => book.truncate(rng.below(book.len() as u64) as usize),
        2 => {
            // Word 5 is G_0[0], and the second array begins with its difference.
            let step = 5 + (book[0] * book[1]) as usize;
            book[5] += 1;
            book[step] -= 1;
        }
        3 => {
            let at = book.len() - 1 - rng.below(40.min(book.len() as u64)) as usize;
            book[at] = rng.range(-40000, 40000) as i32;
        }
        4 => book = nudged(rng, &book),
        _ => (),
    }
    book
}

/// The store of a recording by both builders, perhaps in a slice of another
/// length or with a T out of range. One that was not built is all of one word.
fn built_store(rng: &mut Rng, book: &[i32], sample_count: usize, top: u32) -> (u32, Vec<i32>) {
    let recording = random_recording(rng, sample_count);
    let words = twin::store_words(sample_count, top);
    assert_eq!(words, archive::store_words(sample_count, top));
    let spare = rng.below(3) as usize;
    let mut store = vec![77; (words + spare).saturating_sub(usize::from(rng.one_in(30)))];
    let mut twin_store = store.clone();
    let asked = if rng.one_in(30) { 5 } else { top };
    let number = archive::build(book, &recording, asked, &mut store);
    let twin_number = twin::build(book, &recording, asked, &mut twin_store);
    assert_eq!(number, twin_number, "build");
    assert!(store == twin_store, "store");
    (number, store)
}

/// Words of a store before its levels.
fn header_words(top: u32) -> usize {
    top as usize + 3
}

/// Damages a store once in a while: its levels, which may hold anything, or its
/// header, or its length.
fn disturb_store(rng: &mut Rng, store: &mut Vec<i32>, top: u32) {
    let header = header_words(top);
    match rng.below(12) {
        0..=2 => store[header..].fill_with(|| rng.word() as i32),
        3..=5 => {
            for word in &mut store[header..] {
                if rng.one_in(20) {
                    *word = wild_i32(rng);
                }
            }
        }
        6 => {
            let at = rng.below(header as u64) as usize;
            store[at] = match rng.below(3) {
                0 => wild_i32(rng),
                _ => store[at] + rng.pick(&[-1, 1]),
            };
        }
        7 => store.truncate(rng.below(store.len() as u64 + 1) as usize),
        _ => (),
    }
}

/// A book and a store, each at times damaged.
fn lent(rng: &mut Rng, seen: &mut Seen) -> Lent {
    let top = rng.below(5) as u32;
    let book = lent_book(rng);
    let most = rng.pick(&[3, 40, 3000]);
    let sample_count = 1 + rng.below(most) as usize;
    let (number, mut store) = built_store(rng, &book, sample_count, top);
    seen.build.insert(number);
    disturb_store(rng, &mut store, top);
    let store_number = archive::check_store(&store);
    assert_eq!(store_number, twin::check_store(&store), "check_store");
    seen.check_store.insert(store_number);
    let numbers = [archive::check(&book), store_number];
    Lent {
        book,
        store,
        number: numbers.into_iter().find(|number| *number != 0).unwrap_or(0),
        sample_count,
        top,
    }
}

/// One call; its number is kept.
fn call(rng: &mut Rng, pair: &mut Pair, lent: &Lent, seen: &mut Seen) {
    let rate = |rng: &mut Rng| {
        if rng.one_in(9) {
            bad_rate(rng, u64::from(lent.top))
        } else {
            good_rate(rng, lent.top)
        }
    };
    let (numbers, number) = match rng.below(9) {
        0 => (&mut seen.jump, pair.jump(rate(rng))),
        1 => {
            let count = match rng.below(3) {
                0 => rng.pick(&[0, 1, 65535, 65536, 65537, u32::MAX]),
                _ => rng.below(300) as u32,
            };
            (&mut seen.glide, pair.glide(rate(rng), count))
        }
        2 => {
            let end = (lent.sample_count as u64 + 40) << 28;
            let position = match rng.below(9) {
                0 => wild_u64(rng),
                1 => (1 << 60) - rng.below(1 << 36),
                _ => rng.below(end),
            };
            (&mut seen.seek, pair.seek(position))
        }
        _ => {
            let most = rng.pick(&[4, 70, 400]);
            let outputs = rng.below(most) as usize;
            let number = pair.play(&lent.book, &lent.store, outputs);
            assert!(lent.number == 0 || lent.number == number, "play {outputs}");
            (&mut seen.play, number)
        }
    };
    numbers.insert(number);
}

/// Words at and just beyond the limits of a voice's fields.
const LIMITS: [i32; 10] = [
    65536,
    65537,
    (1 << 23) - 1,
    1 << 23,
    (1 << 28) - 1,
    1 << 28,
    1 << 29,
    (1 << 29) + 1,
    -(1 << 29),
    -(1 << 29) - 1,
];

/// Damages a word or two of the voice, or makes it a fresh one, at times for
/// another T or with a fade in some place.
fn disturb(rng: &mut Rng, pair: &mut Pair, lent: &Lent) {
    let mut words = pair.words;
    if rng.one_in(2) {
        let other = rng.below(5) as u32;
        let top = if rng.one_in(8) { other } else { lent.top };
        (_, *pair) = Pair::open(good_rate(rng, top), top);
        if rng.one_in(3) {
            let fade = lent.book.get(4).copied().unwrap_or(1);
            words = pair.words;
            words[1] = rng.below(u64::from(lent.top) + 1) as i32;
            words[2] = rng.below(u64::from(lent.top) + 1) as i32;
            let any = rng.below(256) as i32;
            words[3] = rng.pick(&[fade.wrapping_sub(1), fade, any]);
            pair.set(words);
        }
        return;
    }
    for _ in 0..1 + rng.below(2) {
        let at = match rng.below(3) {
            0 => rng.below(tone::VOICE_WORDS as u64),
            _ => rng.below(14),
        };
        words[at as usize] = match rng.below(4) {
            0 => rng.below(6) as i32,
            1 => rng.below(300) as i32,
            2 => rng.pick(&LIMITS),
            _ => wild_i32(rng),
        };
    }
    pair.set(words);
}

#[test]
fn drives() {
    let first = setting("TWIN_SEED", 1);
    let count = setting("TWIN_COUNT", 3000);
    println!("TWIN_SEED={first} TWIN_COUNT={count}");
    let mut seen = Seen::default();
    for seed in first..first + count {
        println!("drive {seed}: repeat by TWIN_SEED={seed} TWIN_COUNT=1");
        let mut rng = Rng::new(seed);
        let lent = lent(&mut rng, &mut seen);
        let (_, mut pair) = Pair::open(good_rate(&mut rng, lent.top), lent.top);
        for _ in 0..24 {
            call(&mut rng, &mut pair, &lent, &mut seen);
            if rng.one_in(6) {
                disturb(&mut rng, &mut pair, &lent);
            }
        }
    }
    if count >= 3000 {
        seen.all();
    }
}

/// A book of the benchmark with phase `q` replaced.
fn with_phase(sizes: Sizes, q: usize, phase: &[i32]) -> Vec<i32> {
    let words = book(sizes);
    let array = sizes.taps * sizes.phases;
    let mut impulses = words[5..5 + array].to_vec();
    impulses[q * sizes.taps..][..sizes.taps].copy_from_slice(phase);
    let (level_taps, decimation_taps) = words[5 + 2 * array..].split_at(sizes.level_reach + 1);
    let five = words[..5].try_into().expect("five sizes");
    assemble(five, &impulses, level_taps, decimation_taps)
}

/// Impulses at the ends of their range and sums at their limit, in the last phase of
/// books of many sizes.
#[test]
fn limits_of_a_phase() {
    let mut seen = BTreeSet::new();
    for taps in (2..=24).step_by(2) {
        for phases in [1, 2, 16, 128] {
            let sizes = Sizes {
                taps,
                phases,
                ..Sizes::default()
            };
            for last_words in [
                [0, 32767],
                [0, 32768],
                [0, -32768],
                [0, -32769],
                [-32768, 32767],
                [-32768, -32768],
                [0, i32::MAX],
                [0, i32::MIN],
            ] {
                for spare in [0, 1, -2] {
                    let mut phase = vec![0; taps];
                    phase[taps - 2..].copy_from_slice(&last_words);
                    phase[taps / 2] = phase[taps / 2].wrapping_add(spare);
                    let book = with_phase(sizes, phases - 1, &phase);
                    let number = archive::check(&book);
                    assert_eq!(number, twin::check(&book), "{sizes:?} {phase:?}");
                    seen.insert(number);
                }
            }
        }
    }
    assert_eq!(seen, [0, 4, 5, 7].into());
}

#[test]
fn openings() {
    let mut rng = Rng::new(5);
    let mut seen = BTreeSet::new();
    for top in [0, 1, 2, 3, 4, 5, u32::MAX] {
        for _ in 0..200 {
            let near = u64::from(top.min(4));
            seen.insert(Pair::open(random_rate(&mut rng, near), top).0);
            seen.insert(Pair::open(bad_rate(&mut rng, near), top).0);
        }
    }
    assert_eq!(seen, [0, 8, 10].into());
}

#[test]
fn longest_play() {
    let store = [3, 0, 3, 0, 256_000, 512_000];
    let (_, mut pair) = Pair::open(1.0, 0);
    assert_eq!(pair.play(&K, &store, 1_048_577), 11);
    assert_eq!(pair.play(&K, &store, 1_048_576), 0);
    // A word of history beyond its limit comes first.
    let mut words = pair.words;
    words[94] = (1 << 29) + 1;
    pair.set(words);
    assert_eq!(pair.play(&K, &store, 1_048_577), 17);
}

#[test]
fn lengths_of_stores() {
    for sample_count in [
        0,
        1,
        2,
        3,
        31,
        33,
        1_048_575,
        1_048_576,
        1_048_577,
        usize::MAX,
    ] {
        for top in [0, 1, 2, 3, 4, 5, u32::MAX] {
            let words = archive::store_words(sample_count, top);
            assert_eq!(twin::store_words(sample_count, top), words);
        }
    }
}

/// The numbers of plays of a store with voices of every T, and one above all.
fn numbers_at_play(store: &[i32]) -> BTreeSet<u32> {
    assert_eq!(archive::check_store(store), twin::check_store(store));
    let number = |top: i32| {
        let (_, mut pair) = Pair::open(1.0, 0);
        let mut words = pair.words;
        words[0] = top;
        pair.set(words);
        pair.play(&K, store, 3)
    };
    (0..=5).map(number).collect()
}

/// Each word of a header damaged, and each length of a slice.
#[test]
fn headers() {
    let mut seen = BTreeSet::new();
    for top in 0..5 {
        let mut store = vec![77; twin::store_words(7, top) + 1];
        assert_eq!(twin::build(&K, &[1000; 7], top, &mut store), 0);
        for length in 0..=store.len() {
            seen.extend(numbers_at_play(&store[..length]));
        }
        for at in 0..header_words(top) {
            let word = store[at];
            let near = [word - 1, word + 1, -word, 0, -1, 5];
            let far = [1_048_576, 1_048_577, i32::MIN, i32::MAX];
            for damaged in near.into_iter().chain(far) {
                store[at] = damaged;
                seen.extend(numbers_at_play(&store));
            }
            store[at] = word;
        }
    }
    assert_eq!(seen, [0, 8, 9, 13, 18, 19].into());
}

/// At the end of all positions, where the advance stops.
#[test]
fn last_position() {
    let mut rng = Rng::new(8);
    for top in 0..5 {
        let book = random_book(&mut rng, MOST_TAPS);
        let mut store = vec![0; twin::store_words(50, top)];
        assert_eq!(twin::build(&book, &[0; 50], top, &mut store), 0);
        store[header_words(top)..].fill(1 << 20);
        for back in [0, 1, 1 << 23, 1 << 30, 1 << 38, 1 << 39, 1 << 40] {
            let (_, mut pair) = Pair::open(good_rate(&mut rng, top), top);
            assert_eq!(pair.seek((1 << 60) - back), 0);
            for outputs in [1, 63, 64, 65, 200] {
                assert_eq!(pair.play(&book, &store, outputs), 0);
            }
        }
    }
}
