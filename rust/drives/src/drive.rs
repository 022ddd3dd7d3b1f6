//! One drive, by its seed.

use crate::call::{lent, Call};
use crate::inputs::{
    accepted_rate, damaged_book, damaged_words, edge_words, free_words, list_of_calls,
    random_setting, rate_or_bad, setting_of, too_many_outputs, wild_u32,
};
use crate::record::{Words, FADE, LEVEL, NEXT_LEVEL};
use crate::sides::{same, Difference, Sides};
use crate::stores::{damaged_store, each_damage, fill_levels, short_length, under_header, Header};
use renderer::exact::Setting;
use renderer::levels::MOST_TOP;
use renderer::random::{book_of_sizes, random_recording, wild_u64, Rng};
use renderer::voice::Lent;
use std::fmt;
use tone::{MOST_OUTPUTS, MOST_SAMPLES, VOICE_WORDS};

/// What went wrong in a drive, and at which of its calls.
#[derive(Clone, Debug)]
pub struct Mismatch {
    /// The call, with its number in the drive.
    pub step: String,
    /// What differed.
    pub difference: String,
}

impl fmt::Display for Mismatch {
    fn fmt(&self, f: &mut fmt::Formatter<'_>) -> fmt::Result {
        write!(f, "{}: {}", self.step, self.difference)
    }
}

trait At<T> {
    /// Names the call that a difference belongs to.
    fn at(self, step: impl FnOnce() -> String) -> Result<T, Mismatch>;
}

impl<T> At<T> for Result<T, Difference> {
    fn at(self, step: impl FnOnce() -> String) -> Result<T, Mismatch> {
        self.map_err(|difference| Mismatch {
            step: step(),
            difference: difference.to_string(),
        })
    }
}

/// Drives that are run once, whatever is asked for: the longest recording, the
/// longest play, every word of a voice damaged in turn, and every word of a
/// store's header.
pub const FIXED_DRIVES: u64 = 4;

/// The seed of a drive, from the run's seed and the drive's index.
pub fn drive_seed(seed: u64, index: u64) -> u64 {
    let mut rng = Rng::new(seed);
    let start = rng.word();
    Rng::new(start ^ index.wrapping_mul(0xd134_2543_de82_ef95)).word()
}

/// Runs a drive on both sides.
pub fn run_drive(seed: u64, index: u64, sides: &mut Sides) -> Result<(), Mismatch> {
    let mut rng = Rng::new(drive_seed(seed, index));
    sides.tally.drives += 1;
    match index {
        0 => longest_recording(&mut rng, sides),
        1 => longest_play(&mut rng, sides),
        2 => every_word_damaged(&mut rng, sides),
        3 => every_header_damaged(&mut rng, sides),
        _ => match rng.below(256) {
            0 => list_drive(&mut rng, sides, 60_000, 2000),
            // Long calls, which play with a table where the book is small enough.
            1..=4 => list_drive(&mut rng, sides, 10_000, 1000),
            5..=16 => list_drive(&mut rng, sides, 3000, 300),
            17..=120 => list_drive(&mut rng, sides, 200, 60),
            _ => malformed_drive(&mut rng, sides),
        },
    }
}

// ---------------------------------------------------------------- lists

/// A book, a recording, the store built from both, an opening and a list of
/// calls. In some drives the store's levels hold anything; in a few the store is
/// damaged, or the voice is opened for another T than the store's.
fn list_drive(rng: &mut Rng, sides: &mut Sides, longest: u64, play: u64) -> Result<(), Mismatch> {
    let top = rng.below(MOST_TOP + 1);
    let setting = random_setting(rng, top, longest);
    let mut store = built_store(rng, sides, &setting)?;
    match rng.below(40) {
        0 => store = damaged_store(rng, &store),
        1..=8 => fill_levels(rng, &mut store),
        _ => {}
    }
    let opened_top = match rng.below(40) {
        0 => rng.below(MOST_TOP + 1),
        _ => top,
    };
    let rate = rate_or_bad(rng, opened_top, 20);
    let count = 4 + rng.below(40) as usize;
    let calls = list_of_calls(rng, &setting, rate, count, play);
    let lent = lent(&setting.book, &store);
    run_list(sides, &lent, (rate, opened_top as u32), &calls)
}

/// Checks the book and builds the store, with words after its levels.
fn built_store(rng: &mut Rng, sides: &mut Sides, setting: &Setting) -> Result<Vec<i32>, Mismatch> {
    let (book, samples, top) = (&setting.book, &setting.samples, setting.top as u32);
    sides.check(book).at(|| "check".to_string())?;
    let needed = sides
        .store_words(samples.len() as u64, top)
        .at(|| "store_words".to_string())?;
    let extra = rng.pick(&[0, 0, 1, 2, 9]);
    let step = || format!("build, {} samples, T {top}", samples.len());
    let (number, store) = sides.build(book, samples, top, needed + extra).at(step)?;
    same("number of an accepted building", 0, number).at(step)?;
    let number = sides.check_store(&store).at(step)?;
    same("number of a built store", 0, number).at(step)?;
    Ok(store)
}

/// Opens a voice at a rate for a T, and makes a list of calls with it.
fn run_list(
    sides: &mut Sides,
    lent: &Lent,
    (rate, top): (f32, u32),
    calls: &[Call],
) -> Result<(), Mismatch> {
    let before = (lent.book.to_vec(), lent.store.to_vec());
    let opening = || format!("open at {rate}, bits {:08x}, T {top}", rate.to_bits());
    let (_, mut voice) = sides.open(rate, top).at(opening)?;
    for (at, call) in calls.iter().enumerate() {
        let step = || format!("call {} ({call})", at + 1);
        sides.call(&mut voice, lent, *call).at(step)?;
    }
    let kept = before.0 == lent.book && before.1 == lent.store;
    same("book and store left alone", true, kept).at(|| "end of the list".to_string())
}

// ---------------------------------------------------------------- malformed calls

/// What the calls of a malformed drive start from.
struct Base {
    setting: Setting,
    /// As built, and one whose levels hold anything.
    stores: [Vec<i32>; 2],
    f: i32,
}

/// Calls on their own, most of them refused: damaged books, stores, voices and
/// arguments, alone and together.
fn malformed_drive(rng: &mut Rng, sides: &mut Sides) -> Result<(), Mismatch> {
    let top = rng.below(MOST_TOP + 1);
    let setting = random_setting(rng, top, 120);
    let built = built_store(rng, sides, &setting)?;
    let mut filled = built.clone();
    fill_levels(rng, &mut filled);
    let base = Base {
        f: setting.book[4],
        stores: [built, filled],
        setting,
    };
    for at in 0..40 {
        let step = |name: &str| format!("malformed call {} ({name})", at + 1);
        match rng.below(17) {
            0 => malformed_check(rng, sides, &base).at(|| step("check"))?,
            1 | 2 => malformed_build(rng, sides, &base).at(|| step("build"))?,
            3 => malformed_check_store(rng, sides, &base).at(|| step("check_store"))?,
            4 => malformed_open(rng, sides).at(|| step("open"))?,
            5 => wrong_length(rng, sides, &base).at(|| step("voice of another length"))?,
            6..=10 => malformed_order(rng, sides, &base).at(|| step("order or seek"))?,
            _ => malformed_play(rng, sides, &base).at(|| step("play"))?,
        }
    }
    Ok(())
}

fn malformed_check(rng: &mut Rng, sides: &mut Sides, base: &Base) -> Result<(), Difference> {
    let book = damaged_book(rng, &base.setting.book);
    sides.check(&book)?;
    Ok(())
}

fn malformed_build(rng: &mut Rng, sides: &mut Sides, base: &Base) -> Result<(), Difference> {
    let setting = &base.setting;
    let book = match rng.below(2) {
        0 => damaged_book(rng, &setting.book),
        _ => setting.book.clone(),
    };
    let samples = match rng.below(6) {
        0 => &[],
        _ => &setting.samples[..],
    };
    let top = match rng.below(4) {
        0 => wild_u32(rng),
        _ => setting.top as u32,
    };
    let needed = sides.store_words(samples.len() as u64, top)?;
    let length = short_length(rng, needed.max(40));
    sides.build(&book, samples, top, length)?;
    sides.store_words(wild_u64(rng), top)?;
    Ok(())
}

fn malformed_check_store(rng: &mut Rng, sides: &mut Sides, base: &Base) -> Result<(), Difference> {
    sides.check_store(&any_store(rng, base))?;
    Ok(())
}

fn malformed_open(rng: &mut Rng, sides: &mut Sides) -> Result<(), Difference> {
    let top = match rng.below(2) {
        0 => wild_u32(rng),
        _ => rng.below(6) as u32,
    };
    let rate = rate_or_bad(rng, MOST_TOP.min(top.into()), 2);
    sides.open(rate, top)?;
    Ok(())
}

/// A voice that play accepts, or mostly a damaged one.
fn any_voice(rng: &mut Rng, base: &Base) -> Words {
    let samples = base.setting.samples.len() as u64;
    let words = free_words(rng, base.setting.top, base.f, samples);
    match rng.below(3) {
        0 => words,
        _ => damaged_words(rng, &words, base.f),
    }
}

fn any_plain_call(rng: &mut Rng, top: u64) -> Call {
    match rng.below(3) {
        0 => Call::Jump(rate_or_bad(rng, top, 2)),
        1 => {
            let rate = rate_or_bad(rng, top, 4);
            let count = match rng.below(3) {
                0 => rng.pick(&[0, 65536, 65537, u32::MAX]),
                1 => wild_u32(rng),
                _ => 1 + rng.below(65536) as u32,
            };
            Call::Glide(rate, count)
        }
        _ => Call::Seek(match rng.below(3) {
            0 => (1 << 60) + rng.below(2),
            1 => wild_u64(rng),
            _ => rng.below(1 << 61),
        }),
    }
}

/// What an order or a seek is lent: nothing that it would look at.
const NOTHING: Lent = lent(&[], &[]);

fn malformed_order(rng: &mut Rng, sides: &mut Sides, base: &Base) -> Result<(), Difference> {
    let mut voice = any_voice(rng, base);
    let call = any_plain_call(rng, base.setting.top);
    sides.call(&mut voice, &NOTHING, call)?;
    // From wherever that left the voice.
    let call = any_plain_call(rng, base.setting.top);
    sides.call(&mut voice, &NOTHING, call)?;
    Ok(())
}

/// A store, once in three a damaged one.
fn any_store(rng: &mut Rng, base: &Base) -> Vec<i32> {
    let store = &base.stores[rng.below(2) as usize];
    match rng.below(3) {
        0 => damaged_store(rng, store),
        _ => store.clone(),
    }
}

/// Book and store of a malformed play.
fn any_book_and_store(rng: &mut Rng, base: &Base) -> (Vec<i32>, Vec<i32>) {
    let book = match rng.below(3) {
        0 => damaged_book(rng, &base.setting.book),
        _ => base.setting.book.clone(),
    };
    (book, any_store(rng, base))
}

fn malformed_play(rng: &mut Rng, sides: &mut Sides, base: &Base) -> Result<(), Difference> {
    let (book, store) = any_book_and_store(rng, base);
    let before = (book.clone(), store.clone());
    let mut voice = any_voice(rng, base);
    let count = match rng.below(400) {
        0 => too_many_outputs(rng),
        1..=40 => 0,
        _ => rng.below(24) as usize,
    };
    sides.call(&mut voice, &lent(&book, &store), Call::Play(count))?;
    let kept = before.0 == book && before.1 == store;
    same("book and store left alone", true, kept)
}

fn wrong_length(rng: &mut Rng, sides: &mut Sides, base: &Base) -> Result<(), Difference> {
    let length = match rng.below(4) {
        0 => VOICE_WORDS - 1,
        1 => VOICE_WORDS + 1,
        2 => rng.pick(&[0, 1, 190]),
        _ => (rng.below(94) + 96 * rng.below(2)) as usize,
    };
    let top = rng.below(7);
    let rate = rate_or_bad(rng, top.min(MOST_TOP), 2);
    let call = match rng.below(4) {
        0 => Call::Play(rng.below(9) as usize),
        _ => any_plain_call(rng, top.min(MOST_TOP)),
    };
    let (book, store) = any_book_and_store(rng, base);
    sides.wrong_length(length, (rate, top as u32), &lent(&book, &store), call)
}

// ---------------------------------------------------------------- fixed drives

/// S = 1048576 at T = 4 with the longest filters, a list over it, and a
/// recording of one sample more.
fn longest_recording(rng: &mut Rng, sides: &mut Sides) -> Result<(), Mismatch> {
    let book = book_of_sizes(rng, [24, 128, 40, 40, 256]);
    let setting = setting_of(book, random_recording(rng, MOST_SAMPLES), 4);
    let store = built_store(rng, sides, &setting)?;
    let calls = list_of_calls(rng, &setting, 1.0, 60, 400);
    run_list(sides, &lent(&setting.book, &store), (1.0, 4), &calls)?;
    let longer = vec![1; MOST_SAMPLES + 1];
    let (number, _) = sides
        .build(&setting.book, &longer, 4, store.len())
        .at(|| "build, one sample too many".to_string())?;
    same("number", 8, number).at(|| "build, one sample too many".to_string())
}

/// A play of 1048576 outputs, and one of 1048577.
fn longest_play(rng: &mut Rng, sides: &mut Sides) -> Result<(), Mismatch> {
    let book = book_of_sizes(rng, [4, 8, 3, 2, 200]);
    let samples = (0..70_000).map(|_| rng.range(-3000, 3000) as i16).collect();
    let setting = setting_of(book, samples, 2);
    let store = built_store(rng, sides, &setting)?;
    let calls = [
        Call::Jump(0.0625),
        Call::Glide(0.07, 60_000),
        Call::Play(MOST_OUTPUTS + 1),
        Call::Play(MOST_OUTPUTS),
        Call::Seek(0),
        Call::Play(1000),
    ];
    run_list(sides, &lent(&setting.book, &store), (1.0, 2), &calls)
}

/// Each word of a voice set to each limit, on voices with and without a fade and
/// a glide, at every call.
fn every_word_damaged(rng: &mut Rng, sides: &mut Sides) -> Result<(), Mismatch> {
    let book = book_of_sizes(rng, [2, 2, 1, 1, 8]);
    let setting = setting_of(book, random_recording(rng, 30), 2);
    let store = built_store(rng, sides, &setting)?;
    let lent = lent(&setting.book, &store);
    for round in 0..8 {
        let mut voice = free_words(rng, 2, 8, 30);
        if round % 2 == 0 {
            // A fade runs.
            voice[LEVEL] = 0;
            voice[NEXT_LEVEL] = 2;
            voice[FADE] = 7;
        }
        for at in 0..VOICE_WORDS {
            for word in edge_words(&voice, 8) {
                let mut damaged = voice;
                damaged[at] = word;
                let step = || format!("voice {round} with word {at} set to {word}");
                one_of_each(sides, &damaged, &lent).at(step)?;
            }
        }
    }
    Ok(())
}

fn one_of_each(sides: &mut Sides, voice: &Words, lent: &Lent) -> Result<(), Difference> {
    for call in [
        Call::Jump(1.5),
        Call::Glide(1.5, 9),
        Call::Seek(5 << 28),
        Call::Play(2),
    ] {
        sides.call(&mut voice.clone(), lent, call)?;
    }
    Ok(())
}

/// Stores of each T with each word of their header set to each limit, cut at each
/// length, and with a right header for each T.
fn every_header_damaged(rng: &mut Rng, sides: &mut Sides) -> Result<(), Mismatch> {
    for top in 0..=MOST_TOP {
        let book = book_of_sizes(rng, [2, 2, 1, 1, 8]);
        let setting = setting_of(book, random_recording(rng, 19), top);
        let store = built_store(rng, sides, &setting)?;
        let rate = accepted_rate(rng, top);
        let voice = sides.open(rate, top as u32).at(|| "open".to_string())?.1;
        for (at, damaged) in each_damage(&store).iter().enumerate() {
            let step = || format!("damage {at} of a store of T {top}");
            check_and_play(sides, &voice, &lent(&setting.book, damaged)).at(step)?;
        }
        for other in 0..=MOST_TOP {
            let step = || format!("a store of T {other} and a voice of T {top}");
            let header = Header {
                samples: 19,
                top: other,
            };
            let store = under_header(&store, header);
            let numbers = check_and_play(sides, &voice, &lent(&setting.book, &store)).at(step)?;
            let expected = if other == top { (0, 0) } else { (0, 19) };
            same("numbers of check_store and play", expected, numbers).at(step)?;
        }
    }
    Ok(())
}

/// The numbers of a store's check and of a play.
fn check_and_play(sides: &mut Sides, voice: &Words, lent: &Lent) -> Result<(u32, u32), Difference> {
    let checked = sides.check_store(lent.store)?;
    let played = sides.call(&mut voice.clone(), lent, Call::Play(2))?;
    Ok((checked, played))
}
