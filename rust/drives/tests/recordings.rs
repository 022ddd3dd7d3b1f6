//! Two recordings of equal length whose samples differ by at most D, the same book,
//! opening and calls (document 02, (h)): as many samples are handed out, and no two at
//! the same place differ by more than 8 x 2^T x D + (126 + 4 x 2^T)/128.

use drives::call::{lent, Call};
use drives::inputs::{accepted_rate, list_of_calls, random_setting};
use drives::record::Words;
use drives::sides::archive_call;
use drives::EDITION;
use renderer::levels::{build, store_length, MOST_TOP};
use renderer::random::Rng;
use renderer::voice::{open, Card, Lent};
use tone::{archive, VOICE_WORDS};

/// As much as a book may have: values up to 4 times a word, outputs and levels twice
/// what they are made of. N 4, M 1, A and B 0, F 1.
const LOUDEST: [i32; 15] = [
    4, 1, 0, 0, 1, 0, -32768, -32768, 0, -32768, 0, 32768, 0, -32768, -32768,
];

/// A recording's store, by the archive, with words after its levels.
fn store_of(book: &[i32], samples: &[i16], top: u64, after: &[i32]) -> Vec<i32> {
    let words = tone::store_words(samples.len(), top as u32).unwrap();
    let mut store = vec![0; words];
    tone::build(book, samples, top as u32, &mut store).unwrap();
    store.extend(after);
    store
}

/// A call's number and what it hands out, by the archive; nothing where it is refused.
fn handed_out(voice: &mut Words, lent: &Lent, call: Call) -> (u32, Vec<i16>) {
    let mut out = vec![0; call.outputs()];
    let (number, _) = archive_call(voice, lent, call, &mut out);
    out.truncate(if number == 0 { call.outputs() } else { 0 });
    (number, out)
}

/// What a list hands out from rate and T on, by the renderer.
fn rendered(book: &[i32], samples: &[i16], (rate, top): (f32, u64), calls: &[Call]) -> Vec<i16> {
    let mut store = vec![0; store_length(EDITION, samples.len() as u64, top)];
    assert_eq!(build(EDITION, book, samples, top.into(), &mut store), 0);
    let (number, mut voice) = open(EDITION, Card { rate, top });
    assert_eq!(number, 0);
    let mut samples = Vec::new();
    for call in calls {
        let mut out = vec![0; call.outputs()];
        let played = call.rendered(&voice, &lent(book, &store), &mut out);
        voice = played.voice;
        if played.number == 0 {
            samples.extend(out);
        }
    }
    samples
}

/// Another recording: each sample moves by up to `most`, at random or all the same way.
fn moved(rng: &mut Rng, samples: &[i16], most: i32) -> Vec<i16> {
    let together = rng.one_in(2);
    let step = |rng: &mut Rng| match together {
        true => most,
        false => rng.below(2 * most as u64 + 1) as i32 - most,
    };
    samples
        .iter()
        .map(|x| (i32::from(*x) + step(rng)).clamp(-32768, 32767) as i16)
        .collect()
}

/// The largest difference at one place.
fn difference(old: &[i16], new: &[i16]) -> u64 {
    let differences = old.iter().zip(new).map(|(x, y)| x.abs_diff(*y));
    differences.max().unwrap_or(0).into()
}

/// What was seen of a run.
#[derive(Debug, Default)]
struct Seen {
    samples: usize,
    refused: usize,
    moved: usize,
    /// By T: the largest movement, in 1/1000 of what the recordings' difference allows.
    nearest: [u64; 5],
}

/// One drive with two recordings.
fn drive(rng: &mut Rng, seen: &mut Seen) {
    let top = rng.below(MOST_TOP + 1);
    let setting = random_setting(rng, top, 400);
    let most = rng.pick(&[0, 1, 2, 7, 100, 3000, 65535]);
    let new = moved(rng, &setting.samples, most);
    let book = match rng.one_in(4) {
        true => LOUDEST.to_vec(),
        false => setting.book.clone(),
    };
    let stores = [
        store_of(&book, &setting.samples, top, &[7; 3]),
        store_of(&book, &new, top, &[-1]),
    ];
    let recorded = difference(&setting.samples, &new);
    let allowed = 128 * 8 * (1 << top) * recorded + 126 + 4 * (1 << top);
    let rate = accepted_rate(rng, top);
    let [old, new] = [&stores[0], &stores[1]].map(|store| lent(&book, store));
    let mut voice = [0; VOICE_WORDS];
    assert_eq!(archive::open(rate, top as u32, &mut voice), 0);
    let mut voices = [voice; 2];
    for call in list_of_calls(rng, &setting, rate, 30, 60) {
        let (number, old) = handed_out(&mut voices[0], &old, call);
        let (other, new) = handed_out(&mut voices[1], &new, call);
        assert_eq!((number, old.len()), (other, new.len()), "{call}");
        seen.refused += usize::from(number != 0);
        let steps = difference(&old, &new);
        assert!(128 * steps <= allowed, "T {top}, D {recorded}: {steps}");
        seen.samples += old.len();
        seen.moved += usize::from(steps > 0);
        if recorded > 0 {
            let nearest = &mut seen.nearest[top as usize];
            *nearest = (*nearest).max(1000 * steps / (8 * (1 << top) * recorded));
        }
    }
}

#[test]
fn no_drive_moves_further() {
    let mut seen = Seen::default();
    let mut rng = Rng::new(0x5eed_0008);
    for _ in 0..20_000 {
        drive(&mut rng, &mut seen);
    }
    println!("{seen:?}");
    assert!(seen.samples > 5_000_000 && seen.refused > 20_000 && seen.moved > 100_000);
    // the factor is reached; roundings may bring a little more
    assert!(seen.nearest.iter().all(|nearest| *nearest >= 1000));
}

/// A sample moves by 8 x 2^T x D where every sample moves by D.
#[test]
fn the_factor_is_reached() {
    let (old, new) = ([20; 200], [120; 200]);
    for top in 0..=MOST_TOP {
        let rate = (1 << top) as f32;
        let calls = [Call::Play(2)];
        let play = |samples: &[i16]| rendered(&LOUDEST, samples, (rate, top), &calls);
        assert_eq!(difference(&play(&old), &play(&new)), (8 << top) * 100);
    }
}

/// The tones of crates/sensitivity, Instance.
#[test]
fn the_proof_s_instance() {
    let [old, new] = [[10, 20, 30, 40, 50, 60], [110, 20, 130, 40, 150, 60]];
    let calls = [
        Call::Play(2),
        Call::Jump(4.0),
        Call::Play(1),
        Call::Seek(0),
        Call::Play(1),
    ];
    let tone = |samples: &[i16]| rendered(&LOUDEST, samples, (2.0, 1), &calls);
    assert_eq!(tone(&old), [-480, -520, -200, -480]);
    assert_eq!(tone(&new), [-2080, -1720, -600, -2080]);
}
