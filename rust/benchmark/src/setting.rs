//! The book and the recording that all are measured with.

use std::f64::consts::PI;
use std::rc::Rc;

/// Samples of the recording: the most that a store takes.
pub const SAMPLES: usize = 1_048_576;

/// T of the store.
pub const TOP: u32 = 4;

/// 1 in a book.
const ONE: f64 = 16384.0;

/// The hum's first partial, and the noise beside it.
const HUM: f64 = 9000.0;
const NOISE: f64 = 500.0;

/// Both, in the louder hum.
const LOUD_HUM: f64 = 60000.0;
const LOUD_NOISE: f64 = 60000.0;

/// The divisor that takes off 20 dB.
pub const LOWER: i16 = 10;

/// The octave's part that the phases leave: below 1, so that a book of one
/// phase has taps beside the middle one.
const PASS: f64 = 0.9375;

/// The sizes of a book.
#[derive(Clone, Copy, Debug, PartialEq)]
pub struct Sizes {
    /// N
    pub taps: usize,
    /// M
    pub phases: usize,
    /// A
    pub level_reach: usize,
    /// B
    pub decimation: usize,
    /// F
    pub fade: usize,
    /// What the level taps are.
    pub level_taps: LevelTaps,
}

/// Kinds of level taps.
#[derive(Clone, Copy, Debug, PartialEq)]
pub enum LevelTaps {
    /// Every second one is 0.
    HalfBand,
    /// None is 0.
    Full,
}

impl Default for Sizes {
    fn default() -> Sizes {
        Sizes {
            taps: 12,
            phases: 64,
            level_reach: 40,
            decimation: 10,
            fade: 64,
            level_taps: LevelTaps::HalfBand,
        }
    }
}

/// A book, a recording, and the store built from both. Settings share what they
/// have in common, so that its place in memory does not tell them apart.
#[derive(Clone)]
pub struct Setting {
    /// The book's words.
    pub book: Rc<[i32]>,
    /// The recording.
    pub samples: Rc<[i16]>,
    /// The recording as other resamplers take it.
    pub floats: Rc<[f32]>,
    /// Its store, with the levels 0 to T.
    pub store: Rc<[i32]>,
}

impl Setting {
    /// A book of these sizes and the hum.
    pub fn new(sizes: Sizes) -> Setting {
        Setting::with(book(sizes).into(), recording(HUM, NOISE))
    }

    /// The same recording with another book, whose store is left as it is where
    /// the level taps are.
    pub fn of_sizes(&self, sizes: Sizes) -> Setting {
        let book = book(sizes);
        let same_taps = level_taps_of(&book) == level_taps_of(&self.book);
        let store = if same_taps {
            Rc::clone(&self.store)
        } else {
            store(&book, &self.samples)
        };
        Setting {
            book: book.into(),
            store,
            ..self.clone()
        }
    }

    /// The same book with a louder hum, cut at full scale, so that many outputs are limited.
    pub fn loud(&self) -> Setting {
        Setting::with(Rc::clone(&self.book), recording(LOUD_HUM, LOUD_NOISE))
    }

    /// The same book and recording, each sample divided: by [`LOWER`] it is 20 dB
    /// lower, by 1 a copy.
    pub fn divided(&self, divisor: i16) -> Setting {
        let samples = self.samples.iter().map(|x| x / divisor).collect();
        Setting::with(Rc::clone(&self.book), samples)
    }

    fn with(book: Rc<[i32]>, samples: Vec<i16>) -> Setting {
        Setting {
            floats: samples.iter().map(|x| f32::from(*x) / 32768.0).collect(),
            store: store(&book, &samples),
            samples: samples.into(),
            book,
        }
    }
}

/// The store of a recording.
fn store(book: &[i32], samples: &[i16]) -> Rc<[i32]> {
    let words = tone::store_words(samples.len(), TOP).expect("S and T are in range");
    let mut store = vec![0; words];
    tone::build(book, samples, TOP, &mut store).expect("the book is accepted");
    store.into()
}

/// h[0..A] of a book.
fn level_taps_of(book: &[i32]) -> &[i32] {
    let sizes: [usize; 3] = [0, 1, 2].map(|at| book[at] as usize);
    let start = 5 + 2 * sizes[0] * sizes[1];
    &book[start..=start + sizes[2]]
}

/// Windowed sincs, for the phases and for both halvings.
pub fn book(sizes: Sizes) -> Vec<i32> {
    let Sizes { taps, phases, .. } = sizes;
    let impulse = |t: usize| {
        let x = t as f64 / phases as f64 - taps as f64 / 2.0;
        (ONE * PASS * sinc(PASS * x) * window(x / (taps as f64 / 2.0))).round() as i32
    };
    // In the order of time, G_q[k] is impulse k × M + q, and 0 behind the last.
    let count = taps * phases;
    let times: Vec<i32> = (0..count).map(impulse).chain([0]).collect();
    let at = |place: usize| place % taps * phases + place / taps;
    let mut words = vec![
        taps as i32,
        phases as i32,
        sizes.level_reach as i32,
        sizes.decimation as i32,
        sizes.fade as i32,
    ];
    words.extend((0..count).map(|place| times[at(place)]));
    words.extend((0..count).map(|place| times[at(place) + 1] - times[at(place)]));
    words.extend(level_taps(sizes.level_taps, sizes.level_reach));
    words.extend(half_band(sizes.decimation));
    words
}

/// Taps of a level, the centre first.
fn level_taps(kind: LevelTaps, reach: usize) -> Vec<i32> {
    match kind {
        LevelTaps::HalfBand => half_band(reach),
        LevelTaps::Full => low_pass(reach, 0.38)
            .into_iter()
            .map(|tap| if tap == 0 { 1 } else { tap })
            .collect(),
    }
}

/// Taps of a halving filter; of a single one there is all.
fn half_band(reach: usize) -> Vec<i32> {
    match reach {
        0 => vec![ONE as i32],
        _ => low_pass(reach, 0.5),
    }
}

/// Taps that leave a part of the frequencies, the centre first.
fn low_pass(reach: usize, pass: f64) -> Vec<i32> {
    let tap = |k: usize| {
        let x = k as f64;
        (pass * ONE * sinc(pass * x) * window(x / (reach as f64 + 1.0))).round() as i32
    };
    (0..=reach).map(tap).collect()
}

fn sinc(x: f64) -> f64 {
    if x == 0.0 {
        1.0
    } else {
        (PI * x).sin() / (PI * x)
    }
}

/// The Hann window, from -1 to 1.
fn window(x: f64) -> f64 {
    if x.abs() < 1.0 {
        0.5 + 0.5 * (PI * x).cos()
    } else {
        0.0
    }
}

/// A hum of some partials with noise, of these sizes, cut at full scale.
fn recording(size: f64, noise_size: f64) -> Vec<i16> {
    let mut state = 0u32;
    let mut sample = |at: usize| {
        state = state.wrapping_mul(1_664_525).wrapping_add(1_013_904_223);
        let noise = f64::from(state >> 16) / 32768.0 - 1.0;
        let phase = at as f64 * 2.0 * PI * 110.0 / 48000.0;
        let hum: f64 = (1..=5)
            .map(|k| (f64::from(k) * phase).sin() / f64::from(k))
            .sum();
        (size * hum + noise_size * noise) as i16
    };
    (0..SAMPLES).map(&mut sample).collect()
}
