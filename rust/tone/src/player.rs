//! The unit's half: the check of a store that a studio built, and a voice that
//! plays it, with open, jump, glide, seek and play.

use crate::archive;
use crate::Refusal;

/// Words of a voice.
pub const VOICE_WORDS: usize = 95;

/// The most outputs of one play.
pub const MOST_OUTPUTS: usize = 1_048_576;

/// The most outputs of one glide.
pub const MOST_GLIDE: u32 = 65_536;

/// Where T stands in a store.
const STORE_TOP: usize = 1;

/// Tests a store, as play does: refused 9 for fewer than two words, 8 for S or T,
/// 9 for fewer words than they call for, 18 for a level length that is not the
/// one that they give. The words of the levels may be anything.
///
/// ```
/// use tone::check_store;
///
/// // S 3, T 0, level 0 of three words.
/// check_store(&[3, 0, 3, 0, 256_000, 512_000])?;
/// assert_eq!(check_store(&[0, 0, 3, 0, 0, 0]).unwrap_err().number(), 8);
/// assert_eq!(check_store(&[3, 0, 3, 0, 0]).unwrap_err().number(), 9);
/// assert_eq!(check_store(&[3, 0, 2, 0, 0, 0]).unwrap_err().number(), 18);
/// # Ok::<(), tone::Refusal>(())
/// ```
pub fn check_store(store: &[i32]) -> Result<(), Refusal> {
    Refusal::answer(archive::check_store(store))
}

/// T of a store, for which a voice is opened. Refused as by [`check_store`].
///
/// ```
/// let store = [3, 1, 3, 2, 0, 256_000, 512_000, 0, 512_000];
/// assert_eq!(tone::top_level(&store)?, 1);
/// assert_eq!(tone::top_level(&store[..8]).unwrap_err().number(), 9);
/// # Ok::<(), tone::Refusal>(())
/// ```
pub fn top_level(store: &[i32]) -> Result<u32, Refusal> {
    check_store(store)?;
    // An accepted store has this word, and it is 0..4.
    Ok(store[STORE_TOP] as u32)
}

/// A voice: all that a drive has come to, as [`VOICE_WORDS`] words.
///
/// A field of 32 bits is one word, a field of 64 bits two, the low one first.
/// Fields are unsigned, a word's bits being read as such; the points are signed.
///
/// | words | field |
/// |---|---|
/// | 0 | top level T |
/// | 1 | the old level of a fade, or the current level where no fade runs |
/// | 2 | the new level of a fade, or the current level where no fade runs |
/// | 3 | i, the points of the fade so far |
/// | 4, 5 | R, the rate times 2^27 |
/// | 6, 7 | R0, the rate at which a glide began |
/// | 8, 9 | R1, the rate to which it leads |
/// | 10 | c, the glide's count of outputs, 0 where no glide runs |
/// | 11 | j, the outputs of the glide so far |
/// | 12, 13 | P, the position in 2^-28 of a sample of level 0 |
/// | 14..94 | the history of 81 points, the newest first |
///
/// A voice made of any words is accepted or refused by number at each call.
///
/// ```
/// use tone::{top_level, Voice};
///
/// // Linear interpolation, no filters: document 01's book K.
/// let book = [2, 1, 0, 0, 1, 0, 16384, 16384, -16384, 16384, 16384];
/// // S 3, T 0 and level 0 of the samples 0, 1000, 2000: each times 256.
/// let store = [3, 0, 3, 0, 256_000, 512_000];
///
/// let mut voice = Voice::open(1.0, top_level(&store)?)?;
/// let mut out = [0; 4];
/// voice.play(&book, &store, &mut out)?;
/// assert_eq!(out, [500, 1500, 1000, 0]);
/// # Ok::<(), tone::Refusal>(())
/// ```
#[derive(Clone, Debug, PartialEq, Eq)]
pub struct Voice {
    words: [i32; VOICE_WORDS],
}

impl Voice {
    /// A fresh voice at a rate, for stores of top level `top`, on the level of the
    /// rate's octave. Refused 8 for a top level above 4, 10 for a rate not from
    /// 1/16 up to below 2^(T+1).
    pub fn open(rate: f32, top: u32) -> Result<Voice, Refusal> {
        let mut words = [0; VOICE_WORDS];
        Refusal::answer(archive::open(rate, top, &mut words))?;
        Ok(Voice { words })
    }

    /// The voice that these words are. Nothing is tested here; each call tests
    /// the fields that it uses.
    pub fn from_words(words: [i32; VOICE_WORDS]) -> Voice {
        Voice { words }
    }

    /// The voice's words.
    pub fn words(&self) -> &[i32; VOICE_WORDS] {
        &self.words
    }

    /// Orders a jump to a rate, from the next output on. Refused 13, 15, 16 or
    /// 17 for the voice, 10 for the rate.
    ///
    /// ```
    /// let mut voice = tone::Voice::open(1.0, 1)?;
    /// voice.jump(2.0)?;
    /// assert_eq!(voice.words()[4], 1 << 28);
    /// # Ok::<(), tone::Refusal>(())
    /// ```
    pub fn jump(&mut self, rate: f32) -> Result<(), Refusal> {
        Refusal::answer(archive::jump(&mut self.words, rate))
    }

    /// Orders a glide from the present rate to another over `count` outputs.
    /// Refused 13, 15, 16 or 17 for the voice, 10 for the rate, 11 for a count
    /// outside 1..65536.
    ///
    /// ```
    /// let mut voice = tone::Voice::open(1.0, 1)?;
    /// assert_eq!(voice.glide(2.0, 0).unwrap_err().number(), 11);
    /// voice.glide(2.0, 48000)?;
    /// # Ok::<(), tone::Refusal>(())
    /// ```
    pub fn glide(&mut self, rate: f32, count: u32) -> Result<(), Refusal> {
        Refusal::answer(archive::glide(&mut self.words, rate, count))
    }

    /// Sets the position, in 2^-28 of a sample of level 0, and nothing else.
    /// Refused 13, 15, 16 or 17 for the voice, 12 for a position beyond 2^60.
    ///
    /// ```
    /// let mut voice = tone::Voice::open(1.0, 1)?;
    /// voice.seek(1 << 28)?; // the second sample
    /// assert_eq!(voice.seek((1 << 60) + 1).unwrap_err().number(), 12);
    /// # Ok::<(), tone::Refusal>(())
    /// ```
    pub fn seek(&mut self, position: u64) -> Result<(), Refusal> {
        Refusal::answer(archive::seek(&mut self.words, position))
    }

    /// Fills `out` with the next samples, and hands back how many multiplies that
    /// took. Refused 1 to 7 for the book, 9, 8, 9 or 18 for the store (see
    /// [`check_store`]), 13 for the voice, 19 where its T is not the store's, 14 to
    /// 17 for the voice, 11 for more than 1048576 outputs; then neither `out` nor
    /// the voice is changed.
    ///
    /// Upwards a fade leads to the level of the rate's octave as soon as it is
    /// reached. Downwards a level stays to 15/16 of where its own octave begins, so
    /// that a rate that trembles across an octave takes no fade each time.
    ///
    /// ```
    /// # let book = [2, 1, 0, 0, 1, 0, 16384, 16384, -16384, 16384, 16384];
    /// # let store = [3, 1, 3, 2, 0, 256_000, 512_000, 0, 512_000];
    /// let mut voice = tone::Voice::open(2.0, 1)?;
    /// for (rate, level) in [(1.875, 1), (1.874, 0), (1.99, 0), (2.0, 1)] {
    ///     voice.jump(rate)?;
    ///     voice.play(&book, &store, &mut [0])?;
    ///     assert_eq!(voice.words()[1], level);
    /// }
    /// # Ok::<(), tone::Refusal>(())
    /// ```
    ///
    /// The multiply count is 2N for each level value made, which are two at a point
    /// in a fade and one at any other, and 2B + 1 for each output: 4N + 2B + 1 for
    /// an output without a fade, and never more than 8N + 2B + 1.
    ///
    /// ```
    /// # let store = [3, 1, 3, 2, 0, 256_000, 512_000, 0, 512_000];
    /// // N 2 and B 0; a fade takes F = 3 points, and an output makes two.
    /// let book = [2, 1, 0, 0, 3, 0, 16384, 16384, -16384, 16384, 16384];
    /// let mut voice = tone::Voice::open(1.0, 1)?;
    /// assert_eq!(voice.play(&book, &store, &mut [0; 10])?, 10 * 9);
    /// voice.jump(2.0)?; // to level 1
    /// assert_eq!(voice.play(&book, &store, &mut [0])?, 17);
    /// assert_eq!(voice.play(&book, &store, &mut [0])?, 13);
    /// assert_eq!(voice.play(&book, &store, &mut [0; 8])?, 8 * 9);
    /// # Ok::<(), tone::Refusal>(())
    /// ```
    ///
    /// However a stretch of outputs is cut into plays, the samples, the sum of the
    /// multiply counts and the voice at its end are the same.
    ///
    /// ```
    /// # let book = [2, 1, 0, 0, 1, 0, 16384, 16384, -16384, 16384, 16384];
    /// # let store = [3, 0, 3, 0, 256_000, 512_000];
    /// let mut whole = tone::Voice::open(1.0, 0)?;
    /// let mut cut = whole.clone();
    /// let mut out = [0; 4];
    /// let multiplies = whole.play(&book, &store, &mut out)?;
    /// let (mut parts, mut sum) = ([0; 4], 0);
    /// for part in parts.chunks_mut(3) {
    ///     sum += cut.play(&book, &store, part)?;
    /// }
    /// assert_eq!((parts, sum, cut), (out, multiplies, whole));
    /// # Ok::<(), tone::Refusal>(())
    /// ```
    pub fn play(&mut self, book: &[i32], store: &[i32], out: &mut [i16]) -> Result<u64, Refusal> {
        let mut multiplies = 0;
        let number = archive::play(&mut self.words, book, store, out, &mut multiplies);
        Refusal::answer(number).map(|()| multiplies)
    }
}
