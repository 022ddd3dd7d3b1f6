//! The studio's half: the check of a book, the level builder and the test hum. It
//! knows no voice.

use crate::archive;
use crate::Refusal;

/// Tests a filter book: refused 1 to 7.
///
/// ```
/// assert_eq!(tone::check(&[2, 1]).unwrap_err().number(), 1);
/// assert_eq!(tone::check(&[3, 1, 0, 0, 1]).unwrap_err().number(), 2);
/// ```
pub fn check(book: &[i32]) -> Result<(), Refusal> {
    Refusal::answer(archive::check(book))
}

/// The words of a store for a recording of `sample_count` samples and a top
/// level, header and levels; none where one of the two is outside its range.
///
/// ```
/// assert_eq!(tone::store_words(3, 1), Some(9));
/// assert_eq!(tone::store_words(1_048_576, 4), Some(2_031_623));
/// assert_eq!(tone::store_words(0, 1), None);
/// assert_eq!(tone::store_words(3, 5), None);
/// ```
pub fn store_words(sample_count: usize, top: u32) -> Option<usize> {
    Some(archive::store_words(sample_count, top)).filter(|words| *words != 0)
}

/// The level builder: writes the store of a recording, which is S, T, the lengths
/// of the octave levels 0..T, then these levels. Words after the levels are left.
/// Refused 1 to 9; then no word of the store is written.
///
/// ```
/// let book = [2, 1, 0, 0, 1, 0, 16384, 16384, -16384, 16384, 16384];
/// let mut store = [7; 10];
/// tone::build(&book, &[0, 1000, 2000], 1, &mut store)?;
/// // S 3, T 1, three words of level 0 and two of level 1.
/// assert_eq!(store, [3, 1, 3, 2, 0, 256000, 512000, 0, 512000, 7]);
///
/// let refusal = tone::build(&book, &[0, 1000, 2000], 1, &mut [0; 8]).unwrap_err();
/// assert_eq!(refusal.number(), 9);
/// # Ok::<(), tone::Refusal>(())
/// ```
pub fn build(book: &[i32], samples: &[i16], top: u32, store: &mut [i32]) -> Result<(), Refusal> {
    Refusal::answer(archive::build(book, samples, top, store))
}

/// The test hum, a recording that anyone can make again: fills the samples from a
/// state on, and hands back the last state, from which another call goes on. The
/// hum begins at state 0.
///
/// A state is followed by 1664525 × state + 1013904223, modulo 2^32, and a sample
/// is the new state divided by 65536, rounded down, minus 32768.
///
/// ```
/// let mut first = [0];
/// let state = tone::test_hum(0, &mut first);
/// assert_eq!((first, state), ([-17298], 1_013_904_223));
///
/// let mut whole = [0; 100];
/// tone::test_hum(0, &mut whole);
/// let mut rest = [0; 99];
/// tone::test_hum(state, &mut rest);
/// assert_eq!(whole[1..], rest);
/// ```
pub fn test_hum(state: u32, samples: &mut [i16]) -> u32 {
    archive::test_hum(state, samples)
}
