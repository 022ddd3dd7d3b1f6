//! Values of levels, for a run of positions.

use super::book::Book;
use super::control::RUN;
use super::rounding::near_with_rest;

/// Words that a run can read: a point of a level's own rates advances less than
/// a word.
pub(super) const STAGE: usize = RUN + 32;

/// Points of a run at rates beyond the level's own, which advance 16 words at
/// most.
const SHORT_RUN: usize = 8;

/// A way to make values.
pub(super) trait Values {
    /// The values of a level at the positions, which do not fall.
    fn values(&mut self, words: &[i32], level: u32, positions: &[u64], values: &mut [i32]);
}

/// The phases of a book with N taps. With N known both sums are straight-line
/// code, a tenth of a play's time less than with a loop.
pub(super) struct Phases<'a, const N: usize> {
    impulses: &'a [[i32; N]],
    differences: &'a [[i32; N]],
    /// log2 M
    bits: u32,
}

impl<'a, const N: usize> Phases<'a, N> {
    /// Of an accepted book whose N this is.
    pub fn of(book: &Book<'a>) -> Phases<'a, N> {
        Phases {
            impulses: book.impulses.as_chunks().0,
            differences: book.differences.as_chunks().0,
            bits: book.phase_bits,
        }
    }

    /// The values at positions of a window, in 2^-32 words.
    fn window_values(&self, words: &[i64], positions: &[u64], values: &mut [i32]) {
        let (impulses, differences) = (self.impulses, self.differences);
        assert_eq!(impulses.len(), differences.len());
        let bits = self.bits;
        for (position, value) in positions.iter().zip(values) {
            let at = (position >> 32) as usize;
            let scaled = (position & 0xffff_ffff) << bits;
            let q = (scaled >> 32) as usize;
            let words: &[i64; N] = words[at..at + N].try_into().unwrap();
            let (base, slope) = sums(words, &impulses[q], &differences[q]);
            *value = mixed(base, slope, scaled & 0xffff_ffff);
        }
    }
}

impl<const N: usize> Values for Phases<'_, N> {
    fn values(&mut self, words: &[i32], level: u32, positions: &[u64], values: &mut [i32]) {
        for_windows::<N>(level, positions, values, |start, count, scaled, values| {
            let mut window = [0; STAGE];
            let window = &mut window[..count];
            stage(words, start, level, window);
            self.window_values(window, scaled, values);
        });
    }
}

/// Does the work for runs whose words fit into a window: it gets the window's first word
/// and length, positions counted from it in 2^-32 words, and room for the values.
#[inline(always)]
pub(super) fn for_windows<const N: usize>(
    level: u32,
    positions: &[u64],
    values: &mut [i32],
    mut work: impl FnMut(i64, usize, &[u64], &mut [i32]),
) {
    let shift = 28 + level;
    let words = |positions: &[u64]| {
        let [first, .., last] = positions else {
            return 1;
        };
        ((last >> shift) - (first >> shift)) as usize + 1
    };
    // A short run always fits.
    let most = if words(positions) + N > STAGE {
        SHORT_RUN
    } else {
        RUN
    };
    let mut scaled = [0; RUN];
    for (positions, values) in positions.chunks(most).zip(values.chunks_mut(most)) {
        let first = positions[0] >> shift;
        for (scaled, position) in scaled.iter_mut().zip(positions) {
            *scaled = (position - (first << shift)) << (4 - level);
        }
        let start = first as i64 + 1 - N as i64 / 2;
        let count = words(positions) - 1 + N;
        work(start, count, &scaled[..positions.len()], values);
    }
}

/// Both sums of a value.
#[inline(always)]
fn sums<const N: usize>(
    words: &[i64; N],
    impulses: &[i32; N],
    differences: &[i32; N],
) -> (i64, i64) {
    let mut base = 0;
    let mut slope = 0;
    for k in 0..N {
        base += words[k] * i64::from(impulses[N - 1 - k]);
        slope += words[k] * i64::from(differences[N - 1 - k]);
    }
    (base, slope)
}

/// near((base + slope × offset / 2^32) / 2^14). The product has up to 77 bits;
/// its floor is enough, and whether it has anything above that.
#[inline(always)]
pub(super) fn mixed(base: i64, slope: i64, offset: u64) -> i32 {
    let rise = i128::from(slope) * i128::from(offset);
    near_with_rest(base + (rise >> 32) as i64, || rise as u32 != 0, 14) as i32
}

/// Copies the words that a run reads: limited, and 0 outside the level. Inside a
/// level one pass tests the limit of them all.
#[inline(always)]
pub(super) fn stage<T: From<i32>>(words: &[i32], start: i64, level: u32, window: &mut [T]) {
    let limit = 1 << (23 + level);
    if let Some(inner) = inside(words, start, window.len()) {
        let bits = inner
            .iter()
            .fold(0, |bits, word| bits | word.wrapping_add(limit));
        if bits & !(2 * limit - 1) == 0 {
            for (slot, word) in window.iter_mut().zip(inner) {
                *slot = T::from(*word);
            }
            return;
        }
    }
    for (slot, at) in window.iter_mut().zip(start..) {
        let word = usize::try_from(at).ok().and_then(|at| words.get(at));
        *slot = T::from(word.map_or(0, |word| (*word).clamp(-limit, limit)));
    }
}

/// The words of a window, where all lie inside the level.
fn inside(words: &[i32], start: i64, count: usize) -> Option<&[i32]> {
    let start = usize::try_from(start).ok()?;
    words.get(start..start.checked_add(count)?)
}
