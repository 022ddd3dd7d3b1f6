//! Octave levels: sizes, the builder, and the levels of a store.

use super::book::Book;
use super::halving::{Halves, Taps, BLOCK, MOST_REACH};
use super::rounding::near_unsigned;

/// The words of a store for S samples and top level T, its header among them; 0
/// where one of them is outside its range.
pub fn store_words(sample_count: usize, top: u32) -> usize {
    if !(1..=1_048_576).contains(&sample_count) || top > 4 {
        return 0;
    }
    let levels: usize = lengths(sample_count, top).sum();
    header_words(top) + levels
}

/// Words of a header: S, T and the T+1 lengths.
fn header_words(top: u32) -> usize {
    top as usize + 3
}

/// The lengths of the levels 0..T: S, halved once more for each, rounded up.
fn lengths(sample_count: usize, top: u32) -> impl Iterator<Item = usize> {
    (0..=top).map(move |level| (sample_count + (1 << level) - 1) >> level)
}

/// 0 for a store that play takes, else the first of the numbers 9, 8, 9 and 18.
pub fn check_store(store: &[i32]) -> u32 {
    Levels::accepted(store).err().unwrap_or(0)
}

/// The levels of a store.
#[derive(Clone, Copy)]
pub(super) struct Levels<'a> {
    /// T
    pub top: u32,
    words: [&'a [i32]; 5],
}

impl<'a> Levels<'a> {
    /// The levels, or the first of the numbers 9, 8, 9 and 18.
    pub fn accepted(store: &'a [i32]) -> Result<Levels<'a>, u32> {
        let &[sample_count, top, ..] = store else {
            return Err(9);
        };
        // A word below 0 is beyond every limit as an unsigned one.
        let (sample_count, top) = (sample_count as u32 as usize, top as u32);
        let needed = store_words(sample_count, top);
        if needed == 0 {
            return Err(8);
        }
        if store.len() < needed {
            return Err(9);
        }
        let (header, mut rest) = store.split_at(header_words(top));
        let mut words: [&[i32]; 5] = [&[]; 5];
        let levels = words.iter_mut().zip(&header[2..]);
        for ((words, written), length) in levels.zip(lengths(sample_count, top)) {
            if *written != length as i32 {
                return Err(18);
            }
            (*words, rest) = rest.split_at(length);
        }
        Ok(Levels { top, words })
    }

    /// The words of a level of at most T.
    pub fn level(&self, level: u32) -> &'a [i32] {
        self.words[level as usize]
    }
}

/// The level builder: 0, or the first of the numbers 1 to 9.
pub fn build(book: &[i32], samples: &[i16], top: u32, store: &mut [i32]) -> u32 {
    let book = match Book::accepted(book) {
        Ok(book) => book,
        Err(number) => return number,
    };
    let needed = store_words(samples.len(), top);
    if needed == 0 {
        return 8;
    }
    if store.len() < needed {
        return 9;
    }
    let (header, levels) = store.split_at_mut(header_words(top));
    write_header(header, samples.len(), top);
    let (mut below, mut rest) = levels.split_at_mut(samples.len());
    for (word, sample) in below.iter_mut().zip(samples) {
        *word = i32::from(*sample) * 256;
    }
    let taps = Taps::of(book.level_taps);
    for _ in 0..top {
        let (next, after) = rest.split_at_mut(below.len().div_ceil(2));
        next_level(&taps, below, next);
        (below, rest) = (next, after);
    }
    0
}

/// S, T and the lengths of the levels.
fn write_header(header: &mut [i32], sample_count: usize, top: u32) {
    header[0] = sample_count as i32;
    header[1] = top as i32;
    for (word, length) in header[2..].iter_mut().zip(lengths(sample_count, top)) {
        *word = length as i32;
    }
}

/// The level above `below`, in blocks: the words that a block reads are taken
/// once, with zeros outside the level, so that the sums need no test.
fn next_level(taps: &Taps, below: &[i32], next: &mut [i32]) {
    let mut words = [0; 2 * BLOCK + 2 * MOST_REACH];
    let mut halves = Halves::new();
    let reach = taps.reach();
    for (at, block) in next.chunks_mut(BLOCK).enumerate() {
        let start = 2 * BLOCK * at;
        let count = 2 * block.len() - 1 + 2 * reach;
        let inner = start
            .checked_sub(reach)
            .and_then(|from| below.get(from..from + count));
        match inner {
            Some(inner) => halves.fill(inner),
            None => {
                let window = &mut words[..count];
                copy(below, start, reach, window);
                halves.fill(window);
            }
        }
        // A raised sum has nothing of its own above 32 bits.
        taps.halve::<_, 16>(&halves, block, |sum| near_unsigned(sum, 14) as i32);
    }
}

/// Copies the words from `reach` before `start` on, 0 outside the level.
fn copy(below: &[i32], start: usize, reach: usize, window: &mut [i32]) {
    let before = reach.saturating_sub(start);
    let (zeros, window) = window.split_at_mut(before);
    zeros.fill(0);
    let words = &below[start + before - reach..];
    let inside = words.len().min(window.len());
    let (window, zeros) = window.split_at_mut(inside);
    window.copy_from_slice(&words[..inside]);
    zeros.fill(0);
}
