//! Values of levels by products two at a time, for long taps and plays.
//!
//! SSE2 multiplies unsigned 32-bit words two at a time, and signed ones not at all.
//! So words are raised by W = 2^28 and impulses by G = 2^15, which leaves none below 0,
//! and what this adds is taken off each sum: (w + W)(g + G) = wg + G(w + W) + Wg. The
//! compiler takes two products at once where both sides lie in memory as pairs in
//! 64-bit words, and where no two sums of a loop share them: so impulses are copied once per
//! call, and the words of a run twice.

use super::book::Book;
use super::values::{for_windows, mixed, stage, Values, STAGE};

/// W and G.
const WORD_BITS: u32 = 28;
const IMPULSE_BITS: u32 = 15;

/// The lower word of a pair.
const LOW: u64 = 0xffff_ffff;

/// Values whose sums are kept at a time.
const GROUP: usize = 32;

/// Pairs that one sum of products takes; more of them are not taken two at once.
const MOST_PAIRS: usize = 8;

/// The phases of a book with N taps in H pairs, from the one behind the last down to the
/// first, and of each the last tap first.
pub(super) struct Pairs<const N: usize, const H: usize, const ROWS: usize> {
    rows: [[u64; H]; ROWS],
    /// Sums of impulses.
    sums: [i64; ROWS],
    /// M - 1, where the rows of the last phase and of the one behind it begin.
    last: usize,
    /// log2 M
    bits: u32,
    window: Window,
    /// Sums of products of a group, for each value up to four.
    products: [[[u64; 2]; 4]; GROUP],
}

/// The words that a run reads.
struct Window {
    words: [i32; STAGE],
    /// Twice the same: pairs that begin at even places, and at odd ones.
    copies: [[[u64; STAGE / 2]; 2]; 2],
    /// Running totals of the raised words.
    totals: [u64; STAGE + 1],
}

/// Whether a table is worth its making, for more than 8 taps: by measured times of both
/// ways.
pub(super) fn worth_it(book: &Book, values: usize) -> bool {
    let gain = (book.taps - 8) * values * 5;
    gain > 3 * book.impulses.len() + 1500
}

impl<const N: usize, const H: usize, const ROWS: usize> Pairs<N, H, ROWS> {
    /// Of no book.
    pub fn new() -> Self {
        Pairs {
            rows: [[0; H]; ROWS],
            sums: [0; ROWS],
            last: 0,
            bits: 0,
            window: Window::new(),
            products: [[[0; 2]; 4]; GROUP],
        }
    }

    /// Takes an accepted book with N taps and less than ROWS phases.
    pub fn fill(&mut self, book: &Book) {
        self.bits = book.phase_bits;
        self.last = book.impulses.len() / N - 1;
        // G_M is G_0 moved by one place, with a 0 behind it.
        let mut behind = [0; N];
        behind[..N - 1].copy_from_slice(&book.impulses[1..N]);
        let turned = |[first, second]: &[i32; 2]| [*second, *first];
        let pairs = behind.as_chunks().0.iter().rev();
        raise(pairs.map(turned), IMPULSE_BITS, &mut self.rows[0]);
        let pairs = book.impulses.as_chunks().0.iter().rev();
        let slots = self.rows[1..].as_flattened_mut();
        raise(pairs.map(turned), IMPULSE_BITS, slots);
        let rows = &self.rows[..self.last + 2];
        for (sum, row) in self.sums.iter_mut().zip(rows) {
            let both: u64 = row.iter().sum();
            *sum = ((both & LOW) + (both >> 32)) as i64 - ((N as i64) << IMPULSE_BITS);
        }
    }

    /// The values at some positions of the window, in 2^-32 words.
    fn group(&mut self, positions: &[u64], values: &mut [i32]) {
        let (bits, last) = (self.bits, self.last);
        let place = |position: u64| {
            let scaled = (position & LOW) << bits;
            (
                (position >> 32) as usize,
                last - (scaled >> 32) as usize,
                scaled & LOW,
            )
        };
        for (position, sums) in positions.iter().zip(&mut self.products) {
            let (at, q, _) = place(*position);
            let [first, second] = self.window.copies.each_ref().map(|copy| {
                let pairs = &copy[at % 2][at / 2..at / 2 + H];
                <&[u64; H]>::try_from(pairs).unwrap()
            });
            let (next, row) = (&self.rows[q], &self.rows[q + 1]);
            if H > MOST_PAIRS {
                sums[2] = products::<H>(first, row, 6, H);
                sums[3] = products::<H>(second, next, 6, H);
            }
            let end = if H > MOST_PAIRS { 6 } else { H };
            sums[0] = products::<H>(first, row, 0, end);
            sums[1] = products::<H>(second, next, 0, end);
        }
        let totals = &self.window.totals;
        for ((position, value), sums) in positions.iter().zip(values).zip(&self.products) {
            let (at, q, offset) = place(*position);
            let total = (totals[at + N] - totals[at]) as i64;
            let [mut base, mut next] = [0, 1].map(|k| (sums[k][0] + sums[k][1]) as i64);
            if H > MOST_PAIRS {
                base += (sums[2][0] + sums[2][1]) as i64;
                next += (sums[3][0] + sums[3][1]) as i64;
            }
            let slope = next - base - ((self.sums[q] - self.sums[q + 1]) << WORD_BITS);
            base -= (total << IMPULSE_BITS) + (self.sums[q + 1] << WORD_BITS);
            *value = mixed(base, slope, offset);
        }
    }
}

impl<const N: usize, const H: usize, const ROWS: usize> Values for Pairs<N, H, ROWS> {
    fn values(&mut self, words: &[i32], level: u32, positions: &[u64], values: &mut [i32]) {
        for_windows::<N>(level, positions, values, |start, count, scaled, values| {
            self.window.fill(words, start, level, count);
            let groups = scaled.chunks(GROUP).zip(values.chunks_mut(GROUP));
            for (scaled, values) in groups {
                self.group(scaled, values);
            }
        });
    }
}

impl Window {
    /// Of zeros.
    fn new() -> Window {
        Window {
            words: [0; STAGE],
            copies: [[[0; STAGE / 2]; 2]; 2],
            totals: [0; STAGE + 1],
        }
    }

    /// Takes `count` words from `start` on.
    fn fill(&mut self, words: &[i32], start: i64, level: u32, count: usize) {
        let window = &mut self.words[..count];
        stage(words, start, level, window);
        for copy in &mut self.copies {
            for (odd, half) in copy.iter_mut().enumerate() {
                let pairs = window[odd..].as_chunks().0.iter().copied();
                raise(pairs, WORD_BITS, half);
            }
        }
        let mut total = 0;
        for (slot, word) in self.totals[1..].iter_mut().zip(window) {
            total += (*word + (1 << WORD_BITS)) as u64;
            *slot = total;
        }
    }
}

/// Pairs of words in -2^bits..2^bits - 1, each raised by 2^bits: its lowest bits with the sign
/// turned over.
#[inline(always)]
fn raise(words: impl Iterator<Item = [i32; 2]>, bits: u32, pairs: &mut [u64]) {
    let sign = 1 << bits;
    let both = |word: u64| word | word << 32;
    for (slot, [first, second]) in pairs.iter_mut().zip(words) {
        let pair = u64::from(first as u32) | u64::from(second as u32) << 32;
        *slot = (pair ^ both(sign)) & both(2 * sign - 1);
    }
}

/// The sum of the products of some pairs' words, in two parts, as the compiler takes
/// them: both upper words of two pairs, both lower ones.
#[inline(always)]
fn products<const H: usize>(x: &[u64; H], y: &[u64; H], from: usize, to: usize) -> [u64; 2] {
    let mut sums = [0; 2];
    for k in from / 2..to / 2 {
        for (j, sum) in sums.iter_mut().enumerate() {
            *sum += (x[2 * k + j] >> 32) * (y[2 * k + j] >> 32);
        }
    }
    for k in from / 2..to / 2 {
        for (j, sum) in sums.iter_mut().enumerate() {
            *sum += (x[2 * k + j] & LOW) * (y[2 * k + j] & LOW);
        }
    }
    if to % 2 == 1 {
        sums[0] += (x[to - 1] >> 32) * (y[to - 1] >> 32);
        sums[1] += (x[to - 1] & LOW) * (y[to - 1] & LOW);
    }
    sums
}
