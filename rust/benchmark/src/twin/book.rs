//! The filter book: numbers 1 to 7, and its parts.

/// An accepted book, taken apart.
#[derive(Clone, Copy)]
pub(super) struct Book<'a> {
    /// N
    pub taps: usize,
    /// log2 M
    pub phase_bits: u32,
    /// F
    pub fade: u32,
    /// G_q[k] at q × N + k
    pub impulses: &'a [i32],
    /// The difference at (q, k), at q × N + k
    pub differences: &'a [i32],
    /// h[0..A]
    pub level_taps: &'a [i32],
    /// g[0..B]
    pub decimation_taps: &'a [i32],
}

/// 0 for an accepted book, else the first of the numbers 1 to 7.
pub fn check(words: &[i32]) -> u32 {
    Book::accepted(words).err().unwrap_or(0)
}

impl<'a> Book<'a> {
    /// The book, or the first of the numbers 1 to 7 whose condition holds.
    pub fn accepted(words: &'a [i32]) -> Result<Book<'a>, u32> {
        let book = Book::parts(words)?;
        let faults = book.faults();
        if faults.range
            | coefficients_wrong(book.level_taps)
            | coefficients_wrong(book.decimation_taps)
        {
            return Err(4);
        }
        if book.impulses[0] != 0 {
            return Err(5);
        }
        if faults.difference {
            return Err(6);
        }
        if faults.sum || tap_sum(book.level_taps) > 32768 || tap_sum(book.decimation_taps) > 32768 {
            return Err(7);
        }
        Ok(book)
    }

    /// Numbers 1 to 3.
    fn parts(words: &'a [i32]) -> Result<Book<'a>, u32> {
        let Some((&[taps, phases, reach, decimation, fade], rest)) = words.split_first_chunk()
        else {
            return Err(1);
        };
        let good = (2..=24).contains(&taps)
            && taps % 2 == 0
            && (1..=128).contains(&phases)
            && phases & (phases - 1) == 0
            && (0..=40).contains(&reach)
            && (0..=40).contains(&decimation)
            && (1..=256).contains(&fade);
        if !good {
            return Err(2);
        }
        let array = (taps * phases) as usize;
        let reach = reach as usize;
        let decimation = decimation as usize;
        if rest.len() != 2 * array + reach + decimation + 2 {
            return Err(3);
        }
        let (impulses, rest) = rest.split_at(array);
        let (differences, rest) = rest.split_at(array);
        let (level_taps, decimation_taps) = rest.split_at(reach + 1);
        Ok(Book {
            taps: taps as usize,
            phase_bits: phases.trailing_zeros(),
            fade: fade as u32,
            impulses,
            differences,
            level_taps,
            decimation_taps,
        })
    }

    /// The faults of the phases, by their length: a known length leaves no
    /// test per word.
    fn faults(&self) -> Faults {
        match self.taps {
            2 => Faults::of::<2, 2>(self),
            4 => Faults::of::<4, 2>(self),
            6 => Faults::of::<6, 3>(self),
            8 => Faults::of::<8, 2>(self),
            10 => Faults::of::<10, 5>(self),
            12 => Faults::of::<12, 3>(self),
            14 => Faults::of::<14, 7>(self),
            16 => Faults::of::<16, 2>(self),
            18 => Faults::of::<18, 9>(self),
            20 => Faults::of::<20, 5>(self),
            22 => Faults::of::<22, 11>(self),
            _ => Faults::of::<24, 3>(self),
        }
    }
}

/// What is wrong with the phases of a book.
struct Faults {
    /// Number 4.
    range: bool,
    /// Number 6, where 4 does not hold.
    difference: bool,
    /// Number 7, where 4 does not hold.
    sum: bool,
}

impl Faults {
    /// Of phases with N words, looked at EIGHTS times eight words at a time.
    fn of<const N: usize, const EIGHTS: usize>(book: &Book) -> Faults {
        let (range, sum) = if columns_good::<N, EIGHTS>(book.impulses) {
            (false, false)
        } else {
            let (bits, largest) = largest_sum::<N>(book.impulses);
            (bits & !0xffff != 0, largest > 65536)
        };
        Faults {
            range,
            difference: differences_wrong::<N>(book),
            sum,
        }
    }
}

/// Fewer turns than these are tested sooner phase by phase.
const FEW_TURNS: usize = 4;

/// Whether all words are in range and all sums too, since even the sum over the columns
/// of the largest size in each is: true of usual books. Sizes are taken one too large.
fn columns_good<const N: usize, const EIGHTS: usize>(impulses: &[i32]) -> bool {
    let (turns, rest) = impulses.as_chunks::<8>().0.as_chunks::<EIGHTS>();
    if !rest.is_empty() || turns.len() < FEW_TURNS {
        return false;
    }
    let (mut high, mut low) = ([[0i16; 8]; EIGHTS], [[0i16; 8]; EIGHTS]);
    for turn in turns {
        for ((words, high), low) in turn.iter().zip(&mut high).zip(&mut low) {
            for ((word, high), low) in words.iter().zip(high).zip(low) {
                let word = (*word).clamp(-32768, 32767) as i16;
                *high = (*high).max(word);
                *low = (*low).min(word);
            }
        }
    }
    let mut columns = [0i16; N];
    let (high, low) = (high.as_flattened(), low.as_flattened());
    for (highs, lows) in high.chunks(N).zip(low.chunks(N)) {
        for ((column, high), low) in columns.iter_mut().zip(highs).zip(lows) {
            *column = (*column).max(*high).max(!low);
        }
    }
    let sum: u32 = columns.iter().map(|size| *size as u32 + 1).sum();
    sum <= 65536 && !columns.contains(&i16::MAX)
}

/// Number 6, where 4 does not hold.
fn differences_wrong<const N: usize>(book: &Book) -> bool {
    let last = book.impulses.len() - N;
    let (phases, last_phase) = book.impulses.split_at(last);
    let (steps, last_steps) = book.differences.split_at(last);
    // G_M is G_0 moved by one place, with a 0 behind it.
    let mut next = [0; N];
    next[..N - 1].copy_from_slice(&book.impulses[1..N]);
    let most = wrong_bits(phases, &book.impulses[N..], steps);
    most | wrong_bits(last_phase, &next, last_steps) != 0
}

/// Bits that are left by wrong differences: one pass, without a branch.
#[inline(always)]
fn wrong_bits(impulses: &[i32], next: &[i32], steps: &[i32]) -> i32 {
    let words = impulses.iter().zip(next).zip(steps);
    words.fold(0, |bits, ((impulse, next), step)| {
        bits | (step ^ next.wrapping_sub(*impulse))
    })
}

/// Bits that are left by words out of range, above the lowest 16, and the largest sum
/// of a phase's absolute values where there is none.
fn largest_sum<const N: usize>(impulses: &[i32]) -> (i32, u32) {
    let phases = impulses.as_chunks::<N>().0.iter();
    phases.fold((0, 0), |(bits, largest), phase| {
        let (bits, sum) = phase.iter().fold((bits, 0u32), |(bits, sum), x| {
            (
                bits | x.wrapping_add(32768),
                sum.wrapping_add(x.unsigned_abs()),
            )
        });
        (bits, largest.max(sum))
    })
}

/// Number 4 of some words.
fn coefficients_wrong(words: &[i32]) -> bool {
    words
        .iter()
        .fold(0, |bits, word| bits | word.wrapping_add(32768))
        & !0xffff
        != 0
}

/// |t[0]| + 2 × (|t[1]| + ..), of words in range.
fn tap_sum(taps: &[i32]) -> u32 {
    let all: u32 = taps.iter().map(|x| x.unsigned_abs()).sum();
    2 * all - taps[0].unsigned_abs()
}
