//! Every second sum of taps times words around a centre: a level from the one
//! below it, and outputs from points.
//!
//! SSE2 multiplies unsigned 32-bit words two at a time, and signed ones not at all.
//! So words are raised above 0, and taps are taken by their size, those above 0
//! first; what the raising adds is the same in every sum. Taps that are 0 are left
//! out: of a half-band filter that is every second one.

/// Most sums of a call.
pub(super) const BLOCK: usize = 64;

/// Most taps beside the centre.
pub(super) const MOST_REACH: usize = 40;

/// Most sums that are made at a time: as many as there are registers for.
const MOST_GROUP: usize = 16;

/// What a word is raised by; none is larger.
const RAISE: u32 = 1 << 29;

/// What a sum is handed out with: more than the size of any, and a multiple of
/// whatever it is divided by.
pub(super) const SUM_RAISE: u64 = 1 << 46;

/// Words of one half.
const HALF: usize = BLOCK + MOST_REACH + MOST_GROUP;

/// Raised words, even places before odd ones, so that every second word is the next.
pub(super) struct Halves {
    words: [u32; 2 * HALF],
}

/// A tap beside the centre that is not 0.
#[derive(Clone, Copy)]
struct Tap {
    size: u32,
    /// The places of the first sum's two words.
    before: usize,
    after: usize,
}

/// Symmetric taps, sorted once per call.
pub(super) struct Taps {
    centre: i64,
    /// Those above 0, then those below.
    sides: [Tap; MOST_REACH],
    above: usize,
    count: usize,
    reach: usize,
    /// A sum before its first product.
    start: u64,
}

impl Halves {
    /// Of zeros.
    pub fn new() -> Self {
        Halves {
            words: [RAISE; 2 * HALF],
        }
    }

    /// Takes words of at most 2^29.
    pub fn fill(&mut self, words: &[i32]) {
        let (even, odd) = self.words.split_at_mut(HALF);
        let (pairs, last) = words.as_chunks::<2>();
        for ((even, odd), pair) in even.iter_mut().zip(odd).zip(pairs) {
            [*even, *odd] = pair.map(raised);
        }
        if let [word] = last {
            self.words[pairs.len()] = raised(*word);
        }
    }
}

/// Where a word lies among the raised ones.
fn place(at: usize) -> usize {
    at % 2 * HALF + at / 2
}

fn raised(word: i32) -> u32 {
    (word as u32).wrapping_add(RAISE)
}

impl Taps {
    /// Of taps with the centre first.
    pub fn of(taps: &[i32]) -> Taps {
        let reach = taps.len() - 1;
        let none = Tap {
            size: 0,
            before: 0,
            after: 0,
        };
        let mut sides = [none; MOST_REACH];
        let mut count = 0;
        let mut above = 0;
        for sign in [1, -1] {
            for (k, tap) in taps.iter().enumerate().skip(1) {
                if tap.signum() == sign {
                    sides[count] = Tap {
                        size: tap.unsigned_abs(),
                        before: place(reach - k),
                        after: place(reach + k),
                    };
                    count += 1;
                }
            }
            if sign == 1 {
                above = count;
            }
        }
        let centre = i64::from(taps[0]);
        let all = 2 * taps.iter().map(|tap| i64::from(*tap)).sum::<i64>() - centre;
        Taps {
            centre,
            sides,
            above,
            count,
            reach,
            start: SUM_RAISE.wrapping_add_signed(-all * i64::from(RAISE)),
        }
    }

    /// Taps beside the centre.
    pub fn reach(&self) -> usize {
        self.reach
    }

    /// Fills `out` from the sums around words `reach`, `reach` + 2, .. of
    /// `words`, each [`SUM_RAISE`] too large. The sums of a group share each tap
    /// and the loop over the taps.
    #[inline(always)]
    pub fn halve<T, const GROUP: usize>(
        &self,
        words: &Halves,
        out: &mut [T],
        finish: impl Fn(u64) -> T,
    ) {
        let (groups, rest) = out.as_chunks_mut::<GROUP>();
        let done = GROUP * groups.len();
        for (at, group) in groups.iter_mut().enumerate() {
            *group = self.group::<GROUP>(words, GROUP * at).map(&finish);
        }
        if !rest.is_empty() {
            let sums = self.group::<GROUP>(words, done);
            for (slot, sum) in rest.iter_mut().zip(sums) {
                *slot = finish(sum);
            }
        }
    }

    #[inline(always)]
    fn group<const GROUP: usize>(&self, words: &Halves, at: usize) -> [u64; GROUP] {
        let places = |place: usize| -> &[u32; GROUP] {
            words.words[place + at..place + at + GROUP]
                .try_into()
                .unwrap()
        };
        let mut sums = places(place(self.reach)).map(|x| {
            self.start
                .wrapping_add((self.centre as u64).wrapping_mul(u64::from(x)))
        });
        let (above, below) = self.sides[..self.count].split_at(self.above);
        for tap in above {
            let (x, y) = (places(tap.before), places(tap.after));
            for j in 0..GROUP {
                sums[j] += u64::from(tap.size) * u64::from(x[j] + y[j]);
            }
        }
        for tap in below {
            let (x, y) = (places(tap.before), places(tap.after));
            for j in 0..GROUP {
                sums[j] -= u64::from(tap.size) * u64::from(x[j] + y[j]);
            }
        }
        sums
    }
}
