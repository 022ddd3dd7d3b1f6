//! The record of a voice, its numbers 13 to 17 and 19, and open, orders and seek.

/// Words of a voice's plain form.
pub const VOICE_WORDS: usize = 95;

/// P stops here.
pub(super) const LAST_POSITION: u64 = 1 << 60;

/// Points of history.
pub(super) const POINTS: usize = 81;

/// Largest absolute value of a point.
const POINT_BOUND: i32 = 1 << 29;

/// A voice: a plain record, any content of which a call accepts or refuses.
#[derive(Clone, Debug, PartialEq, Eq)]
pub struct Voice {
    /// T
    pub top: u32,
    /// The current level; in a fade the old one.
    pub from: u32,
    /// In a fade the new level, else the current one.
    pub to: u32,
    /// i
    pub step: u32,
    /// R
    pub rate: u64,
    /// R0
    pub start: u64,
    /// R1
    pub target: u64,
    /// c
    pub count: u32,
    /// j
    pub done: u32,
    /// P
    pub position: u64,
    /// The points, newest first.
    pub history: [i32; POINTS],
}

impl Voice {
    /// The zero record.
    pub const ZERO: Voice = Voice {
        top: 0,
        from: 0,
        to: 0,
        step: 0,
        rate: 0,
        start: 0,
        target: 0,
        count: 0,
        done: 0,
        position: 0,
        history: [0; POINTS],
    };

    /// A fresh voice and 0, or the zero record and 8 or 10.
    pub fn open(rate: f32, top: u32) -> (u32, Voice) {
        if top > 4 {
            return (8, Voice::ZERO);
        }
        let Some(rate) = scaled_rate(rate, top) else {
            return (10, Voice::ZERO);
        };
        let level = octave_level(rate);
        let voice = Voice {
            top,
            from: level,
            to: level,
            rate,
            ..Voice::ZERO
        };
        (0, voice)
    }

    /// A jump to a rate.
    pub fn jump(&mut self, rate: f32) -> u32 {
        let number = self.order_number();
        if number != 0 {
            return number;
        }
        let Some(rate) = scaled_rate(rate, self.top) else {
            return 10;
        };
        self.rate = rate;
        self.rest();
        0
    }

    /// A glide to a rate over `count` outputs.
    pub fn glide(&mut self, rate: f32, count: u32) -> u32 {
        let number = self.order_number();
        if number != 0 {
            return number;
        }
        let Some(target) = scaled_rate(rate, self.top) else {
            return 10;
        };
        if !(1..=65536).contains(&count) {
            return 11;
        }
        self.start = self.rate;
        self.target = target;
        self.count = count;
        self.done = 0;
        0
    }

    /// Sets P.
    pub fn seek(&mut self, position: u64) -> u32 {
        let number = self.order_number();
        if number != 0 {
            return number;
        }
        if position > LAST_POSITION {
            return 12;
        }
        self.position = position;
        0
    }

    /// No glide.
    pub(super) fn rest(&mut self) {
        self.start = 0;
        self.target = 0;
        self.count = 0;
        self.done = 0;
    }

    /// 13, 15, 16 and 17.
    fn order_number(&self) -> u32 {
        if self.levels_wrong() {
            13
        } else {
            self.late_number()
        }
    }

    /// 13, 19 and 14 to 17, with the book's F and the store's T.
    pub(super) fn play_number(&self, fade: u32, top: u32) -> u32 {
        if self.levels_wrong() {
            13
        } else if self.top != top {
            19
        } else if self.fade_wrong(fade) {
            14
        } else {
            self.late_number()
        }
    }

    fn late_number(&self) -> u32 {
        if self.rates_wrong() {
            15
        } else if self.position > LAST_POSITION {
            16
        } else if self.history_wrong() {
            17
        } else {
            0
        }
    }

    fn levels_wrong(&self) -> bool {
        self.top > 4 || self.from > self.top || self.to > self.top
    }

    fn fade_wrong(&self, fade: u32) -> bool {
        (self.step == 0) != (self.from == self.to) || self.step >= fade
    }

    fn rates_wrong(&self) -> bool {
        let range = (1 << 23)..(1u64 << (28 + self.top));
        if !range.contains(&self.rate) {
            return true;
        }
        self.count != 0
            && (!range.contains(&self.start)
                || !range.contains(&self.target)
                || self.count > 65536
                || self.done >= self.count)
    }

    /// One pass over bits, without a branch per word, finds all points below the bound
    /// right; another looks for points beyond it.
    fn history_wrong(&self) -> bool {
        let bits = self
            .history
            .iter()
            .fold(0, |bits, point| bits | point.wrapping_add(POINT_BOUND));
        let range = -POINT_BOUND..=POINT_BOUND;
        bits & !(2 * POINT_BOUND - 1) != 0
            && !self.history.iter().all(|point| range.contains(point))
    }

    /// The plain form: 64-bit fields as two words, low one first.
    pub fn words(&self) -> [i32; VOICE_WORDS] {
        let mut words = [0; VOICE_WORDS];
        let pair = |x: u64| [x as i32, (x >> 32) as i32];
        let small = [self.top, self.from, self.to, self.step];
        words[..4].copy_from_slice(&small.map(|x| x as i32));
        words[4..6].copy_from_slice(&pair(self.rate));
        words[6..8].copy_from_slice(&pair(self.start));
        words[8..10].copy_from_slice(&pair(self.target));
        words[10] = self.count as i32;
        words[11] = self.done as i32;
        words[12..14].copy_from_slice(&pair(self.position));
        words[14..].copy_from_slice(&self.history);
        words
    }

    /// The record of a plain form.
    pub fn from_words(words: &[i32; VOICE_WORDS]) -> Voice {
        let small = |at: usize| words[at] as u32;
        let pair = |at: usize| u64::from(small(at)) | u64::from(small(at + 1)) << 32;
        let mut history = [0; POINTS];
        history.copy_from_slice(&words[14..]);
        Voice {
            top: small(0),
            from: small(1),
            to: small(2),
            step: small(3),
            rate: pair(4),
            start: pair(6),
            target: pair(8),
            count: small(10),
            done: small(11),
            position: pair(12),
            history,
        }
    }
}

/// R, for a rate from 1/16 up to below 2^(T+1). The product is exact in f64.
fn scaled_rate(rate: f32, top: u32) -> Option<u64> {
    let end = (2u32 << top) as f32;
    (rate >= 0.0625 && rate < end).then(|| (f64::from(rate) * 134_217_728.0) as u64)
}

/// max(0, floor(log2 r)), for R above 0.
fn octave_level(rate: u64) -> u32 {
    rate.ilog2().saturating_sub(27)
}

/// The level that R asks for from the current one: downwards it stays down to
/// 15/16 of the octave.
pub(super) fn asked_level(current: u32, rate: u64) -> u32 {
    let level = octave_level(rate);
    match level < current && 15 << (27 + current) <= 16 * rate {
        true => current,
        false => level,
    }
}
