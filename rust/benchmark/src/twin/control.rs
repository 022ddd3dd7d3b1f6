//! What moves a voice's control: the glide before an output, the position and
//! the fade at each point.
//!
//! Rates and positions of a block come first, since neither looks at a fade;
//! then the points are taken in runs that read the same levels.

use super::voice::{asked_level, Voice, LAST_POSITION};

/// Outputs of a block.
pub(super) const BLOCK: usize = 64;

/// Points of a block.
pub(super) const RUN: usize = 2 * BLOCK;

/// Which levels a run of points reads.
#[derive(Clone, Copy, PartialEq, Eq)]
pub(super) enum Plan {
    /// No fade: the level.
    Steady(u32),
    /// A fade: old level, new level, and i of the run's first point.
    Fade(u32, u32, u32),
}

/// A voice's glide while it plays. It is divided once per call; then each
/// output adds the quotient, and the carry of the remainders.
struct Glide {
    /// Outputs left.
    left: usize,
    /// c
    count: u32,
    /// floor((R1 - R0) / c)
    quotient: i64,
    /// (R1 - R0) modulo c
    remainder: u32,
    /// (R1 - R0) × j modulo c
    rest: u32,
}

/// A voice's control while it plays.
pub(super) struct Control {
    /// The current level; in a fade the old one.
    from: u32,
    /// In a fade the new level, else the current one.
    to: u32,
    /// i
    step: u32,
    /// F
    fade: u32,
    rate: u64,
    glide: Glide,
    position: u64,
    /// The rates of the block's outputs. They rise, or fall, all along it.
    rates: [u64; BLOCK],
    /// The positions of the block's points.
    positions: [u64; RUN],
}

impl Control {
    /// The control of an accepted voice.
    pub fn of(voice: &Voice, fade: u32) -> Control {
        let (rate, glide) = Glide::of(voice);
        Control {
            from: voice.from,
            to: voice.to,
            step: voice.step,
            fade,
            rate,
            glide,
            position: voice.position,
            rates: [0; BLOCK],
            positions: [0; RUN],
        }
    }

    /// Hands the control back, after at least one output.
    pub fn give(&self, voice: &mut Voice) {
        voice.from = self.from;
        voice.to = self.to;
        voice.step = self.step;
        voice.rate = self.rate;
        voice.position = self.position;
        if voice.count != 0 {
            if self.glide.left == 0 {
                voice.rest();
            } else {
                voice.done = voice.count - self.glide.left as u32;
            }
        }
    }

    /// F
    pub fn fade(&self) -> u32 {
        self.fade
    }

    /// The positions of some of the block's points.
    pub fn positions(&self, from: usize, count: usize) -> &[u64] {
        &self.positions[from..from + count]
    }

    /// Moves glide and position through a block of outputs.
    pub fn begin(&mut self, outputs: usize) {
        let rates = &mut self.rates[..outputs];
        self.rate = self.glide.rates(self.rate, rates);
        let positions = self.positions[..2 * outputs].as_chunks_mut().0;
        // Rates are below 2^32, so an earlier block stays short of the end.
        let last = LAST_POSITION - ((RUN as u64) << 32);
        self.position = if self.position < last {
            advance(self.position, rates, positions, |x| x)
        } else {
            advance(self.position, rates, positions, |x| x.min(LAST_POSITION))
        };
    }

    /// The next run, from point `at` of the block on: its plan, and how many
    /// points it has.
    pub fn run(&mut self, at: usize, points: usize) -> (Plan, usize) {
        let rates = &self.rates[at / 2..points / 2];
        if self.step == 0 {
            let level = self.from;
            let asked = asked_level(level, rates[0]);
            if asked == level {
                let same = |rate: &u64| asked_level(level, *rate) == level;
                let end = if rates.last().is_some_and(same) {
                    points
                } else {
                    let outputs = rates.iter().take_while(|rate| same(rate)).count();
                    2 * (at / 2 + outputs)
                };
                return (Plan::Steady(level), end - at);
            }
            self.to = asked;
        }
        let plan = Plan::Fade(self.from, self.to, self.step + 1);
        let count = (points - at).min((self.fade - self.step) as usize);
        self.step += count as u32;
        if self.step == self.fade {
            self.from = self.to;
            self.step = 0;
        }
        (plan, count)
    }
}

impl Glide {
    /// The glide of an accepted voice, and the rate that it has reached.
    fn of(voice: &Voice) -> (u64, Glide) {
        if voice.count == 0 {
            let none = Glide {
                left: 0,
                count: 0,
                quotient: 0,
                remainder: 0,
                rest: 0,
            };
            return (voice.rate, none);
        }
        let count = i64::from(voice.count);
        let way = voice.target as i64 - voice.start as i64;
        let gone = way * i64::from(voice.done);
        let glide = Glide {
            left: (voice.count - voice.done) as usize,
            count: voice.count,
            quotient: way.div_euclid(count),
            remainder: way.rem_euclid(count) as u32,
            rest: gone.rem_euclid(count) as u32,
        };
        // Not R of the record, which need not lie on its glide.
        let rate = voice.start.wrapping_add_signed(gone.div_euclid(count));
        (rate, glide)
    }

    /// The rates of the next outputs, and the last of them.
    fn rates(&mut self, mut rate: u64, rates: &mut [u64]) -> u64 {
        let gliding = rates.len().min(self.left);
        let (moving, constant) = rates.split_at_mut(gliding);
        let Glide {
            count,
            quotient,
            remainder,
            mut rest,
            ..
        } = *self;
        for slot in moving {
            rest += remainder;
            let carry = rest >= count;
            rest -= if carry { count } else { 0 };
            rate = rate.wrapping_add_signed(quotient + i64::from(carry));
            *slot = rate;
        }
        constant.fill(rate);
        self.left -= gliding;
        self.rest = rest;
        rate
    }
}

/// Positions of two points per rate, and the one after them.
#[inline(always)]
fn advance(
    mut position: u64,
    rates: &[u64],
    positions: &mut [[u64; 2]],
    stop: impl Fn(u64) -> u64,
) -> u64 {
    for (pair, rate) in positions.iter_mut().zip(rates) {
        let middle = stop(position + rate);
        *pair = [position, middle];
        position = stop(middle + rate);
    }
    position
}
