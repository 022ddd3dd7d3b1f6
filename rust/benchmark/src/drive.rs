//! A drive: the rates of its blocks, and the same drive by each competitor.

use crate::others::Resampler;
use crate::setting::{Setting, TOP};
use crate::twin;

/// Outputs after which the rate moves.
pub const RATE_BLOCK: usize = 64;

/// How far a rate strays from its middle.
const SPREAD: f32 = 0.05;

/// How the rate goes.
#[derive(Clone, Copy, Debug, PartialEq)]
pub enum Course {
    /// Around one rate, inside its octave: no fade.
    Around(f32),
    /// Between two rates an octave apart, each for [`CROSSING`] outputs or a
    /// block, if that is longer.
    Between(f32, f32),
    /// As many fades as there can be: before each block a jump to a higher rate, `from`,
    /// and a glide down to the lower one, `to`, over `count` outputs.
    Fades {
        /// Where a block begins.
        from: f32,
        /// Where it ends.
        to: f32,
        /// Outputs of the glide.
        count: usize,
    },
}

/// Outputs between two crossings of an octave.
pub const CROSSING: usize = 512;

/// A drive of equal blocks.
#[derive(Clone, Copy, Debug)]
pub struct Drive {
    /// How the rate goes.
    pub course: Course,
    /// Outputs of a play.
    pub block: usize,
    /// Outputs in all.
    pub outputs: usize,
}

/// What is ordered before a block.
enum Order {
    None,
    Jump(f32),
    Glide(f32, u32),
    JumpAndGlide(f32, f32, u32),
}

/// A player of document 01's rules.
pub trait Player {
    /// Orders a jump.
    fn jump(&mut self, rate: f32);
    /// Orders a glide.
    fn glide(&mut self, rate: f32, count: u32);
    /// Plays a block, and gives its multiply count.
    fn play(&mut self, setting: &Setting, out: &mut [i16]) -> u64;
}

impl Player for tone::Voice {
    fn jump(&mut self, rate: f32) {
        tone::Voice::jump(self, rate).expect("an accepted jump");
    }

    fn glide(&mut self, rate: f32, count: u32) {
        tone::Voice::glide(self, rate, count).expect("an accepted glide");
    }

    fn play(&mut self, setting: &Setting, out: &mut [i16]) -> u64 {
        tone::Voice::play(self, &setting.book, &setting.store, out).expect("an accepted play")
    }
}

impl Player for twin::Voice {
    fn jump(&mut self, rate: f32) {
        assert_eq!(twin::Voice::jump(self, rate), 0);
    }

    fn glide(&mut self, rate: f32, count: u32) {
        assert_eq!(twin::Voice::glide(self, rate, count), 0);
    }

    fn play(&mut self, setting: &Setting, out: &mut [i16]) -> u64 {
        twin::Voice::play(self, &setting.book, &setting.store, out).expect("an accepted play")
    }
}

impl Course {
    /// The rate at which a voice is opened.
    pub fn first(&self) -> f32 {
        match *self {
            Course::Around(rate) => rate,
            Course::Between(low, _) => low,
            Course::Fades { to, .. } => to,
        }
    }

    /// The course with the most fades that blocks of a length can have, and the F for
    /// it. Up to 256 outputs two fades fill a block: the first begins with it, beyond
    /// the octave of `rate`, and the second where the glide has come down to `rate`
    /// and the first has ended. A longer block has one fade to the top level and one
    /// to each level on the way down.
    pub fn fades(rate: f32, block: usize) -> (Course, usize) {
        let fade = block.min(MOST_FADE);
        let (from, count) = if block == fade {
            let octave_end = 2f32.powi(rate.log2().floor().max(0.0) as i32 + 1);
            (1.05 * octave_end, fade / 2)
        } else {
            // So that the last one ends inside the block.
            (TOP_RATE, 3 * block / 4)
        };
        let to = rate;
        (Course::Fades { from, to, count }, fade)
    }
}

/// The largest F of a book.
const MOST_FADE: usize = 256;

/// A rate near the end of the top octave.
const TOP_RATE: f32 = 31.5;

/// The `index`th rate around a middle.
fn around(middle: f32, index: usize) -> f32 {
    const STEPS: [f32; 8] = [0.0, 0.5, 1.0, 0.25, -0.5, -1.0, -0.25, 0.75];
    middle * (1.0 + SPREAD * STEPS[index % STEPS.len()])
}

impl Drive {
    /// The order before block `index`.
    fn order(&self, index: usize) -> Order {
        match self.course {
            Course::Around(middle) if self.block <= RATE_BLOCK => {
                Order::Jump(around(middle, index))
            }
            Course::Around(middle) => Order::Glide(around(middle, index + 1), self.block as u32),
            Course::Between(low, high) => {
                let blocks = (CROSSING / self.block).max(1);
                let target = [high, low][index / blocks % 2];
                let count = (blocks * self.block) as u32;
                match index % blocks {
                    0 => Order::Glide(target, count),
                    _ => Order::None,
                }
            }
            Course::Fades { from, to, count } => Order::JumpAndGlide(from, to, count as u32),
        }
    }

    /// One block with its order.
    fn block(
        &self,
        index: usize,
        player: &mut impl Player,
        setting: &Setting,
        out: &mut [i16],
    ) -> u64 {
        match self.order(index) {
            Order::None => (),
            Order::Jump(rate) => player.jump(rate),
            Order::Glide(rate, count) => player.glide(rate, count),
            Order::JumpAndGlide(from, to, count) => {
                player.jump(from);
                player.glide(to, count);
            }
        }
        player.play(setting, out)
    }

    /// Plays the drive; gives a sum of outputs, which keeps the work from being
    /// left out.
    pub fn play(&self, player: &mut impl Player, setting: &Setting, out: &mut [i16]) -> i64 {
        let out = &mut out[..self.block];
        let mut sum = 0;
        for index in 0..self.outputs / self.block {
            self.block(index, player, setting, out);
            sum += i64::from(out[0]) + i64::from(out[self.block - 1]);
        }
        sum
    }

    /// Plays a drive around one rate by another resampler, whose rate moves by
    /// a call for each [`RATE_BLOCK`] outputs.
    pub fn resample(&self, other: &mut Resampler, setting: &Setting, out: &mut [f32]) -> f32 {
        let Course::Around(middle) = self.course else {
            return 0.0;
        };
        let out = &mut out[..RATE_BLOCK];
        let mut sum = 0.0;
        let mut at = 0;
        for index in 0..self.outputs / RATE_BLOCK {
            let rate = f64::from(around(middle, index));
            at += other
                .play(rate, &setting.floats[at..], out)
                .expect("the resampler fills its outputs");
            sum += out[0];
        }
        sum
    }

    /// How many of the drive's outputs stand at an end of the 16 bits.
    pub fn limited(&self, setting: &Setting) -> usize {
        let mut player = self.player();
        let mut out = vec![0; self.block];
        let mut count = 0;
        for index in 0..self.outputs / self.block {
            self.block(index, &mut player, setting, &mut out);
            count += out
                .iter()
                .filter(|x| [i16::MIN, i16::MAX].contains(x))
                .count();
        }
        count
    }

    /// The share of the drive's points that lie inside a fade: those that cost two
    /// values, by the multiply counts.
    pub fn fade_share(&self, setting: &Setting) -> f64 {
        let mut player = self.player();
        let mut out = vec![0; self.block];
        let blocks = self.outputs / self.block;
        let multiplies: u64 = (0..blocks)
            .map(|index| self.block(index, &mut player, setting, &mut out))
            .sum();
        let (taps, decimation) = (setting.book[0] as u64, setting.book[3] as u64);
        let outputs = (blocks * self.block) as u64;
        let values = (multiplies - outputs * (2 * decimation + 1)) / (2 * taps);
        (values - 2 * outputs) as f64 / (2 * outputs) as f64
    }

    /// A fresh voice of the proved player.
    pub fn player(&self) -> tone::Voice {
        tone::Voice::open(self.course.first(), TOP).expect("an accepted rate")
    }

    /// A fresh voice of the twin.
    pub fn twin(&self) -> twin::Voice {
        let (number, voice) = twin::Voice::open(self.course.first(), TOP);
        assert_eq!(number, 0);
        voice
    }

    /// Panics where player and twin differ in an output or a voice word.
    pub fn compare(&self, setting: &Setting) {
        let (mut player, mut twin) = (self.player(), self.twin());
        let (mut out, mut twin_out) = (vec![0; self.block], vec![0; self.block]);
        for index in 0..self.outputs / self.block {
            self.block(index, &mut player, setting, &mut out);
            self.block(index, &mut twin, setting, &mut twin_out);
            assert_eq!(out, twin_out, "outputs of block {index} of {self:?}");
            assert_eq!(
                player.words(),
                &twin.words(),
                "voice after block {index} of {self:?}"
            );
        }
    }
}
