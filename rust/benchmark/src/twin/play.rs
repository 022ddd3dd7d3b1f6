//! Play: its numbers, then blocks of outputs.

use super::book::Book;
use super::control::{Control, Plan, BLOCK, RUN};
use super::halving::{Halves, Taps, SUM_RAISE};
use super::levels::Levels;
use super::pairs::{worth_it, Pairs};
use super::rounding::{near_by, near_unsigned};
use super::values::{Phases, Values};
use super::voice::{asked_level, Voice, POINTS};

impl Voice {
    /// Fills `out` and gives the multiply count, or the first of the numbers 1 to 7,
    /// 9, 8, 9, 18, 13, 19, 14 to 17 and 11.
    pub fn play(&mut self, book: &[i32], store: &[i32], out: &mut [i16]) -> Result<u64, u32> {
        let book = Book::accepted(book)?;
        let levels = Levels::accepted(store)?;
        let number = self.play_number(book.fade, levels.top);
        if number != 0 {
            return Err(number);
        }
        if out.len() > 1_048_576 {
            return Err(11);
        }
        if out.is_empty() {
            return Ok(0);
        }
        let values = match book.taps {
            2 => self.fill(&book, &levels, out, &mut Phases::<2>::of(&book)),
            4 => self.fill(&book, &levels, out, &mut Phases::<4>::of(&book)),
            6 => self.fill(&book, &levels, out, &mut Phases::<6>::of(&book)),
            8 => self.fill(&book, &levels, out, &mut Phases::<8>::of(&book)),
            10 => self.make::<10, 5>(&book, &levels, out),
            12 => self.make::<12, 6>(&book, &levels, out),
            14 => self.make::<14, 7>(&book, &levels, out),
            16 => self.make::<16, 8>(&book, &levels, out),
            18 => self.make::<18, 9>(&book, &levels, out),
            20 => self.make::<20, 10>(&book, &levels, out),
            22 => self.make::<22, 11>(&book, &levels, out),
            _ => self.make::<24, 12>(&book, &levels, out),
        };
        let for_values = values * 2 * book.taps;
        let for_outputs = out.len() * (2 * book.decimation_taps.len() - 1);
        Ok((for_values + for_outputs) as u64)
    }

    /// By the faster way to make values of more than 8 taps, for so many outputs. A fade
    /// makes two values a point.
    fn make<const N: usize, const H: usize>(
        &mut self,
        book: &Book,
        levels: &Levels,
        out: &mut [i16],
    ) -> usize {
        let fades = self.step != 0 || asked_level(self.from, self.rate) != self.from;
        let values = 2 * out.len() * (1 + usize::from(fades));
        if !worth_it(book, values) {
            return self.fill(book, levels, out, &mut Phases::<N>::of(book));
        }
        match book.phase_bits {
            0..=4 => self.make_by_pairs::<N, H, 17>(book, levels, out),
            5..=6 => self.make_by_pairs::<N, H, 65>(book, levels, out),
            _ => self.make_by_pairs::<N, H, 129>(book, levels, out),
        }
    }

    fn make_by_pairs<const N: usize, const H: usize, const ROWS: usize>(
        &mut self,
        book: &Book,
        levels: &Levels,
        out: &mut [i16],
    ) -> usize {
        let mut pairs = Pairs::<N, H, ROWS>::new();
        pairs.fill(book);
        self.fill(book, levels, out, &mut pairs)
    }

    /// Blocks of outputs. Points go into a work array behind the history, in
    /// the order of time, so that it is moved once per block. Gives the count of
    /// level values.
    fn fill(
        &mut self,
        book: &Book,
        levels: &Levels,
        out: &mut [i16],
        maker: &mut impl Values,
    ) -> usize {
        let taps = Taps::of(book.decimation_taps);
        let mut control = Control::of(self, book.fade);
        let mut work = [0; POINTS + RUN];
        for (point, word) in work[..POINTS].iter_mut().zip(self.history.iter().rev()) {
            *point = *word;
        }
        let mut halves = Halves::new();
        let mut values = 0;
        for block in out.chunks_mut(BLOCK) {
            let count = 2 * block.len();
            values += points(
                &mut control,
                maker,
                levels,
                &mut work[POINTS..POINTS + count],
            );
            halves.fill(&work[POINTS + 1 - 2 * taps.reach()..POINTS + count]);
            taps.halve::<_, 8>(&halves, block, output);
            work.copy_within(count..count + POINTS, 0);
        }
        for (word, point) in self.history.iter_mut().zip(work[..POINTS].iter().rev()) {
            *word = *point;
        }
        control.give(self);
        values
    }
}

/// Fills a block with its next points, and gives the count of level values.
fn points(
    control: &mut Control,
    maker: &mut impl Values,
    levels: &Levels,
    points: &mut [i32],
) -> usize {
    control.begin(points.len() / 2);
    let (mut made, mut values) = (0, 0);
    while made < points.len() {
        let (plan, count) = control.run(made, points.len());
        let run = &mut points[made..made + count];
        let positions = control.positions(made, count);
        match plan {
            Plan::Steady(level) => {
                maker.values(levels.level(level), level, positions, run);
                values += count;
            }
            Plan::Fade(old, new, step) => {
                let mut other = [0; RUN];
                let other = &mut other[..count];
                maker.values(levels.level(old), old, positions, run);
                maker.values(levels.level(new), new, positions, other);
                mix(run, other, step, control.fade());
                values += 2 * count;
            }
        }
        made += count;
    }
    values
}

/// Old values become near(((F - i) × old + i × new) / F), i from `step` on.
fn mix(old: &mut [i32], new: &[i32], step: u32, fade: u32) {
    let fade = i64::from(fade);
    for ((old, new), i) in old.iter_mut().zip(new).zip(i64::from(step)..) {
        let sum = (fade - i) * i64::from(*old) + i * i64::from(*new);
        *old = near_by(sum, fade) as i32;
    }
}

/// An output from its raised sum: near(sum / 2^22), limited.
fn output(sum: u64) -> i16 {
    let near = near_unsigned(sum, 22) as i32 - (SUM_RAISE >> 22) as i32;
    near.clamp(-32768, 32767) as i16
}
