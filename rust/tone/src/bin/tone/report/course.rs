//! What a drive did over time: enough to draw it, and nothing for each output.

use crate::fades::{Fade, OUTPUT_POINTS};
use crate::player::Part;
use crate::totals::Totals;

/// The most slices of time whose multiplies are kept.
const MOST_SLICES: u64 = 300;

/// A drive's course so far.
pub struct Course {
    /// The level at its opening.
    pub opening: i32,
    /// All of it.
    pub totals: Totals,
    /// Its fades in their order, counted in points from the drive's beginning.
    pub fades: Vec<Fade>,
    /// Slices of time, one after another.
    pub slices: Vec<Totals>,
    /// Where it was sought: outputs before that.
    pub seeks: Vec<u64>,
    /// Where lines were refused: outputs before that.
    pub refusals: Vec<u64>,
    slice_outputs: u64,
}

impl Course {
    /// Before the first call, at the opening level. What outputs are to come sets
    /// the length of a slice.
    pub fn new(opening: i32, outputs: u64) -> Course {
        Course {
            opening,
            totals: Totals::default(),
            fades: Vec::new(),
            slices: Vec::new(),
            seeks: Vec::new(),
            refusals: Vec::new(),
            slice_outputs: outputs.div_ceil(MOST_SLICES).max(1),
        }
    }

    /// The least outputs of a slice, but for the last one. A slice ends with a part
    /// of a play, so it may have more.
    pub fn slice_outputs(&self) -> usize {
        usize::try_from(self.slice_outputs).unwrap_or(usize::MAX)
    }

    /// All points so far.
    pub fn points(&self) -> u64 {
        OUTPUT_POINTS * self.totals.outputs
    }

    /// Adds a part of a play.
    pub fn add(&mut self, part: &Part) {
        let before = self.points();
        self.fades.extend(part.fade.map(|fade| fade.after(before)));
        self.totals.add(part);
        let open = |slice: &&mut Totals| slice.outputs < self.slice_outputs;
        match self.slices.last_mut().filter(open) {
            Some(slice) => slice.add(part),
            None => {
                let mut slice = Totals::default();
                slice.add(part);
                self.slices.push(slice);
            }
        }
    }

    /// The next output is sought.
    pub fn mark_seek(&mut self) {
        mark(&mut self.seeks, self.totals.outputs);
    }

    /// A line was refused here.
    pub fn mark_refused(&mut self) {
        mark(&mut self.refusals, self.totals.outputs);
    }
}

/// Marks that stand in one place are one.
fn mark(marks: &mut Vec<u64>, outputs: u64) {
    if marks.last() != Some(&outputs) {
        marks.push(outputs);
    }
}

#[cfg(test)]
mod tests {
    use super::*;

    fn part(outputs: usize, fade: Option<Fade>) -> Part {
        Part {
            outputs,
            multiplies: 9 * outputs as u64,
            fade,
        }
    }

    fn fade(begin: u64) -> Fade {
        let (old, new) = (0, 1);
        Fade { begin, old, new }
    }

    #[test]
    fn fades_are_counted_from_the_beginning() {
        let mut course = Course::new(0, 20);
        course.add(&part(7, None));
        course.add(&part(5, Some(fade(3))));
        assert_eq!(course.fades, [fade(17)]);
        assert_eq!((course.totals.outputs, course.points()), (12, 24));
    }

    #[test]
    fn slices_are_few_and_lose_nothing() {
        for (outputs, step) in [(1, 1), (299, 1), (301, 2), (100_000, 128), (100_000, 1)] {
            let mut course = Course::new(0, outputs as u64);
            let step = step.min(course.slice_outputs());
            let parts = vec![0; outputs];
            parts
                .chunks(step)
                .for_each(|chunk| course.add(&part(chunk.len(), None)));
            assert!(course.slices.len() as u64 <= MOST_SLICES);
            let sum = |of: fn(&Totals) -> u64| course.slices.iter().map(of).sum::<u64>();
            assert_eq!(sum(|slice| slice.outputs), outputs as u64);
            assert_eq!(sum(|slice| slice.multiplies), course.totals.multiplies);
        }
    }

    #[test]
    fn marks_in_one_place_are_one() {
        let mut course = Course::new(0, 3);
        course.mark_seek();
        course.mark_seek();
        course.mark_refused();
        course.add(&part(3, None));
        course.mark_seek();
        assert_eq!((course.seeks, course.refusals), (vec![0, 3], vec![0]));
    }
}
