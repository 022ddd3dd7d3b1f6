//! The picture of the multiplies per output over time: what fades cost.

use std::fmt;

use super::axis::{frame, level_line, multiples, round_step, Time, LEFT, PICTURE, TIME_HEIGHT};
use super::course::Course;
use super::markup::At;
use crate::totals::Totals;

/// The frame, and in it the highest value and the lowest, whose line is seen apart
/// from the frame.
const TOP: f64 = 20.0;
const HIGHEST: f64 = TOP + 4.0;
const LOWEST: f64 = HIGHEST + 80.0;
const BOTTOM: f64 = LOWEST + 8.0;

/// The most gaps between values at the left.
const VALUE_GAPS: u64 = 4;

/// Values are drawn and named in thousandths.
const THOUSAND: u64 = 1000;

/// The picture of a course with outputs.
pub struct Cost<'a> {
    slices: &'a [Totals],
    time: Time,
    low: u64,
    high: u64,
    step: u64,
}

impl<'a> Cost<'a> {
    /// From `least`, what an output takes without fades, to the most of any slice,
    /// or one more than the least where there were no fades.
    pub fn new(course: &'a Course, least: u64) -> Cost<'a> {
        let slices = &course.slices;
        let low = least * THOUSAND;
        let most = slices.iter().map(thousandths).fold(0.0, f64::max).ceil() as u64;
        let most = if most > low { most } else { low + THOUSAND };
        let step = round_step(most - low, VALUE_GAPS);
        Cost {
            slices,
            time: Time::new(course.totals.outputs),
            low,
            high: low + (most - low).next_multiple_of(step),
            step,
        }
    }

    fn y(&self, thousandths: f64) -> f64 {
        let span = (self.high - self.low) as f64;
        LOWEST - (LOWEST - HIGHEST) * ((thousandths - self.low as f64) / span)
    }

    /// The slices' means as steps.
    fn steps(&self) -> String {
        let mut outputs = 0;
        let step = |slice: &Totals| {
            outputs += slice.outputs;
            let y = At(self.y(thousandths(slice)));
            let x = At(self.time.x_of_output(outputs));
            format!("V{y}H{x}")
        };
        self.slices.iter().map(step).collect()
    }

    fn values(&self) -> impl Iterator<Item = u64> + '_ {
        let above = multiples(0, self.high - self.low, self.step);
        above.map(|above| self.low + above)
    }
}

/// The mean of a slice, in thousandths.
fn thousandths(slice: &Totals) -> f64 {
    slice.mean().unwrap_or(0.0) * THOUSAND as f64
}

/// Thousandths as a decimal without needless zeros.
fn decimal(thousandths: u64) -> String {
    (thousandths as f64 / THOUSAND as f64).to_string()
}

impl fmt::Display for Cost<'_> {
    fn fmt(&self, f: &mut fmt::Formatter<'_>) -> fmt::Result {
        writeln!(
            f,
            "<svg xmlns=\"http://www.w3.org/2000/svg\" viewBox=\"0 0 {PICTURE} {}\" role=\"img\" \
             aria-label=\"Multiplies per output over the outputs\">",
            At(BOTTOM + TIME_HEIGHT)
        )?;
        f.write_str(&frame(TOP, BOTTOM))?;
        writeln!(
            f,
            "<text x=\"{LEFT}\" y=\"12\">multiplies per output</text>"
        )?;
        for value in self.values() {
            f.write_str(&level_line(self.y(value as f64), &decimal(value)))?;
        }
        let steps = self.steps();
        writeln!(
            f,
            "<path class=\"area\" d=\"M{LEFT} {LOWEST}{steps}V{LOWEST}z\"/>"
        )?;
        writeln!(f, "<path class=\"thin\" d=\"M{LEFT} {LOWEST}{steps}\"/>")?;
        f.write_str(&self.time.svg(BOTTOM))?;
        f.write_str("</svg>\n")
    }
}

#[cfg(test)]
mod tests {
    use super::*;
    use crate::player::Part;

    fn course(slices: &[(usize, u64)]) -> Course {
        let outputs: usize = slices.iter().map(|(outputs, _)| outputs).sum();
        let mut course = Course::new(0, outputs as u64);
        for &(outputs, multiplies) in slices {
            course.add(&Part {
                outputs,
                multiplies,
                fade: None,
            });
        }
        course
    }

    #[test]
    fn the_mean_of_each_slice() {
        // 9 an output without fades, and 13 in the second slice
        let course = course(&[(4, 36), (2, 26), (4, 36)]);
        let picture = Cost::new(&course, 9);
        assert_eq!(picture.steps(), "V104H302V24H422V104H662");
        let values: Vec<String> = picture.values().map(decimal).collect();
        assert_eq!(values, ["9", "10", "11", "12", "13"]);
    }

    #[test]
    fn without_fades_it_is_flat() {
        let course = course(&[(10, 90)]);
        let picture = Cost::new(&course, 9);
        assert_eq!(picture.steps(), "V104H662");
        let values: Vec<String> = picture.values().map(decimal).collect();
        assert_eq!(values, ["9", "9.5", "10"].map(String::from)[..].to_vec());
    }

    #[test]
    fn little_above_the_least_still_shows() {
        let course = course(&[(1_000_000, 9_004_000), (1_000_000, 9_000_000)]);
        let picture = Cost::new(&course, 9);
        let values: Vec<String> = picture.values().map(decimal).collect();
        assert_eq!(values, ["9", "9.001", "9.002", "9.003", "9.004"]);
        assert_eq!(picture.steps(), "V24H362V104H662");
    }
}
