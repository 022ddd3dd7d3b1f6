//! The axes of a sheet's pictures. Lengths are in pixels of the screen, of which
//! A4 paper has some 700 between its margins.

use super::markup::{grouped, At};
use crate::fades::OUTPUT_POINTS;

/// A picture's width.
pub const PICTURE: f64 = 696.0;
/// The frame's left edge.
pub const LEFT: f64 = 62.0;
/// The frame's right edge.
pub const RIGHT: f64 = LEFT + COLUMNS;
/// The frame's width: columns of one pixel.
pub const COLUMNS: f64 = 600.0;

/// The most gaps between ticks of the time axis.
const TIME_GAPS: u64 = 6;
/// The height of ticks, numbers and name under the frame.
pub const TIME_HEIGHT: f64 = 32.0;

/// The smallest of 1, 2, 5, 10, 20, 50 and so on that fits into a span at most
/// `most` times.
pub fn round_step(span: u64, most: u64) -> u64 {
    let decade =
        |power: u32| [1, 2, 5].map(|digit| 10u64.saturating_pow(power).saturating_mul(digit));
    (0..20)
        .flat_map(decade)
        .find(|step| span / step <= most)
        .unwrap_or(u64::MAX)
}

/// The multiples of a step from one value to another.
pub fn multiples(from: u64, to: u64, step: u64) -> impl Iterator<Item = u64> {
    (from.div_ceil(step)..=to / step).map(move |count| count * step)
}

/// The time axis: outputs, from none to all of a drive. There is at least one.
pub struct Time {
    outputs: u64,
}

impl Time {
    /// Of a drive with outputs.
    pub fn new(outputs: u64) -> Time {
        Time { outputs }
    }

    /// Where a point begins.
    pub fn x(&self, point: u64) -> f64 {
        let points = OUTPUT_POINTS * self.outputs;
        LEFT + COLUMNS * (point as f64 / points as f64)
    }

    /// Where an output begins.
    pub fn x_of_output(&self, output: u64) -> f64 {
        self.x(OUTPUT_POINTS * output)
    }

    /// The column of a point. What falls into one column is drawn as one.
    pub fn column(&self, point: u64) -> u64 {
        (self.x(point) - LEFT) as u64
    }

    /// Ticks, numbers and name under a frame.
    pub fn svg(&self, bottom: f64) -> String {
        let step = round_step(self.outputs, TIME_GAPS);
        let ticks = multiples(0, self.outputs, step).map(|output| self.tick(output, bottom));
        let (x, y) = (At(LEFT + COLUMNS / 2.0), At(bottom + 29.0));
        let name = format!("<text x=\"{x}\" y=\"{y}\" class=\"middle\">outputs</text>\n");
        ticks.chain([name]).collect()
    }

    fn tick(&self, output: u64, bottom: f64) -> String {
        let (x, y) = (At(self.x_of_output(output)), At(bottom));
        let (baseline, number) = (At(bottom + 15.0), grouped(output));
        format!(
            "<path class=\"tick\" d=\"M{x} {y}v4\"/>\
             <text x=\"{x}\" y=\"{baseline}\" class=\"middle\">{number}</text>\n"
        )
    }
}

/// A frame between two heights.
pub fn frame(top: f64, bottom: f64) -> String {
    let (height, y) = (At(bottom - top), At(top));
    format!(
        "<rect class=\"frame\" x=\"{LEFT}\" y=\"{y}\" width=\"{COLUMNS}\" height=\"{height}\"/>\n"
    )
}

/// A line across the frame, with its value at the left.
pub fn level_line(y: f64, value: &str) -> String {
    let (x, baseline, y) = (At(LEFT - 6.0), At(y + 3.5), At(y));
    format!(
        "<path class=\"grid\" d=\"M{LEFT} {y}h{COLUMNS}\"/>\
         <text x=\"{x}\" y=\"{baseline}\" class=\"end\">{value}</text>\n"
    )
}

#[cfg(test)]
mod tests {
    use super::*;

    fn ticks(outputs: u64) -> Vec<u64> {
        multiples(0, outputs, round_step(outputs, TIME_GAPS)).collect()
    }

    #[test]
    fn ticks_are_round_and_few() {
        assert_eq!(ticks(1), [0, 1]);
        assert_eq!(ticks(6), [0, 1, 2, 3, 4, 5, 6]);
        assert_eq!(ticks(7), [0, 2, 4, 6]);
        assert_eq!(ticks(100_000), [0, 20_000, 40_000, 60_000, 80_000, 100_000]);
        let long = [
            0,
            20_000_000,
            40_000_000,
            60_000_000,
            80_000_000,
            100_000_000,
        ];
        assert_eq!(ticks(100_000_001), long);
        for outputs in 1..5000 {
            let count = ticks(outputs).len();
            assert!((2..=7).contains(&count), "{outputs}: {count}");
        }
        assert!(ticks(u64::MAX).len() <= 7);
    }

    #[test]
    fn steps_from_another_value_than_nothing() {
        let step = round_step(4915, 4);
        assert_eq!(step, 1000);
        let values: Vec<u64> = multiples(89_000, 93_915, step).collect();
        assert_eq!(values, [89_000, 90_000, 91_000, 92_000, 93_000]);
    }

    #[test]
    fn the_frame_holds_all_outputs() {
        let time = Time::new(3);
        assert_eq!(time.x(0), LEFT);
        assert_eq!(time.x(6), RIGHT);
        assert_eq!(time.x_of_output(1), LEFT + 200.0);
        assert_eq!(time.x(3), LEFT + 300.0);
        assert_eq!((time.column(0), time.column(5)), (0, 500));
        let long = Time::new(100_000_000);
        assert_eq!(long.x(200_000_000), RIGHT);
        assert_eq!(long.column(199_999_999), 599);
    }
}
