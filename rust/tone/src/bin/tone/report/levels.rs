//! The picture of the current level over time, with the fades between levels. It
//! has at most a step and a band for each column, however long the drive is.

use std::fmt;

use super::axis::{frame, level_line, Time, LEFT, PICTURE, RIGHT, TIME_HEIGHT};
use super::course::Course;
use super::legend::{legend, LEGEND_HEIGHT};
use super::marks::{joined, lane, Mark, Shape};
use super::markup::{At, Outputs};
use crate::fades::Fade;

/// Heights of the lanes' middles, and of the frame under them.
const REFUSED_LANE: f64 = 8.0;
const SEEK_LANE: f64 = 22.0;
const FADE_LANE: f64 = 46.0;
const TOP: f64 = 56.0;

/// Between two levels, and from the outer ones to the frame.
const LEVEL_HEIGHT: f64 = 32.0;
const MARGIN: f64 = 14.0;

/// The least width of a fade that is drawn: it shows beside the level's line.
const LEAST_BAND: f64 = 4.0;

/// With more fades than this, bands and line are thin, so that they stay apart.
const MOST_THICK: usize = 100;
const LEAST_THIN_BAND: f64 = 1.5;

/// The picture of a course with outputs.
pub struct Levels<'a> {
    course: &'a Course,
    top: i32,
    fade_points: u64,
    time: Time,
}

impl<'a> Levels<'a> {
    /// For a top level T, and F points of a fade.
    pub fn new(course: &'a Course, top: i32, fade_points: u64) -> Levels<'a> {
        Levels {
            course,
            top,
            fade_points,
            time: Time::new(course.totals.outputs),
        }
    }

    fn y(&self, level: i32) -> f64 {
        TOP + MARGIN + LEVEL_HEIGHT * f64::from(self.top - level)
    }

    fn bottom(&self) -> f64 {
        self.y(0) + MARGIN
    }

    fn is_dense(&self) -> bool {
        self.course.fades.len() > MOST_THICK
    }

    /// The point after a fade's last, whether the drive goes on to there or not.
    fn end(&self, fade: &Fade) -> u64 {
        fade.begin + self.fade_points
    }

    /// The current level as steps: it changes where a fade ends.
    fn steps(&self) -> String {
        let fades = &self.course.fades;
        let ended = fades.partition_point(|fade| self.end(fade) <= self.course.points());
        let column = |fade: &Fade| self.time.column(self.end(fade));
        let columns = fades[..ended].chunk_by(|one, next| column(one) == column(next));
        let mut path = format!("M{LEFT} {}", At(self.y(self.course.opening)));
        path.extend(columns.map(|fades| self.step(fades)));
        path + &format!("H{RIGHT}")
    }

    /// Along to where these fades of one column end, through all levels that they
    /// lead to, and to the last.
    fn step(&self, fades: &[Fade]) -> String {
        let mut step = format!("H{}", At(self.time.x(self.end(&fades[0]))));
        let (low, high) = span(fades);
        let last = fades[fades.len() - 1].new;
        let stops = if fades.len() == 1 {
            vec![last]
        } else {
            vec![low, high, last]
        };
        step.extend(stops.iter().map(|level| format!("V{}", At(self.y(*level)))));
        step
    }

    /// The fades, hatched from the old level to the new one, from their beginnings
    /// to their ends or the drive's. One that is too short to be seen is drawn longer,
    /// from its end back.
    fn bands(&self) -> String {
        let column = |fade: &Fade| self.time.column(fade.begin);
        let columns = (self.course.fades).chunk_by(|one, next| column(one) == column(next));
        columns.map(|fades| self.band(fades)).collect()
    }

    fn band(&self, fades: &[Fade]) -> String {
        let (first, last) = (&fades[0], &fades[fades.len() - 1]);
        let end = self.end(last).min(self.course.points());
        let least = if self.is_dense() {
            LEAST_THIN_BAND
        } else {
            LEAST_BAND
        };
        let right = self.time.x(end).max(LEFT + least);
        let width = (right - self.time.x(first.begin)).max(least);
        let (low, high) = span(fades);
        let what = match fades {
            [Fade { old, new, .. }] => format!("fade from level {old} to level {new}"),
            _ => format!("{} fades", fades.len()),
        };
        format!(
            "<rect class=\"band\" fill=\"url(#hatch)\" x=\"{}\" y=\"{}\" width=\"{}\" \
             height=\"{}\"><title>{what}, outputs {} to {}</title></rect>\n",
            At(right - width),
            At(self.y(high)),
            At(width),
            At(self.y(low) - self.y(high)),
            Outputs(first.begin),
            Outputs(end)
        )
    }

    fn lanes(&self) -> String {
        let fades = joined(self.course.fades.iter().map(|fade| self.fade_mark(fade)));
        lane(
            "refused",
            REFUSED_LANE,
            &self.plain_marks(&self.course.refusals, Shape::Refused),
        ) + &lane(
            "seeks",
            SEEK_LANE,
            &self.plain_marks(&self.course.seeks, Shape::Seek),
        ) + &lane("fades", FADE_LANE, &fades)
    }

    /// Marks of one shape before these outputs.
    fn plain_marks(&self, outputs: &[u64], shape: Shape) -> Vec<Mark> {
        let mark = |output: &u64| Mark {
            x: self.time.x_of_output(*output),
            shape,
            label: None,
        };
        joined(outputs.iter().map(mark))
    }

    fn fade_mark(&self, fade: &Fade) -> Mark {
        let Fade { begin, old, new } = fade;
        Mark {
            x: self.time.x(*begin),
            shape: if new > old { Shape::Up } else { Shape::Down },
            label: Some(format!("{old}\u{2192}{new}")),
        }
    }
}

/// The lowest and the highest level of some fades.
fn span(fades: &[Fade]) -> (i32, i32) {
    let low = |fade: &Fade| fade.old.min(fade.new);
    let high = |fade: &Fade| fade.old.max(fade.new);
    let lowest = fades.iter().map(low).min();
    let highest = fades.iter().map(high).max();
    (lowest.unwrap_or(0), highest.unwrap_or(0))
}

impl fmt::Display for Levels<'_> {
    fn fmt(&self, f: &mut fmt::Formatter<'_>) -> fmt::Result {
        let bottom = self.bottom();
        let legend_top = bottom + TIME_HEIGHT + 4.0;
        let height = legend_top + LEGEND_HEIGHT;
        let middle = At((TOP + bottom) / 2.0);
        writeln!(
            f,
            "<svg xmlns=\"http://www.w3.org/2000/svg\" viewBox=\"0 0 {PICTURE} {}\" role=\"img\" \
             aria-label=\"The current level over the outputs, and the fades\">\n\
             <defs><pattern id=\"hatch\" width=\"4\" height=\"4\" patternUnits=\"userSpaceOnUse\" \
             patternTransform=\"rotate(45)\"><path class=\"hatch\" d=\"M1 0v4\"/></pattern></defs>",
            At(height)
        )?;
        f.write_str(&frame(TOP, bottom))?;
        writeln!(
            f,
            "<text class=\"middle\" transform=\"translate(14 {middle}) rotate(-90)\">level</text>"
        )?;
        for level in 0..=self.top {
            f.write_str(&level_line(self.y(level), &level.to_string()))?;
        }
        f.write_str(&self.bands())?;
        let dense = if self.is_dense() { " dense" } else { "" };
        writeln!(f, "<path class=\"line{dense}\" d=\"{}\"/>", self.steps())?;
        f.write_str(&self.lanes())?;
        f.write_str(&self.time.svg(bottom))?;
        f.write_str(&legend(legend_top))?;
        f.write_str("</svg>\n")
    }
}

#[cfg(test)]
mod tests {
    use super::*;
    use crate::player::Part;

    /// A course of outputs whose fades begin at these points.
    fn course(outputs: usize, fades: &[(u64, i32, i32)]) -> Course {
        let opening = fades.first().map_or(0, |(_, old, _)| *old);
        let mut course = Course::new(opening, outputs as u64);
        course.add(&Part {
            outputs,
            multiplies: 9 * outputs as u64,
            fade: None,
        });
        let fade = |&(begin, old, new)| Fade { begin, old, new };
        course.fades = fades.iter().map(fade).collect();
        course
    }

    /// 100 outputs are 200 points, so that a point is three columns wide.
    const SHORT: usize = 100;

    fn count(text: &str, part: &str) -> usize {
        text.matches(part).count()
    }

    #[test]
    fn the_level_steps_where_a_fade_ends() {
        let course = course(SHORT, &[(10, 0, 2), (100, 2, 1)]);
        let picture = Levels::new(&course, 2, 20);
        // from the first point on at level 0, up two levels at point 30, down at 120
        assert_eq!(picture.steps(), "M62 134H152V70H422V102H662");
        let bands = picture.bands();
        assert!(
            bands.contains("x=\"92\" y=\"70\" width=\"60\" height=\"64\""),
            "{bands}"
        );
        assert!(
            bands.contains("fade from level 0 to level 2, outputs 5 to 15<"),
            "{bands}"
        );
        assert!(
            bands.contains("x=\"362\" y=\"70\" width=\"60\" height=\"32\""),
            "{bands}"
        );
    }

    #[test]
    fn fades_back_to_back_and_one_that_the_drive_cuts() {
        let course = course(SHORT, &[(0, 0, 1), (21, 1, 0), (190, 0, 1)]);
        let picture = Levels::new(&course, 1, 21);
        assert_eq!(picture.steps(), "M62 102H125V70H188V102H662");
        let bands = picture.bands();
        assert!(bands.contains("outputs 0 to 10.5<") && bands.contains("outputs 10.5 to 21<"));
        // to the edge, and not beyond it
        assert!(bands.contains("x=\"632\" y=\"70\" width=\"30\""), "{bands}");
        assert!(bands.contains("outputs 95 to 100<"), "{bands}");
    }

    #[test]
    fn a_short_fade_at_the_very_end_stays_inside() {
        let course = course(1_000_000, &[(1_999_998, 0, 1)]);
        let bands = Levels::new(&course, 1, 64).bands();
        assert!(bands.contains("x=\"658\" y=\"70\" width=\"4\""), "{bands}");
        assert!(bands.contains("outputs 999999 to 1000000<"), "{bands}");
    }

    #[test]
    fn what_falls_into_one_column_is_one() {
        let course = course(1_000_000, &[(400, 0, 1), (800, 1, 3), (1200, 3, 2)]);
        let picture = Levels::new(&course, 3, 64);
        assert_eq!(picture.steps(), "M62 166H62.14V166V70V102H662");
        let bands = picture.bands();
        assert_eq!(count(&bands, "<rect"), 1);
        assert!(bands.contains("3 fades, outputs 200 to 632<"), "{bands}");
        assert!(
            bands.contains("height=\"96\""),
            "from level 0 to level 3: {bands}"
        );
    }

    #[test]
    fn the_picture_of_a_long_drive_is_small() {
        let fades: Vec<(u64, i32, i32)> = (0..100_000)
            .map(|at| (2000 * at, (at % 2) as i32, (1 - at % 2) as i32))
            .collect();
        let course = course(100_000_000, &fades);
        let text = Levels::new(&course, 4, 64).to_string();
        assert!(count(&text, "<") < 3500, "{}", count(&text, "<"));
        assert!(text.len() < 150_000, "{}", text.len());
    }

    #[test]
    fn one_level_and_one_output() {
        let text = Levels::new(&course(1, &[]), 0, 64).to_string();
        assert!(text.contains("M62 70H662"), "{text}");
        assert!(!text.contains("NaN") && !text.contains("inf"), "{text}");
        assert_eq!(count(&text, "class=\"grid\""), 1);
    }
}
