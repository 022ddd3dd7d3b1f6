//! What became of each line of a drive.

use std::fmt;

use tone::Refusal;

use crate::drive::Line;
use crate::fades::Fade;
use crate::totals::Totals;

/// The lines that a sheet lists. A longer list serves nobody on paper.
pub const MOST_ROWS: usize = 2000;

/// What became of a line.
pub enum Outcome {
    /// An accepted play.
    Played(Play),
    /// Any other accepted call.
    Accepted,
    /// No call was made.
    Refused(Reason),
}

/// An accepted play.
pub struct Play {
    /// Counted from 1 among the accepted ones.
    pub number: u64,
    /// Its outputs, fades and multiplies.
    pub totals: Totals,
    /// The current level at its end.
    pub level: i32,
    /// The fades that began in it. They are few, since one glide at most runs in a
    /// play, and it goes one way.
    pub fades: Vec<Fade>,
}

/// The line that is printed for it.
impl fmt::Display for Play {
    fn fmt(&self, f: &mut fmt::Formatter<'_>) -> fmt::Result {
        let Totals {
            outputs,
            multiplies,
            ..
        } = self.totals;
        write!(f, "{} {outputs} {multiplies} {}", self.number, self.level)
    }
}

/// Why a line was refused.
pub enum Reason {
    /// It is no call; what is wrong with its form.
    Form(String),
    /// The player refused the call.
    Call(Refusal),
}

impl fmt::Display for Reason {
    fn fmt(&self, f: &mut fmt::Formatter<'_>) -> fmt::Result {
        match self {
            Reason::Form(fault) => write!(f, "{fault}"),
            Reason::Call(refusal) => write!(f, "{refusal}"),
        }
    }
}

/// The lines of a drive: the first ones whole, and how many there are.
#[derive(Default)]
pub struct Calls<'a> {
    /// Up to [`MOST_ROWS`] lines.
    pub rows: Vec<(Line<'a>, Outcome)>,
    /// Of all lines.
    pub all: Counts,
    /// Of the lines after the rows.
    pub more: Counts,
}

/// How many lines there are.
#[derive(Clone, Copy, Debug, Default, PartialEq, Eq)]
pub struct Counts {
    /// Whatever became of them.
    pub lines: u64,
    /// Accepted plays.
    pub plays: u64,
    /// Refused.
    pub refused: u64,
}

impl Counts {
    fn add(&mut self, outcome: &Outcome) {
        self.lines += 1;
        match outcome {
            Outcome::Played(_) => self.plays += 1,
            Outcome::Refused(_) => self.refused += 1,
            Outcome::Accepted => {}
        }
    }
}

impl<'a> Calls<'a> {
    /// The next line.
    pub fn add(&mut self, line: Line<'a>, outcome: Outcome) {
        self.all.add(&outcome);
        match self.rows.len() {
            MOST_ROWS => self.more.add(&outcome),
            _ => self.rows.push((line, outcome)),
        }
    }
}

#[cfg(test)]
mod tests {
    use super::*;

    #[test]
    fn rows_up_to_the_limit() {
        let mut calls = Calls::default();
        let line = |number| Line { number, text: "x" };
        let refused = || Outcome::Refused(Reason::Form(String::new()));
        (1..=MOST_ROWS).for_each(|number| calls.add(line(number), Outcome::Accepted));
        assert_eq!((calls.rows.len(), calls.more.lines), (MOST_ROWS, 0));
        calls.add(line(MOST_ROWS + 1), refused());
        calls.add(line(MOST_ROWS + 2), Outcome::Accepted);
        assert_eq!(calls.rows.len(), MOST_ROWS);
        assert_eq!((calls.more.lines, calls.more.refused), (2, 1));
        assert_eq!(calls.all.lines, MOST_ROWS as u64 + 2);
        assert_eq!((calls.all.plays, calls.all.refused), (0, 1));
    }
}
