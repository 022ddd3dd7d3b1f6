//! What a drive came to.

use std::fmt;

use crate::player::Part;

/// Outputs, the fades that began, and the multiplies that all of it took.
#[derive(Clone, Copy, Debug, Default, PartialEq, Eq)]
pub struct Totals {
    /// Outputs of all plays.
    pub outputs: u64,
    /// Fades that began in them.
    pub fades: u64,
    /// The sum of the plays' multiply counts.
    pub multiplies: u64,
}

impl Totals {
    /// Adds a part of a play.
    pub fn add(&mut self, part: &Part) {
        self.outputs += part.outputs as u64;
        self.fades += u64::from(part.fade.is_some());
        self.multiplies += part.multiplies;
    }

    /// What came after `earlier` totals of the same drive.
    pub fn since(&self, earlier: &Totals) -> Totals {
        Totals {
            outputs: self.outputs - earlier.outputs,
            fades: self.fades - earlier.fades,
            multiplies: self.multiplies - earlier.multiplies,
        }
    }

    /// Multiplies per output; none where there is no output to have a mean.
    pub fn mean(&self) -> Option<f64> {
        (self.outputs != 0).then(|| self.multiplies as f64 / self.outputs as f64)
    }
}

/// One line.
impl fmt::Display for Totals {
    fn fmt(&self, f: &mut fmt::Formatter<'_>) -> fmt::Result {
        let Totals {
            outputs,
            fades,
            multiplies,
        } = self;
        write!(
            f,
            "{outputs} outputs, {fades} fades, {multiplies} multiplies"
        )?;
        match self.mean() {
            None => Ok(()),
            Some(mean) => write!(f, ", {mean:.2} per output"),
        }
    }
}

#[cfg(test)]
mod tests {
    use super::*;

    #[test]
    fn the_mean_is_of_all_outputs() {
        let line = |outputs, fades, multiplies| {
            let totals = Totals {
                outputs,
                fades,
                multiplies,
            };
            totals.to_string()
        };
        assert_eq!(line(0, 0, 0), "0 outputs, 0 fades, 0 multiplies");
        assert_eq!(
            line(4, 0, 220),
            "4 outputs, 0 fades, 220 multiplies, 55.00 per output"
        );
        assert_eq!(
            line(3, 1, 200),
            "3 outputs, 1 fades, 200 multiplies, 66.67 per output"
        );
    }
}
