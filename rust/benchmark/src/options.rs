//! What is asked for on the command line.

use crate::setting::Sizes;

/// How the command is called.
pub const USAGE: &str =
    "usage: benchmark [--quick] [--markdown] [--grid | [--taps N] [--phases M]]";

/// Repetitions of a drive, and how many there are with `--quick`.
const ROUNDS: usize = 80;
const QUICK_ROUNDS: usize = 8;

/// What was asked for.
#[derive(Clone, Copy, Debug, PartialEq)]
pub struct Options {
    /// Repetitions of a drive.
    pub rounds: usize,
    /// Tables in Markdown.
    pub markdown: bool,
    /// The grid in place of the tables.
    pub grid: bool,
    /// The tables' N and M; the other sizes as they are.
    pub sizes: Sizes,
}

impl Options {
    /// Of the arguments behind the command's name, or what is wrong with them.
    pub fn of(arguments: impl IntoIterator<Item = String>) -> Result<Options, String> {
        let mut options = Options {
            rounds: ROUNDS,
            markdown: false,
            grid: false,
            sizes: Sizes::default(),
        };
        let mut sized = false;
        let mut arguments = arguments.into_iter();
        while let Some(argument) = arguments.next() {
            match argument.as_str() {
                "--quick" => options.rounds = QUICK_ROUNDS,
                "--markdown" => options.markdown = true,
                "--grid" => options.grid = true,
                "--taps" => options.sizes.taps = size(&argument, arguments.next(), is_taps)?,
                "--phases" => options.sizes.phases = size(&argument, arguments.next(), is_phases)?,
                _ => return Err(format!("{argument}: not an option\n{USAGE}")),
            }
            sized |= ["--taps", "--phases"].contains(&argument.as_str());
        }
        if options.grid && sized {
            return Err(format!("--grid has sizes of its own\n{USAGE}"));
        }
        Ok(options)
    }
}

/// The size behind an option.
fn size(option: &str, text: Option<String>, good: fn(usize) -> bool) -> Result<usize, String> {
    let Some(text) = text else {
        return Err(format!("{option}: a number is missing\n{USAGE}"));
    };
    let size = text.parse().ok().filter(|size| good(*size));
    size.ok_or_else(|| format!("{option} {text}: not a size of a book\n{USAGE}"))
}

fn is_taps(taps: usize) -> bool {
    (2..=24).contains(&taps) && taps.is_multiple_of(2)
}

fn is_phases(phases: usize) -> bool {
    (1..=128).contains(&phases) && phases.is_power_of_two()
}
