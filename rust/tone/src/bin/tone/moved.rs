//! `tone moved`: how far the tone of another recording can lie from the first one's,
//! and how far it does in a drive.

use std::fmt;
use std::path::Path;

use crate::arguments::{MovedRequest, OpenedDrive};
use crate::built_store;
use crate::drive;
use crate::failure::Failure;
use crate::interrupt;
use crate::player::Player;
use crate::progress::Progress;
use crate::say;
use crate::wav;
use crate::words;

/// Two rows of samples, how far they lie apart and where they first do so.
#[derive(Clone, Copy, Debug, Default, PartialEq, Eq)]
struct Apart {
    /// The largest difference of two samples at one place, in 16-bit steps.
    steps: u16,
    /// Its first place, counted from 0.
    place: u64,
    /// Samples of each row.
    count: u64,
}

impl Apart {
    /// Goes on with as many samples of either row.
    fn add(&mut self, old: &[i16], new: &[i16]) {
        for (old, new) in old.iter().zip(new) {
            let steps = old.abs_diff(*new);
            if steps > self.steps {
                (self.steps, self.place) = (steps, self.count);
            }
            self.count += 1;
        }
    }
}

/// 8 x 2^T x D + (126 + 4 x 2^T)/128, in 1/128 of one 16-bit step: no two samples of
/// any drive differ by more.
fn bound(top: u32, difference: u16) -> u64 {
    128 * (8 << top) * u64::from(difference) + 126 + (4 << top)
}

/// All that is said.
struct Moved<'a> {
    /// T
    top: u32,
    recordings: Apart,
    /// DRIVE, and what it plays from both.
    drive: Option<(&'a Path, Apart)>,
}

impl Moved<'_> {
    fn write_recordings(&self, f: &mut fmt::Formatter<'_>) -> fmt::Result {
        let Apart {
            steps,
            place,
            count,
        } = self.recordings;
        match steps {
            0 => writeln!(f, "The recordings are equal, all {count} samples: D = 0."),
            _ => writeln!(
                f,
                "The recordings differ by at most {steps} steps of 16 bits, \
                 first at sample {place} of {count}: D = {steps}."
            ),
        }
    }

    /// The bound has at most seven decimals, and is printed with all that it has.
    fn write_bound(&self, f: &mut fmt::Formatter<'_>) -> fmt::Result {
        let (top, difference) = (self.top, self.recordings.steps);
        if difference == 0 {
            return writeln!(f, "No sample of any drive moves.");
        }
        let parts = bound(top, difference);
        let (steps, whole) = (parts as f64 / 128.0, parts / 128);
        writeln!(
            f,
            "No sample of any drive moves by more than {steps} steps: \
             8 x 2^T x D + (126 + 4 x 2^T)/128 with T = {top}."
        )?;
        match u16::try_from(whole) {
            Ok(_) => writeln!(f, "Samples are whole, so {whole} is the most."),
            Err(_) => writeln!(f, "Samples have 16 bits, so {} is the most.", u16::MAX),
        }
    }
}

impl fmt::Display for Moved<'_> {
    fn fmt(&self, f: &mut fmt::Formatter<'_>) -> fmt::Result {
        self.write_recordings(f)?;
        self.write_bound(f)?;
        let Some((
            path,
            Apart {
                steps,
                place,
                count,
            },
        )) = self.drive
        else {
            return Ok(());
        };
        let path = path.display();
        match steps {
            0 => writeln!(f, "In {path} none of {count} outputs moves."),
            _ => writeln!(
                f,
                "In {path} the most is {steps} steps, first at output {place} of {count}."
            ),
        }
    }
}

/// Says D, the bound, and what a drive has.
pub fn moved(request: &MovedRequest) -> Result<(), Failure> {
    let top = request.top;
    let book = words::read_book(&request.book)?;
    let old = wav::read_file(&request.old)?;
    let new = wav::read_file(&request.new)?;
    if old.len() != new.len() {
        let (first, count) = (request.old.display(), old.len());
        let why = format!("{} samples, and {first} has {count}", new.len());
        return Err(Failure::unusable(request.new.display(), why));
    }
    let mut recordings = Apart::default();
    recordings.add(&old, &new);
    let stores = [
        built_store(&book, &old, top)?,
        built_store(&book, &new, top)?,
    ];
    let drive = match &request.drive {
        None => None,
        Some(drive) => Some((&*drive.path, compare(&book, &stores, request, drive)?)),
    };
    let moved = Moved {
        top,
        recordings,
        drive,
    };
    say(format_args!("{moved}"))
}

/// Plays a drive from both stores, call by call.
fn compare(
    book: &[i32],
    [old, new]: &[Vec<i32>; 2],
    request: &MovedRequest,
    drive: &OpenedDrive,
) -> Result<Apart, Failure> {
    let text = drive::read_file(&drive.path)?;
    let calls = drive::calls(&text, &drive.path)?;
    let mut old = Player::open(book, old, &request.old, drive.rate)?;
    let mut new = Player::open(book, new, &request.new, drive.rate)?;
    let mut tones = Apart::default();
    let mut progress = Progress::new();
    for (done, (line, call)) in calls.iter().enumerate() {
        interrupt::test()?;
        let refused = |refusal| Failure::refused(&line.place(&drive.path), refusal);
        let old = old.perform(*call, |_| ()).map_err(refused)?;
        let new = new.perform(*call, |_| ()).map_err(refused)?;
        tones.add(old, new);
        progress.show(format_args!("{} of {} calls", done + 1, calls.len()));
    }
    Ok(tones)
}
