//! `tone report`: the plays of a drive as text, and a sheet about them to print.

mod axis;
mod calls;
mod cost;
mod course;
mod legend;
mod levels;
mod marks;
mod markup;
mod sheet;

use std::io::Write;

use crate::arguments::ReportRequest;
use crate::drive::{self, Call, Line};
use crate::failure::Failure;
use crate::interrupt;
use crate::output::Output;
use crate::player::Player;
use crate::say;
use crate::words;
use calls::{Calls, Outcome, Play, Reason};
use course::Course;
use sheet::Sheet;

/// A drive on its way.
struct Trial<'a> {
    player: Player<'a>,
    course: Course,
    plays: u64,
}

impl<'a> Trial<'a> {
    /// Before the first line of a drive.
    fn new(mut player: Player<'a>, text: &str) -> Trial<'a> {
        let calls = drive::lines(text).filter_map(|line| line.call().ok());
        let course = Course::new(player.level(), drive::outputs(calls));
        player.shorten_parts(course.slice_outputs());
        let plays = 0;
        Trial {
            player,
            course,
            plays,
        }
    }

    /// Makes a line's call, or passes the line over where that is refused.
    fn take(&mut self, line: &Line<'_>) -> Outcome {
        let outcome = match line.call() {
            Ok(call) => self.perform(call),
            Err(fault) => Outcome::Refused(Reason::Form(fault)),
        };
        if let Outcome::Refused(_) = outcome {
            self.course.mark_refused();
        }
        outcome
    }

    fn perform(&mut self, call: Call) -> Outcome {
        let (totals, fades) = (self.course.totals, self.course.fades.len());
        let played = self.player.perform(call, |part| self.course.add(&part));
        if let Err(refusal) = played {
            return Outcome::Refused(Reason::Call(refusal));
        }
        match call {
            Call::Jump(_) | Call::Glide(..) => Outcome::Accepted,
            Call::Seek(_) => {
                self.course.mark_seek();
                Outcome::Accepted
            }
            Call::Play(_) => {
                self.plays += 1;
                Outcome::Played(Play {
                    number: self.plays,
                    totals: self.course.totals.since(&totals),
                    level: self.player.level(),
                    fades: self.course.fades[fades..].to_vec(),
                })
            }
        }
    }
}

/// Plays the drive and reports on it. The sheet gets its name before the last line
/// is printed, which so says that all is done.
pub fn report(request: &ReportRequest) -> Result<(), Failure> {
    let setting = &request.setting;
    let book = words::read_book(&setting.book)?;
    let store = words::read_store(&setting.store)?;
    let text = drive::read_file(&setting.drive)?;
    let player = Player::open(&book, &store, &setting.store, setting.rate)?;
    let html = request.html.as_ref();
    let output = html.map(|path| Output::create(path, &setting.inputs()));
    let output = output.transpose()?;
    let mut trial = Trial::new(player, &text);
    let mut calls = Calls::default();
    for line in drive::lines(&text) {
        interrupt::test()?;
        let outcome = trial.take(&line);
        tell(&outcome, &line.place(&setting.drive))?;
        calls.add(line, outcome);
    }
    let course = &trial.course;
    if let Some(mut output) = output {
        let sheet = Sheet {
            setting,
            book: &book,
            store: &store,
            course,
            calls: &calls,
        };
        output.write_with(|file| write!(file, "{sheet}"))?;
        output.finish()?;
    }
    let (outputs, multiplies) = (course.totals.outputs, course.totals.multiplies);
    say(format_args!("total {outputs} {multiplies}\n"))
}

/// Prints what became of a line.
fn tell(outcome: &Outcome, place: &str) -> Result<(), Failure> {
    match outcome {
        Outcome::Accepted => Ok(()),
        Outcome::Played(play) => say(format_args!("{play}\n")),
        Outcome::Refused(reason) => {
            say(format_args!("refused\n"))?;
            let failure = Failure::unusable(place, reason);
            // Where standard error is closed the line above still says it.
            let _ = writeln!(std::io::stderr(), "{failure}");
            Ok(())
        }
    }
}
