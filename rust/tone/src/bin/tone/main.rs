//! The command `tone`, for studios and fitters: tests filter books, builds the
//! octave levels of recordings, plays drives into WAV files, reports on drives, says
//! how far another recording moves the tone, and makes the test hum. Every call is
//! the library's, and a refusal is shown with its number.
//!
//! ```text
//! tone check BOOK
//! tone build BOOK RECORDING.wav T STORE
//! tone play BOOK STORE RATE DRIVE OUT.wav
//! tone report BOOK STORE RATE DRIVE [--html OUT.html]
//! tone moved BOOK OLD.wav NEW.wav T [RATE DRIVE]
//! tone hum COUNT OUT.wav
//! ```
//!
//! [`arguments::HELP`] is what `tone --help` prints: the forms of all files and
//! the exit statuses.

#![deny(unsafe_code)]
#![warn(missing_docs)]

mod arguments;
mod drive;
mod fades;
mod failure;
#[allow(unsafe_code)]
mod interrupt;
mod moved;
mod output;
mod player;
mod progress;
mod report;
mod totals;
mod wav;
mod words;

use std::env;
use std::fmt;
use std::io::Write;
use std::process::ExitCode;

use arguments::{BuildRequest, CheckRequest, HumRequest, PlayRequest, Request};
use failure::Failure;
use output::Output;
use player::Player;
use progress::Progress;
use totals::Totals;

/// Samples of the test hum that are made at once.
const HUM_BLOCK: usize = 4096;

fn main() -> ExitCode {
    match run() {
        Ok(()) => ExitCode::SUCCESS,
        Err(failure) => {
            // Where standard error is closed the status still says it.
            let _ = writeln!(std::io::stderr(), "{failure}");
            ExitCode::from(failure.status())
        }
    }
}

fn run() -> Result<(), Failure> {
    match arguments::read(env::args_os().skip(1))? {
        Request::Help => say(format_args!("{}", arguments::HELP)),
        Request::Version => say(format_args!("tone {}\n", env!("CARGO_PKG_VERSION"))),
        Request::Check(request) => check(&request),
        Request::Build(request) => build(&request),
        Request::Play(request) => play(&request),
        Request::Report(request) => report::report(&request),
        Request::Moved(request) => moved::moved(&request),
        Request::Hum(request) => hum(&request),
    }
}

/// Writes to standard output.
fn say(text: fmt::Arguments<'_>) -> Result<(), Failure> {
    let mut out = std::io::stdout().lock();
    out.write_fmt(text)
        .and_then(|()| out.flush())
        .map_err(|error| Failure::unusable("standard output", error))
}

fn check(request: &CheckRequest) -> Result<(), Failure> {
    let book = words::read_book(&request.book)?;
    tone::check(&book).map_err(Failure::plain_refusal)?;
    say(format_args!("accepted\n"))
}

/// The level builder. It needs no player.
fn build(request: &BuildRequest) -> Result<(), Failure> {
    let book = words::read_book(&request.book)?;
    let samples = wav::read_file(&request.recording)?;
    let mut progress = Progress::new();
    progress.show(format_args!("building {} samples", samples.len()));
    let store = built_store(&book, &samples, request.top)?;
    let mut output = Output::create(&request.store, &[&request.book, &request.recording])?;
    output.write_with(|file| words::write_store(file, &store))?;
    output.finish()?;
    drop(progress);
    say(format_args!(
        "S {}, T {}: {} words\n",
        samples.len(),
        request.top,
        store.len()
    ))
}

/// The store of a recording.
fn built_store(book: &[i32], samples: &[i16], top: u32) -> Result<Vec<i32>, Failure> {
    // Where S or T is outside its range there is no length to make room for:
    // the call says so, if the book does not come first.
    let mut store = vec![0; tone::store_words(samples.len(), top).unwrap_or(0)];
    tone::build(book, samples, top, &mut store)
        .map_err(|refusal| Failure::refused("build", refusal))?;
    Ok(store)
}

fn play(request: &PlayRequest) -> Result<(), Failure> {
    let setting = &request.setting;
    let book = words::read_book(&setting.book)?;
    let store = words::read_store(&setting.store)?;
    let text = drive::read_file(&setting.drive)?;
    let calls = drive::calls(&text, &setting.drive)?;
    let outputs = drive::outputs(calls.iter().map(|(_, call)| *call));
    let header = wav::Header::new(request.sample_rate, outputs)
        .map_err(|fault| Failure::unusable(setting.drive.display(), fault))?;
    let mut player = Player::open(&book, &store, &setting.store, setting.rate)?;
    let mut output = Output::create(&request.out, &setting.inputs())?;
    output.write_with(|file| header.write(file))?;
    let mut progress = Progress::new();
    let mut totals = Totals::default();
    for (done, (line, call)) in calls.iter().enumerate() {
        interrupt::test()?;
        let played = player
            .perform(*call, |part| totals.add(&part))
            .map_err(|refusal| Failure::refused(&line.place(&setting.drive), refusal))?;
        output.write_with(|file| wav::write_samples(file, played))?;
        progress.show(format_args!("{} of {} calls", done + 1, calls.len()));
    }
    output.finish()?;
    drop(progress);
    say(format_args!("{totals}\n"))
}

/// The test hum, a block after another.
fn hum(request: &HumRequest) -> Result<(), Failure> {
    let header = wav::Header::new(request.sample_rate, request.count)
        .map_err(|fault| Failure::unusable("COUNT", fault))?;
    let count = header.samples() as usize;
    let mut output = Output::create(&request.out, &[])?;
    output.write_with(|file| header.write(file))?;
    let mut progress = Progress::new();
    let mut block = [0; HUM_BLOCK];
    let (mut state, mut done) = (0, 0);
    while done < count {
        interrupt::test()?;
        let part = &mut block[..HUM_BLOCK.min(count - done)];
        state = tone::test_hum(state, part);
        output.write_with(|file| wav::write_samples(file, part))?;
        done += part.len();
        progress.show(format_args!("{done} of {count} samples"));
    }
    output.finish()?;
    drop(progress);
    say(format_args!("{count} samples\n"))
}
