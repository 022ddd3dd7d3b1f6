//! The command line.

use std::ffi::{OsStr, OsString};
use std::path::{Path, PathBuf};

use crate::drive;
use crate::failure::Failure;

/// What `tone --help` prints.
pub const HELP: &str = "\
tone: the driving-tone player, for studios and fitters

    tone check BOOK
        Tests a filter book. Prints \"accepted\", or why it is refused.

    tone build BOOK RECORDING.wav T STORE
        Builds the store of a recording with its octave levels 0..T, and prints
        its count of samples S, T and the store's length.

    tone play BOOK STORE RATE DRIVE OUT.wav
        Opens a voice at RATE for STORE, which names its S and T, makes the calls
        of DRIVE in their order and writes all samples that they play. Prints how
        many outputs that are, how many fades from level to level they took, and
        how many multiplies: 2N for each level value made, two in a fade and one
        without at each point, and 2B+1 for each output.
        --sample-rate HZ   written to OUT.wav, which plays at the recorded
                           pitch for rate 1 if the recording had the same;
                           48000 if not given

    tone report BOOK STORE RATE DRIVE [--html OUT.html]
        The report of a drive: plays it as tone play does, but writes no sound
        and goes on after a line that is refused. Prints a line for each play
        that is accepted, with its number, its outputs, its multiplies and the
        level at its end, in a fade the old one; \"refused\" for a call that is
        refused and for a line that is none; at last \"total\" with the sums of
        outputs and multiplies. Standard error has why each line was refused.
        --html OUT.html    also writes a sheet to print, which shows the level,
                           the fades and what they cost over time, and each call

    tone moved BOOK OLD.wav NEW.wav T [RATE DRIVE]
        How far the tone moves where a recording is replaced by another of the
        same length. Prints D, the largest difference of two samples at the same
        place, and by how much no sample of any drive from their stores can move,
        in steps of 16 bits; with RATE and DRIVE also the largest difference that
        this drive has. Samples and outputs are counted from 0.

    tone hum COUNT OUT.wav
        Writes the first COUNT samples of the test hum, which anyone can make
        again: from state 0 on, the next state is 1664525 x state + 1013904223,
        modulo 2^32, and a sample is the new state divided by 65536, rounded
        down, minus 32768. --sample-rate HZ as above.

    tone --help, tone --version

T is 0..4, S is 1..1048576, and RATE is a decimal from 1/16 up to below 2^(T+1),
T being STORE's where there is one; it is rounded to the nearest 32-bit float,
which is the rate that is played.

BOOK           a text of decimal words, blanks or line ends between them: N, M,
               A, B, F, the impulses, the differences, the level taps and the
               decimation taps. Lines that begin with # are comments.
RECORDING.wav  a 16-bit mono PCM WAV file; so are OLD.wav and NEW.wav.
STORE          32-bit words in two's complement, lowest byte first: S, T, the
               lengths of the levels 0..T, then these levels one after another.
               Words after the levels are not looked at.
DRIVE          a text with a call on each line:
                   jump RATE            to a rate at once
                   glide RATE OUTPUTS   to a rate over 1..65536 outputs
                   seek POSITION        in 2^-28 of a sample, up to 2^60
                   play OUTPUTS         up to 1048576 on a line
               Blank lines, and lines that begin with #, are passed over.
OUT.wav        a 16-bit mono PCM WAV file.
OUT.html       one HTML file that needs no other, for A4 paper.

A refused call ends the command, but for a line of DRIVE in tone report: its number
and meaning, and the line of DRIVE, are written to standard error; with a refused
STORE, that it is to be built again. STORE, OUT.wav and OUT.html are written whole
or not at all. They may be links to regular files; nothing but a regular file is
replaced, and no input.

Exit status: 0 done, 1 refused, 2 arguments or files that cannot be used,
130 interrupted.
";

/// The sample rate of OUT.wav where none is given.
const SAMPLE_RATE: u32 = 48000;

/// What is asked for.
#[derive(Debug)]
pub enum Request {
    /// `tone --help`
    Help,
    /// `tone --version`
    Version,
    /// `tone check`
    Check(CheckRequest),
    /// `tone build`
    Build(BuildRequest),
    /// `tone play`
    Play(PlayRequest),
    /// `tone report`
    Report(ReportRequest),
    /// `tone moved`
    Moved(MovedRequest),
    /// `tone hum`
    Hum(HumRequest),
}

/// `tone check BOOK`
#[derive(Debug)]
pub struct CheckRequest {
    /// BOOK
    pub book: PathBuf,
}

/// `tone build BOOK RECORDING.wav T STORE`
#[derive(Debug)]
pub struct BuildRequest {
    /// BOOK
    pub book: PathBuf,
    /// RECORDING.wav
    pub recording: PathBuf,
    /// T
    pub top: u32,
    /// STORE
    pub store: PathBuf,
}

/// `BOOK STORE RATE DRIVE`: what a drive is played with.
#[derive(Debug)]
pub struct Setting {
    /// BOOK
    pub book: PathBuf,
    /// STORE
    pub store: PathBuf,
    /// RATE
    pub rate: f32,
    /// DRIVE
    pub drive: PathBuf,
}

impl Setting {
    fn read([book, store, rate, drive]: [&OsString; 4]) -> Result<Setting, Failure> {
        Ok(Setting {
            book: book.into(),
            store: store.into(),
            rate: opening_rate(rate)?,
            drive: drive.into(),
        })
    }

    /// The files that are read, which no output may replace.
    pub fn inputs(&self) -> [&Path; 3] {
        [&self.book, &self.store, &self.drive]
    }
}

/// `tone play BOOK STORE RATE DRIVE OUT.wav`
#[derive(Debug)]
pub struct PlayRequest {
    /// BOOK STORE RATE DRIVE
    pub setting: Setting,
    /// OUT.wav
    pub out: PathBuf,
    /// HZ
    pub sample_rate: u32,
}

/// `tone report BOOK STORE RATE DRIVE`
#[derive(Debug)]
pub struct ReportRequest {
    /// BOOK STORE RATE DRIVE
    pub setting: Setting,
    /// OUT.html
    pub html: Option<PathBuf>,
}

/// `tone moved BOOK OLD.wav NEW.wav T`
#[derive(Debug)]
pub struct MovedRequest {
    /// BOOK
    pub book: PathBuf,
    /// OLD.wav
    pub old: PathBuf,
    /// NEW.wav
    pub new: PathBuf,
    /// T
    pub top: u32,
    /// RATE DRIVE
    pub drive: Option<OpenedDrive>,
}

/// `RATE DRIVE`: a drive and the rate that it begins at.
#[derive(Debug)]
pub struct OpenedDrive {
    /// RATE
    pub rate: f32,
    /// DRIVE
    pub path: PathBuf,
}

/// `tone hum COUNT OUT.wav`
#[derive(Debug)]
pub struct HumRequest {
    /// COUNT
    pub count: u64,
    /// OUT.wav
    pub out: PathBuf,
    /// HZ
    pub sample_rate: u32,
}

/// The arguments as they were given, options apart.
#[derive(Default)]
struct Given {
    operands: Vec<OsString>,
    help: bool,
    version: bool,
    sample_rate: Option<u32>,
    html: Option<PathBuf>,
}

impl Given {
    /// Takes an option with a value, which follows `=` or is the next argument.
    fn take(
        &mut self,
        option: &str,
        mut rest: impl Iterator<Item = OsString>,
    ) -> Result<(), Failure> {
        let (name, value) = match option.split_once('=') {
            Some((name, value)) => (name, Some(value.into())),
            None => (option, None),
        };
        let mut value = |what: &str| {
            let value = value.clone().or_else(|| rest.next());
            value.ok_or_else(|| misused(&format!("{name} takes {what}")))
        };
        match name {
            "--sample-rate" => self.sample_rate = Some(sample_rate(&value("a number")?)?),
            "--html" => self.html = Some(value("a file")?.into()),
            _ => return Err(misused(&format!("no option {option}"))),
        }
        Ok(())
    }

    /// Tests that the options are the command's.
    fn fit(&self, command: &OsStr) -> Result<(), Failure> {
        if self.sample_rate.is_some() && command != "play" && command != "hum" {
            return Err(misused("--sample-rate goes with tone play and tone hum"));
        }
        if self.html.is_some() && command != "report" {
            return Err(misused("--html goes with tone report"));
        }
        Ok(())
    }
}

/// Reads the arguments that follow the command's name.
pub fn read(arguments: impl Iterator<Item = OsString>) -> Result<Request, Failure> {
    let given = sorted(arguments)?;
    if given.help {
        return Ok(Request::Help);
    }
    if given.version {
        return Ok(Request::Version);
    }
    let Some((command, operands)) = given.operands.split_first() else {
        return Err(misused("no command"));
    };
    given.fit(command)?;
    request(command, operands, &given)
}

fn request(command: &OsStr, operands: &[OsString], given: &Given) -> Result<Request, Failure> {
    let sample_rate = given.sample_rate.unwrap_or(SAMPLE_RATE);
    match (command.to_str(), operands) {
        (Some("check"), [book]) => Ok(Request::Check(CheckRequest { book: book.into() })),
        (Some("build"), [book, recording, top, store]) => Ok(Request::Build(BuildRequest {
            book: book.into(),
            recording: recording.into(),
            top: top_level(top)?,
            store: store.into(),
        })),
        (Some("play"), [book, store, rate, drive, out]) => Ok(Request::Play(PlayRequest {
            setting: Setting::read([book, store, rate, drive])?,
            out: out.into(),
            sample_rate,
        })),
        (Some("report"), [book, store, rate, drive]) => Ok(Request::Report(ReportRequest {
            setting: Setting::read([book, store, rate, drive])?,
            html: given.html.clone(),
        })),
        (Some("moved"), [book, old, new, top, drive @ ..]) if matches!(drive.len(), 0 | 2) => {
            Ok(Request::Moved(MovedRequest {
                book: book.into(),
                old: old.into(),
                new: new.into(),
                top: top_level(top)?,
                drive: opened_drive(drive)?,
            }))
        }
        (Some("hum"), [count, out]) => Ok(Request::Hum(HumRequest {
            count: number("COUNT", count)?,
            out: out.into(),
            sample_rate,
        })),
        (Some(name @ ("check" | "build" | "play" | "report" | "moved" | "hum")), _) => {
            Err(misused(&format!(
                "wrong count of arguments, usage is {}",
                usage(name)
            )))
        }
        _ => Err(misused(&format!("no command {}", command.display()))),
    }
}

/// Parts the options from the rest. After `--` there are none.
fn sorted(mut arguments: impl Iterator<Item = OsString>) -> Result<Given, Failure> {
    let mut given = Given::default();
    while let Some(argument) = arguments.next() {
        match argument.to_str() {
            Some("--") => given.operands.extend(arguments.by_ref()),
            Some("--help" | "-h") => given.help = true,
            Some("--version" | "-V") => given.version = true,
            Some(option) if option.starts_with('-') && option.len() > 1 => {
                given.take(option, arguments.by_ref())?;
            }
            _ => given.operands.push(argument),
        }
    }
    Ok(given)
}

/// The line of the help text that has a command's arguments.
fn usage(command: &str) -> &'static str {
    let begins = |line: &&str| line.split(' ').take(2).eq(["tone", command]);
    let mut lines = HELP.lines().map(str::trim_start);
    lines.find(begins).unwrap_or_default()
}

fn misused(what: &str) -> Failure {
    Failure::unusable(what, "see tone --help")
}

/// A whole number, whatever its size: see [`drive::whole_number`].
fn number(name: &str, text: &OsString) -> Result<u64, Failure> {
    text.to_str()
        .and_then(drive::whole_number)
        .ok_or_else(|| Failure::unusable(name, format!("{text:?} is not a whole number")))
}

fn top_level(text: &OsString) -> Result<u32, Failure> {
    Ok(u32::try_from(number("T", text)?).unwrap_or(u32::MAX))
}

/// A rate and a drive, or neither.
fn opened_drive(operands: &[OsString]) -> Result<Option<OpenedDrive>, Failure> {
    match operands {
        [rate, path] => Ok(Some(OpenedDrive {
            rate: opening_rate(rate)?,
            path: path.into(),
        })),
        _ => Ok(None),
    }
}

fn opening_rate(text: &OsString) -> Result<f32, Failure> {
    text.to_str()
        .and_then(drive::decimal_rate)
        .ok_or_else(|| Failure::unusable("RATE", format!("{text:?} is not a decimal")))
}

/// A WAV header also holds twice the sample rate, in 32 bits.
fn sample_rate(text: &OsString) -> Result<u32, Failure> {
    let range = 1..=u64::from(u32::MAX / 2);
    match number("--sample-rate", text)? {
        rate if range.contains(&rate) => Ok(rate as u32),
        rate => Err(Failure::unusable(
            "--sample-rate",
            format!("{rate} is outside 1..2147483647"),
        )),
    }
}
