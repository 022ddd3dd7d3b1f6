//! Small drives with the renderer's answers, as lines of text from which another
//! program can be made.

use crate::call::{lent, Call};
use crate::inputs::{accepted_rate, list_of_calls, setting_of};
use crate::record::{words_of, Words};
use crate::EDITION;
use renderer::exact::Setting;
use renderer::levels::build;
use renderer::random::{bad_rate, book_of_sizes, random_recording, Rng};
use renderer::voice::{open, Card, Lent, Voice};
use std::fmt::{self, Display};

/// What each word of an output slice holds before its play, and each word of a
/// store before it is built.
pub const BEFORE: i16 = 77;

/// Words of a small drive's store: enough for the header and levels 0 to 3 of 64
/// samples.
pub const STORE_WORDS: usize = 6 + 64 + 32 + 16 + 8;

/// Most calls of a small drive.
pub const MOST_CALLS: usize = 12;
/// Most outputs of a small drive, over all its plays.
pub const MOST_SMALL_OUTPUTS: usize = 200;

/// A call and the renderer's answer.
#[derive(Clone, Debug)]
pub struct Answered {
    /// The call.
    pub call: Call,
    /// Its number.
    pub number: u32,
    /// Of a play, its multiply count; else 0.
    pub multiplies: u64,
    /// Of a play, the output slice afterwards.
    pub out: Vec<i16>,
}

/// A drive with the renderer's answers.
#[derive(Clone, Debug)]
pub struct SmallDrive {
    /// The seed that it came from.
    pub seed: u64,
    /// Book, recording and T.
    pub setting: Setting,
    /// The building's number.
    pub built: u32,
    /// The store: header, levels and the words after them.
    pub store: Vec<i32>,
    /// The opening's rate.
    pub rate: f32,
    /// The opening's number.
    pub opened: u32,
    /// The calls, each from the voice that the last one returned.
    pub calls: Vec<Answered>,
    /// The voice at the end.
    pub voice: Words,
}

fn small_setting(rng: &mut Rng) -> Setting {
    let sizes = [
        rng.pick(&[2, 4]),
        rng.pick(&[1, 2, 4]),
        rng.range(0, 3) as i32,
        rng.range(0, 3) as i32,
        rng.range(1, 8) as i32,
    ];
    let book = book_of_sizes(rng, sizes);
    let count = 1 + rng.below(64) as usize;
    let samples = random_recording(rng, count);
    setting_of(book, samples, rng.below(4))
}

/// Calls of a small drive: the plays share out the outputs.
fn small_calls(rng: &mut Rng, setting: &Setting, rate: f32) -> Vec<Call> {
    let mut left = MOST_SMALL_OUTPUTS;
    let mut calls = Vec::new();
    let list = list_of_calls(rng, setting, rate, MOST_CALLS, 40);
    for call in list.into_iter().take(MOST_CALLS) {
        match call {
            Call::Play(count) => {
                let count = count.min(left);
                left -= count;
                calls.push(Call::Play(count));
            }
            other => calls.push(other),
        }
    }
    calls
}

fn answer(voice: &mut Voice, lent: &Lent, call: Call) -> Answered {
    let mut out = vec![BEFORE; call.outputs()];
    let rendered = call.rendered(voice, lent, &mut out);
    *voice = rendered.voice;
    Answered {
        call,
        number: rendered.number,
        multiplies: rendered.multiplies,
        out,
    }
}

/// The small drive of a seed: N and M at most 4, A and B at most 3, F at most 8,
/// T at most 3, at most 64 samples, [`MOST_CALLS`] calls and
/// [`MOST_SMALL_OUTPUTS`] outputs. Once in eight the opening is refused.
pub fn small_drive(seed: u64) -> SmallDrive {
    let mut rng = Rng::new(seed);
    let setting = small_setting(&mut rng);
    let top = setting.top;
    let rate = match rng.below(8) {
        0 => bad_rate(&mut rng, top),
        _ => accepted_rate(&mut rng, top),
    };
    let list = small_calls(&mut rng, &setting, rate);
    let mut store = vec![i32::from(BEFORE); STORE_WORDS];
    let built = build(EDITION, &setting.book, &setting.samples, top, &mut store);
    let lent = lent(&setting.book, &store);
    let (opened, mut voice) = open(EDITION, Card { rate, top });
    let calls = list
        .into_iter()
        .map(|call| answer(&mut voice, &lent, call))
        .collect();
    SmallDrive {
        seed,
        built,
        rate,
        opened,
        calls,
        voice: words_of(&voice),
        setting,
        store,
    }
}

/// A name and words, with a blank before each word.
pub fn line(name: impl Display, words: &[impl Display]) -> String {
    let words: String = words.iter().map(|word| format!(" {word}")).collect();
    format!("{name}{words}\n")
}

impl Display for Answered {
    fn fmt(&self, f: &mut fmt::Formatter<'_>) -> fmt::Result {
        match self.call {
            Call::Jump(rate) => writeln!(f, "jump {:08x}", rate.to_bits())?,
            Call::Glide(rate, count) => writeln!(f, "glide {:08x} {count}", rate.to_bits())?,
            Call::Seek(position) => writeln!(f, "seek {position}")?,
            Call::Play(count) => writeln!(f, "play {count}")?,
        }
        writeln!(f, "number {}", self.number)?;
        match self.call {
            Call::Play(_) => {
                writeln!(f, "multiplies {}", self.multiplies)?;
                f.write_str(&line("out", &self.out))
            }
            _ => Ok(()),
        }
    }
}

/// Lines "drive", "book", "samples", "top", then "build" with the words of the
/// store, "open", "jump", "glide", "seek" and "play", each call followed by
/// "number", a building's number by "store" and a play's by "multiplies" and "out";
/// "voice" is the last. Rates are f32 bits in hexadecimal.
impl Display for SmallDrive {
    fn fmt(&self, f: &mut fmt::Formatter<'_>) -> fmt::Result {
        writeln!(f, "drive {}", self.seed)?;
        f.write_str(&line("book", &self.setting.book))?;
        f.write_str(&line("samples", &self.setting.samples))?;
        writeln!(f, "top {}", self.setting.top)?;
        writeln!(f, "build {}", self.store.len())?;
        writeln!(f, "number {}", self.built)?;
        f.write_str(&line("store", &self.store))?;
        writeln!(f, "open {:08x}", self.rate.to_bits())?;
        writeln!(f, "number {}", self.opened)?;
        for call in &self.calls {
            write!(f, "{call}")?;
        }
        f.write_str(&line("voice", &self.voice))
    }
}

#[cfg(test)]
mod tests {
    use super::*;

    #[test]
    fn small_drives_are_small() {
        for seed in 0..300 {
            let drive = small_drive(seed);
            let book = &drive.setting.book;
            assert_eq!(renderer::book::book_number(book), 0);
            assert!(book[0] <= 4 && book[1] <= 4 && book[4] <= 8);
            assert!(book[2] <= 3 && book[3] <= 3 && drive.setting.top <= 3);
            assert!(drive.setting.samples.len() <= 64);
            assert_eq!(drive.built, 0);
            assert!(drive.calls.len() <= MOST_CALLS);
            let outputs: usize = drive.calls.iter().map(|call| call.out.len()).sum();
            assert!(outputs <= MOST_SMALL_OUTPUTS);
        }
    }

    #[test]
    fn lines_in_order() {
        let text = small_drive(1).to_string();
        let names: Vec<&str> = text
            .lines()
            .map(|line| line.split(' ').next().unwrap_or(""))
            .collect();
        let head = ["drive", "book", "samples", "top"];
        let answers = ["build", "number", "store", "open", "number"];
        assert_eq!(names[..9], [&head[..], &answers].concat());
        assert_eq!(names.last(), Some(&"voice"));
    }
}
