//! The text of a drive.

use std::fs;
use std::path::Path;

use tone::MOST_OUTPUTS;

use crate::failure::Failure;

/// A call of a drive.
#[derive(Clone, Copy, Debug, PartialEq)]
pub enum Call {
    /// `jump RATE`
    Jump(f32),
    /// `glide RATE OUTPUTS`
    Glide(f32, u32),
    /// `seek POSITION`
    Seek(u64),
    /// `play OUTPUTS`
    Play(usize),
}

/// A line that is neither blank nor a comment.
#[derive(Clone, Copy, Debug, PartialEq)]
pub struct Line<'a> {
    /// Counted from 1.
    pub number: usize,
    /// Without the blanks around it.
    pub text: &'a str,
}

impl Line<'_> {
    /// What the line asks for, or what is wrong with its form.
    pub fn call(&self) -> Result<Call, String> {
        read_call(self.text)
    }

    /// The line in a message about its file.
    pub fn place(&self, path: &Path) -> String {
        format!("{}:{}", path.display(), self.number)
    }
}

/// Reads a drive's text from a file.
pub fn read_file(path: &Path) -> Result<String, Failure> {
    fs::read_to_string(path).map_err(|error| Failure::unusable(path.display(), error))
}

/// The lines of a text, whatever they ask for.
pub fn lines(text: &str) -> impl Iterator<Item = Line<'_>> {
    let numbered = text.lines().zip(1..).map(|(line, number)| Line {
        number,
        text: line.trim(),
    });
    numbered.filter(|line| !line.text.is_empty() && !line.text.starts_with('#'))
}

/// The lines of a file's text with their calls, or the first line that is none and
/// what is wrong with it.
pub fn calls<'a>(text: &'a str, path: &Path) -> Result<Vec<(Line<'a>, Call)>, Failure> {
    lines(text)
        .map(|line| match line.call() {
            Ok(call) => Ok((line, call)),
            Err(fault) => Err(Failure::unusable(line.place(path), fault)),
        })
        .collect()
}

fn read_call(line: &str) -> Result<Call, String> {
    let parts: Vec<&str> = line.split_whitespace().collect();
    match parts[..] {
        ["jump", rate] => Ok(Call::Jump(read_rate(rate)?)),
        ["glide", rate, count] => {
            let count = u32::try_from(read_number(count)?).unwrap_or(u32::MAX);
            Ok(Call::Glide(read_rate(rate)?, count))
        }
        ["seek", position] => Ok(Call::Seek(read_number(position)?)),
        ["play", count] => {
            let count = usize::try_from(read_number(count)?).unwrap_or(usize::MAX);
            Ok(Call::Play(count))
        }
        ["jump", ..] => Err("jump takes a rate".to_owned()),
        ["glide", ..] => Err("glide takes a rate and a count of outputs".to_owned()),
        ["seek", ..] => Err("seek takes a position".to_owned()),
        ["play", ..] => Err("play takes a count of outputs".to_owned()),
        _ => Err(format!("{line:?} is not jump, glide, seek or play")),
    }
}

fn read_rate(text: &str) -> Result<f32, String> {
    decimal_rate(text).ok_or_else(|| format!("{text:?} is not a decimal rate"))
}

fn read_number(text: &str) -> Result<u64, String> {
    whole_number(text).ok_or_else(|| format!("{text:?} is not a whole number"))
}

/// A whole number of decimal digits. One that is too large for 64 bits is taken
/// as the largest of these, and callers do the same for their own width: a call
/// refuses every number past its range alike.
pub fn whole_number(text: &str) -> Option<u64> {
    let digits = !text.is_empty() && text.bytes().all(|byte| byte.is_ascii_digit());
    digits.then(|| text.parse().unwrap_or(u64::MAX))
}

/// A decimal, perhaps with a sign and a point, as the nearest f32. Exponents,
/// and the names of what is no number, are not decimals.
pub fn decimal_rate(text: &str) -> Option<f32> {
    let unsigned = text.strip_prefix(['-', '+']).unwrap_or(text);
    let (whole, fraction) = unsigned.split_once('.').unwrap_or((unsigned, ""));
    let digits = |part: &str| part.bytes().all(|byte| byte.is_ascii_digit());
    let some = !whole.is_empty() || !fraction.is_empty();
    (some && digits(whole) && digits(fraction)).then(|| text.parse().ok())?
}

/// The outputs that all plays of these calls make. A play of too many is refused,
/// so it makes none.
pub fn outputs(calls: impl Iterator<Item = Call>) -> u64 {
    let played = |call| match call {
        Call::Play(count) if count <= MOST_OUTPUTS => count as u64,
        _ => 0,
    };
    calls.map(played).sum()
}

#[cfg(test)]
mod tests {
    use super::*;

    #[test]
    fn every_kind_of_line() {
        let text = "# a drive\n\njump 1.5\n\tglide 2 48000 \r\nseek 268435456\nplay 20\nplay 0";
        let calls = calls(text, Path::new("drive.txt")).unwrap();
        let read: Vec<(usize, Call)> = calls
            .iter()
            .map(|(line, call)| (line.number, *call))
            .collect();
        let expected = [
            (3, Call::Jump(1.5)),
            (4, Call::Glide(2.0, 48000)),
            (5, Call::Seek(1 << 28)),
            (6, Call::Play(20)),
            (7, Call::Play(0)),
        ];
        assert_eq!(read, expected);
        assert_eq!(calls[1].0.text, "glide 2 48000");
        assert_eq!(outputs(read.iter().map(|(_, call)| *call)), 20);
    }

    #[test]
    fn lines_of_no_kind() {
        let bad = [
            "stop",
            "Jump 1",
            "jump",
            "jump 1 2",
            "jump one",
            "jump 1,5",
            "glide 1",
            "glide 1 2 3",
            "glide 1 -2",
            "seek",
            "seek 1.5",
            "seek 1 2",
            "play",
            "play -1",
            "play 1e3",
            "play 1 2",
            "play 10 # ten",
        ];
        for line in bad {
            let text = format!("play 1\n\n{line}\nplay 1\n");
            let failure = calls(&text, Path::new("drive.txt")).unwrap_err();
            assert!(failure.to_string().starts_with("tone: drive.txt:3: "));
            assert_eq!(lines(&text).count(), 3, "the reader of lines goes on");
        }
    }

    #[test]
    fn numbers_past_a_type_are_its_largest() {
        let text = "glide 1 4294967296\nseek 18446744073709551616\nplay 99999999999999999999999";
        let read: Vec<Call> = lines(text).map(|line| line.call().unwrap()).collect();
        assert_eq!(read[0], Call::Glide(1.0, u32::MAX));
        assert_eq!(read[1], Call::Seek(u64::MAX));
        assert_eq!(read[2], Call::Play(usize::MAX));
        assert_eq!(outputs(read.into_iter()), 0);
    }

    #[test]
    fn decimals() {
        assert_eq!(decimal_rate("1"), Some(1.0));
        assert_eq!(decimal_rate("0.0625"), Some(0.0625));
        assert_eq!(decimal_rate(".5"), Some(0.5));
        assert_eq!(decimal_rate("2."), Some(2.0));
        assert_eq!(decimal_rate("-1.25"), Some(-1.25));
        // the nearest of the f32s: just above 1, its neighbour is 2^-23 away
        assert_eq!(decimal_rate("1.00000005"), Some(1.0));
        assert_eq!(decimal_rate("1.00000007"), Some(1.0 + f32::EPSILON));
        assert_eq!(decimal_rate(&"9".repeat(60)), Some(f32::INFINITY));
        for text in [
            "",
            ".",
            "-",
            "+.",
            "nan",
            "NaN",
            "inf",
            "-infinity",
            "1e3",
            "0x1",
            "1.2.3",
            "1 ",
        ] {
            assert_eq!(decimal_rate(text), None, "{text}");
        }
    }
}
