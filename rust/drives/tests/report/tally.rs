//! What inputs showed, so that a test cannot pass by testing nothing.

use crate::lines::{joined, Line, CALLS};
use crate::program::expected;
use crate::text::{self, Played, Printed};
use std::collections::BTreeMap;

/// Multiplies of an output without a fade: 4N + 1.
const STEADY: u64 = 9;

/// What a fade adds to them: its 16 points are 8 outputs, with 2N more for each
/// point. A fade begins with an output, as rates do, so one that is not over yet
/// has added less.
const FADE: u64 = 8 * 8;

/// How often each thing was seen.
#[derive(Default)]
pub struct Tally {
    seen: BTreeMap<String, u64>,
}

/// The call that a line's first word names.
fn word_of(line: &[u8]) -> &'static str {
    let first = line.split(|byte| *byte == b' ').next();
    let named = CALLS
        .iter()
        .find(|(word, _)| first == Some(word.as_bytes()));
    named.map_or("another word", |(word, _)| word)
}

/// Lines with "play 0" behind each, which changes nothing and always prints: the
/// lines of the text can be told apart by it.
fn marked(lines: &[Line]) -> Vec<u8> {
    let mark = Line {
        kind: "mark".to_string(),
        bytes: b"play 0".to_vec(),
    };
    let with_mark = |line: &Line| [line.clone(), mark.clone()];
    let lines: Vec<Line> = lines.iter().flat_map(with_mark).collect();
    joined(&lines)
}

impl Tally {
    pub fn see(&mut self, what: String) {
        *self.seen.entry(what).or_default() += 1;
    }

    fn see_play(&mut self, played: Played, fading: bool) {
        let level = played.level;
        match fading {
            true => self.see(format!("level {level} in a fade")),
            false => self.see(format!("level {level} at rest")),
        }
    }

    /// Sees each line of an input, as the renderer answers it.
    pub fn see_lines(&mut self, lines: &[Line]) {
        let printed = text::read(&expected(&marked(lines)));
        let mut printed = printed.into_iter();
        let mut faded = 0;
        for line in lines {
            let word = word_of(&line.bytes);
            let first = printed.next().expect("a line or its mark");
            let answer = match first {
                Printed::Refused => "refused",
                Printed::Played(_) => "accepted",
            };
            self.see(format!("{word}: {answer}"));
            self.see(format!("{}: {answer}", line.kind));
            if let (Printed::Played(played), "play") = (first, word) {
                faded += played.multiplies - STEADY * played.outputs;
                self.see_play(played, faded % FADE > 0);
            }
            if first == Printed::Refused || word == "play" {
                printed.next().expect("the line's mark");
            }
        }
        assert_eq!(printed.next(), None);
    }

    /// Prints all that was seen, and fails where something was not.
    pub fn hold(&self, expected: &[String]) {
        for (what, count) in &self.seen {
            println!("{count:7} {what}");
        }
        let missing = |what: &&String| !self.seen.contains_key(*what);
        let missing: Vec<&String> = expected.iter().filter(missing).collect();
        assert!(missing.is_empty(), "not seen: {missing:?}");
    }
}

/// What every input worth its while shows.
pub fn common() -> Vec<String> {
    let common = "jump: accepted, jump: refused, glide: accepted, glide: refused, \
        seek: accepted, seek: refused, play: accepted, play: refused, another word: refused, \
        level 0 at rest, level 1 at rest, level 2 at rest, \
        level 0 in a fade, level 1 in a fade, level 2 in a fade";
    common.split(", ").map(str::to_string).collect()
}
