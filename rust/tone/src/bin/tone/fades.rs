//! The fades of a drive, from the voice before and after short plays.

use tone::Voice;

/// Where F stands in a book.
const FADE_POINTS: usize = 4;

/// Points of an output.
pub const OUTPUT_POINTS: u64 = 2;

/// F, the points of a fade.
pub fn fade_points(book: &[i32]) -> u64 {
    book[FADE_POINTS] as u64
}

/// The outputs of a play in which at most one fade begins: a fade takes F points,
/// an output has two, and the two points of one output have the same rate.
pub fn longest_play(book: &[i32]) -> usize {
    (fade_points(book) / OUTPUT_POINTS).max(1) as usize
}

/// A fade. It takes F points from its beginning on, and with the last of them the
/// new level becomes the current one.
#[derive(Clone, Copy, Debug, PartialEq, Eq)]
pub struct Fade {
    /// Points before it.
    pub begin: u64,
    /// The old level.
    pub old: i32,
    /// The new level.
    pub new: i32,
}

impl Fade {
    /// The same fade, counted from some points before.
    pub fn after(self, points: u64) -> Fade {
        let begin = self.begin + points;
        Fade { begin, ..self }
    }
}

/// The level that a voice plays, in a fade the old one, the new level, and i, which
/// is 0 where no fade runs.
#[derive(Clone, Copy)]
pub struct Place {
    /// The current level.
    pub level: i32,
    new: i32,
    step: i32,
}

impl Place {
    /// Of a voice.
    pub fn of(voice: &Voice) -> Place {
        let words = voice.words();
        Place {
            level: words[1],
            new: words[2],
            step: words[3],
        }
    }

    /// The fade that began on the way from here, over at most [`longest_play`]
    /// outputs: none that ran here and none after it can hide another. One that
    /// began and ended took all the points of the way, or with F = 1 the first.
    pub fn began(self, after: Place, outputs: usize) -> Option<Fade> {
        let moved = self.level != after.level;
        let rested = self.step == 0;
        if after.step != 0 && (rested || moved) {
            return Some(Fade {
                begin: OUTPUT_POINTS * outputs as u64 - after.step as u64,
                old: after.level,
                new: after.new,
            });
        }
        (rested && moved).then_some(Fade {
            begin: 0,
            old: self.level,
            new: after.level,
        })
    }
}

#[cfg(test)]
mod tests {
    use super::*;

    const fn rest(level: i32) -> Place {
        let (new, step) = (level, 0);
        Place { level, new, step }
    }

    const fn fading(level: i32, new: i32, step: i32) -> Place {
        Place { level, new, step }
    }

    fn fade(begin: u64, old: i32, new: i32) -> Option<Fade> {
        Some(Fade { begin, old, new })
    }

    #[test]
    fn every_way_from_one_place_to_another() {
        assert_eq!(rest(1).began(rest(1), 4), None);
        let runs = fading(1, 3, 2);
        assert_eq!(rest(1).began(runs, 4), fade(6, 1, 3), "one runs now");
        let ended = rest(1).began(rest(0), 4);
        assert_eq!(ended, fade(0, 1, 0), "one began and ended");
        let fading_up = fading(1, 2, 3);
        let on = fading_up.began(fading(1, 2, 5), 1);
        assert_eq!(on, None, "it still runs");
        assert_eq!(fading_up.began(rest(2), 4), None, "it ended");
        let next = fading_up.began(fading(2, 0, 1), 4);
        assert_eq!(next, fade(7, 2, 0), "the next one runs");
    }

    #[test]
    fn plays_of_half_a_fade() {
        let book = |fade: i32| [2, 1, 0, 0, fade, 0];
        assert_eq!(longest_play(&book(1)), 1);
        assert_eq!(longest_play(&book(2)), 1);
        assert_eq!(longest_play(&book(5)), 2);
        assert_eq!(longest_play(&book(256)), 128);
    }
}
