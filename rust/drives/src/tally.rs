//! Which numbers were seen at which call, how often, and what was seen of the
//! band in which a level stays and of the multiply counts of plays.

use crate::EDITION;
use renderer::voice::{plain_asked_level, Voice};
use tone::VOICE_LENGTH;

/// The archives' calls that give a number.
#[derive(Clone, Copy, Debug, PartialEq, Eq)]
pub enum Kind {
    /// The check of a book.
    Check,
    /// The level builder.
    Build,
    /// The check of a store.
    CheckStore,
    /// Opening a voice.
    Open,
    /// A jump.
    Jump,
    /// A glide.
    Glide,
    /// A seek.
    Seek,
    /// Play.
    Play,
}

/// All calls, in the table's order.
pub const KINDS: [Kind; 8] = [
    Kind::Check,
    Kind::Build,
    Kind::CheckStore,
    Kind::Open,
    Kind::Jump,
    Kind::Glide,
    Kind::Seek,
    Kind::Play,
];

const NUMBERS: usize = VOICE_LENGTH as usize + 1;

impl Kind {
    /// The call's name in the table.
    pub fn name(self) -> &'static str {
        match self {
            Kind::Check => "check",
            Kind::Build => "build",
            Kind::CheckStore => "check_store",
            Kind::Open => "open",
            Kind::Jump => "jump",
            Kind::Glide => "glide",
            Kind::Seek => "seek",
            Kind::Play => "play",
        }
    }

    /// Every number that the call can give, 0 for accepted among them.
    pub fn numbers(self) -> &'static [u32] {
        match self {
            Kind::Check => &[0, 1, 2, 3, 4, 5, 6, 7],
            Kind::Build => &[0, 1, 2, 3, 4, 5, 6, 7, 8, 9],
            Kind::CheckStore => &[0, 8, 9, 18],
            Kind::Open => &[0, 8, 10, VOICE_LENGTH],
            Kind::Jump => &[0, 10, 13, 15, 16, 17, VOICE_LENGTH],
            Kind::Glide => &[0, 10, 11, 13, 15, 16, 17, VOICE_LENGTH],
            Kind::Seek => &[0, 12, 13, 15, 16, 17, VOICE_LENGTH],
            Kind::Play => &[
                0,
                1,
                2,
                3,
                4,
                5,
                6,
                7,
                8,
                9,
                11,
                13,
                14,
                15,
                16,
                17,
                18,
                19,
                VOICE_LENGTH,
            ],
        }
    }
}

/// A level's band ends at a rate R of 15 × 2^(23 + level); R counts as just below
/// where it is less than this away.
const JUST_BELOW: u64 = 1 << 8;

/// What accepted plays show of the band of a level l.
#[derive(Clone, Copy, Debug, Default)]
pub struct Band {
    /// At rest on l at the end, the rate being below the octave of l.
    pub held: u64,
    /// Of these, those at 15/16 of the octave.
    pub at_end: u64,
    /// From rest on l at a rate just below 15/16 of the octave.
    pub left: u64,
}

impl Band {
    fn add(&mut self, other: &Band) {
        self.held += other.held;
        self.at_end += other.at_end;
        self.left += other.left;
    }
}

/// Accepted plays of some outputs, by their multiply count.
#[derive(Clone, Copy, Debug, Default)]
pub struct Multiplies {
    /// 4N + 2B + 1 for each output: no fade.
    pub least: u64,
    /// 8N + 2B + 1 for each output: nothing but fades.
    pub most: u64,
    /// Between the two.
    pub between: u64,
    /// An odd count of level values: a fade began or ended inside an output.
    pub odd: u64,
}

impl Multiplies {
    fn add(&mut self, other: &Multiplies) {
        self.least += other.least;
        self.most += other.most;
        self.between += other.between;
        self.odd += other.odd;
    }
}

/// How many of the words of two equally long slices differ.
pub fn differing<T: PartialEq>(words: &[T], others: &[T]) -> u64 {
    let pairs = words.iter().zip(others);
    pairs.filter(|(word, other)| word != other).count() as u64
}

/// Numbers that would be others if halves were rounded up.
#[derive(Clone, Copy, Debug, Default)]
pub struct Ties {
    /// Built store words.
    pub words: u64,
    /// Points of voices after a play without fades.
    pub values: u64,
    /// Points of voices after a play with fades.
    pub faded: u64,
    /// Samples.
    pub samples: u64,
}

impl Ties {
    fn add(&mut self, other: &Ties) {
        self.words += other.words;
        self.values += other.values;
        self.faded += other.faded;
        self.samples += other.samples;
    }
}

/// Counts of a run.
#[derive(Clone, Debug)]
pub struct Tally {
    counts: [[u64; NUMBERS]; KINDS.len()],
    /// The bands of levels 1 to 4.
    pub bands: [Band; 4],
    /// Plays by their multiply count.
    pub multiplies: Multiplies,
    /// Numbers that a tie decides.
    pub ties: Ties,
    /// Of play's 13s, those for a T above 4. The others are for a level above T.
    pub tops_above_4: u64,
    /// Samples compared.
    pub samples: u64,
    /// Those of them that are neither 0 nor at a limit of 16 bits.
    pub telling_samples: u64,
    /// Built store words compared.
    pub store_words: u64,
    /// Drives run.
    pub drives: u64,
}

impl Default for Tally {
    fn default() -> Tally {
        Tally {
            counts: [[0; NUMBERS]; KINDS.len()],
            bands: [Band::default(); 4],
            multiplies: Multiplies::default(),
            ties: Ties::default(),
            tops_above_4: 0,
            samples: 0,
            telling_samples: 0,
            store_words: 0,
            drives: 0,
        }
    }
}

impl Tally {
    /// Counts an answer on which both sides agreed.
    pub fn note(&mut self, kind: Kind, number: u32) {
        self.counts[kind as usize][number as usize] += 1;
    }

    /// Counts samples on which both sides agreed.
    pub fn note_samples(&mut self, samples: &[i16]) {
        let telling = |sample: &&i16| !matches!(**sample, 0 | i16::MIN | i16::MAX);
        self.samples += samples.len() as u64;
        self.telling_samples += samples.iter().filter(telling).count() as u64;
    }

    /// Counts what an accepted play of some outputs shows of a level's band.
    pub fn note_band(&mut self, before: &Voice, after: &Voice) {
        let end = |voice: &Voice| 15u64 << (23 + voice.level);
        if after.fade == 0 && plain_asked_level(EDITION, after.rate) < after.level {
            let band = &mut self.bands[after.level as usize - 1];
            band.held += 1;
            band.at_end += u64::from(after.rate == end(after));
        }
        let below = end(before).saturating_sub(before.rate);
        if before.level > 0 && before.fade == 0 && before.glide_count == 0 {
            let band = &mut self.bands[before.level as usize - 1];
            band.left += u64::from((1..JUST_BELOW).contains(&below));
        }
    }

    /// Counts an accepted play of some outputs by its multiply count, and says whether
    /// it had fades.
    pub fn note_multiplies(&mut self, book: &[i32], outputs: usize, multiplies: u64) -> bool {
        let (value, outputs) = (2 * book[0] as u64, outputs as u64);
        let least = outputs * (2 * value + 2 * book[3] as u64 + 1);
        // Level values beside those of points without a fade.
        let more = (multiplies - least) / value;
        self.multiplies.least += u64::from(more == 0);
        self.multiplies.most += u64::from(more == 2 * outputs);
        self.multiplies.between += u64::from(0 < more && more < 2 * outputs);
        self.multiplies.odd += more % 2;
        more > 0
    }

    /// Counts the points and samples of an accepted play that are not those of halves
    /// rounded up, by whether it had fades.
    pub fn note_ties(&mut self, play: (&Voice, &[i16]), halves_up: (&Voice, &[i16]), fades: bool) {
        let points = differing(&play.0.history, &halves_up.0.history);
        match fades {
            true => self.ties.faded += points,
            false => self.ties.values += points,
        }
        self.ties.samples += differing(play.1, halves_up.1);
    }

    /// How often a call gave a number.
    pub fn count(&self, kind: Kind, number: u32) -> u64 {
        self.counts[kind as usize][number as usize]
    }

    /// Adds another tally.
    pub fn add(&mut self, other: &Tally) {
        for (row, more) in self.counts.iter_mut().zip(&other.counts) {
            for (count, more) in row.iter_mut().zip(more) {
                *count += more;
            }
        }
        for (band, more) in self.bands.iter_mut().zip(&other.bands) {
            band.add(more);
        }
        self.multiplies.add(&other.multiplies);
        self.ties.add(&other.ties);
        self.tops_above_4 += other.tops_above_4;
        self.samples += other.samples;
        self.telling_samples += other.telling_samples;
        self.store_words += other.store_words;
        self.drives += other.drives;
    }

    /// Calls that were refused.
    pub fn refused(&self) -> u64 {
        self.counts.iter().flat_map(|row| &row[1..]).sum()
    }

    /// Calls that were accepted.
    pub fn accepted(&self) -> u64 {
        self.counts.iter().map(|row| row[0]).sum()
    }

    /// Of play's 13s, those for a level above T.
    fn levels_above_top(&self) -> u64 {
        self.count(Kind::Play, 13) - self.tops_above_4
    }

    /// What calls can show of bands, multiplies and ties, by name, with how often it
    /// was seen.
    fn shown(&self) -> Vec<(String, u64)> {
        let named = |(at, band): (usize, &Band)| {
            let level = at + 1;
            [
                (format!("level {level} held"), band.held),
                (format!("level {level} held at its band's end"), band.at_end),
                (format!("level {level} left just below it"), band.left),
            ]
        };
        let multiplies = [
            ("the least multiplies", self.multiplies.least),
            ("the most multiplies", self.multiplies.most),
            ("multiplies between these", self.multiplies.between),
            ("an odd count of level values", self.multiplies.odd),
        ];
        let ties = [
            ("ties in store words", self.ties.words),
            ("ties in values", self.ties.values),
            ("ties in plays with fades", self.ties.faded),
            ("ties in samples", self.ties.samples),
        ];
        let bands = self.bands.iter().enumerate().flat_map(named);
        bands
            .chain(multiplies.map(|(what, count)| (what.to_string(), count)))
            .chain(ties.map(|(what, count)| (what.to_string(), count)))
            .collect()
    }

    /// What the calls can give and was not seen, as "call number", and what plays
    /// can show and was not seen.
    pub fn not_seen(&self) -> Vec<String> {
        let mut missing = Vec::new();
        for kind in KINDS {
            for number in kind.numbers() {
                if self.count(kind, *number) == 0 {
                    missing.push(format!("{} {number}", kind.name()));
                }
            }
        }
        let play_13 = [
            ("for T", self.tops_above_4),
            ("for a level", self.levels_above_top()),
        ];
        for (reason, _) in play_13.iter().filter(|(_, count)| *count == 0) {
            missing.push(format!("play 13 {reason}"));
        }
        let shown = self.shown().into_iter();
        missing.extend(shown.filter(|(_, count)| *count == 0).map(|(what, _)| what));
        missing
    }

    /// The table of counts: a line for each number, a column for each call; a
    /// dash where a call cannot give the number.
    pub fn table(&self) -> String {
        let mut text = String::from("number");
        for kind in KINDS {
            text.push_str(&format!("{:>12}", kind.name()));
        }
        text.push('\n');
        let given = |number: &u32| KINDS.iter().any(|kind| kind.numbers().contains(number));
        for number in (0..=VOICE_LENGTH).filter(given) {
            text.push_str(&format!("{number:>6}"));
            for kind in KINDS {
                let count = match kind.numbers().contains(&number) {
                    true => self.count(kind, number).to_string(),
                    false => "-".to_string(),
                };
                text.push_str(&format!("{count:>12}"));
            }
            text.push('\n');
        }
        text.push_str(&format!(
            "13 at play: {} for T above 4, {} for a level above T\n",
            self.tops_above_4,
            self.levels_above_top()
        ));
        for (what, count) in self.shown() {
            text.push_str(&format!("{what}: {count}\n"));
        }
        text.push_str(&format!(
            "{} drives, {} samples ({} neither 0 nor at a limit), {} store words, \
             {} calls accepted, {} refused\n",
            self.drives,
            self.samples,
            self.telling_samples,
            self.store_words,
            self.accepted(),
            self.refused()
        ));
        text
    }
}

#[cfg(test)]
mod tests {
    use super::*;

    #[test]
    fn what_was_not_seen_is_listed() {
        let mut tally = Tally::default();
        for kind in KINDS {
            for number in kind.numbers() {
                if (kind, *number) != (Kind::Seek, 12) {
                    tally.note(kind, *number);
                }
            }
        }
        let bands = Band {
            held: 1,
            at_end: 1,
            left: 1,
        };
        tally.bands = [bands; 4];
        tally.multiplies = Multiplies {
            least: 1,
            most: 1,
            between: 1,
            odd: 1,
        };
        tally.ties = Ties {
            words: 1,
            values: 1,
            faded: 1,
            samples: 1,
        };
        assert_eq!(tally.not_seen(), ["seek 12", "play 13 for T"]);
        let mut more = Tally::default();
        more.note(Kind::Seek, 12);
        more.tops_above_4 = 1;
        tally.add(&more);
        assert_eq!(tally.not_seen(), ["play 13 for a level"]);
        more = Tally::default();
        more.note(Kind::Play, 13);
        tally.add(&more);
        assert!(tally.not_seen().is_empty());
        assert_eq!(tally.accepted(), KINDS.len() as u64);
        tally.bands[1].left = 0;
        tally.multiplies.most = 0;
        tally.ties.values = 0;
        assert_eq!(
            tally.not_seen(),
            [
                "level 2 left just below it",
                "the most multiplies",
                "ties in values"
            ]
        );
    }

    #[test]
    fn bands_are_counted_by_level() {
        let at = |level: i64, rate: u64| Voice {
            level,
            next_level: level,
            rate,
            ..Voice::ZERO
        };
        let mut tally = Tally::default();
        let end = 15 << 24;
        tally.note_band(&at(1, 1 << 28), &at(1, end));
        tally.note_band(&at(1, end), &at(1, end + 1));
        tally.note_band(&at(1, end - 1), &at(0, end - 1));
        tally.note_band(&at(0, end), &at(0, end));
        let band = tally.bands[0];
        assert_eq!((band.held, band.at_end, band.left), (2, 1, 1));
        let others = tally.bands[1..].iter();
        assert_eq!(others.map(|band| band.held + band.left).sum::<u64>(), 0);
    }

    #[test]
    fn ties_are_counted_by_place() {
        let mut even = Voice::ZERO;
        even.history[3] = 2;
        let mut tally = Tally::default();
        let play = (&even, &[2, 0, 7][..]);
        tally.note_ties(play, (&Voice::ZERO, &[1, 0, 8]), false);
        tally.note_ties(play, (&Voice::ZERO, play.1), true);
        tally.note_ties(play, play, true);
        let seen = tally.ties;
        assert_eq!((seen.values, seen.faded, seen.samples), (1, 1, 2));
    }

    #[test]
    fn plays_are_counted_by_their_multiplies() {
        // N 2 and B 3: 15 for an output, and 4 for each level value more.
        let book = [2, 1, 0, 3, 5];
        let mut tally = Tally::default();
        for multiplies in [45, 49, 61, 65, 69] {
            tally.note_multiplies(&book, 3, multiplies);
        }
        let seen = tally.multiplies;
        assert_eq!((seen.least, seen.most, seen.between), (1, 1, 3));
        assert_eq!(seen.odd, 2);
    }
}
