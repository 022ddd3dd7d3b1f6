//! Each call on both sides, compared.
//!
//! The archives' slices stand between guard words, and what they may write holds a
//! pattern before the call, so a word written out of turn is seen.

use crate::call::Call;
use crate::record::{voice_of, word_name, words_of, Words, TOP};
use crate::stores::store_number;
use crate::tally::{differing, Kind, Tally};
use crate::{EDITION, HALVES_UP};
use renderer::book::book_number;
use renderer::levels;
use renderer::voice::{open, Card, Lent};
use std::fmt::{self, Debug};
use tone::{archive, MOST_TOP, VOICE_LENGTH, VOICE_WORDS};

/// Where the two sides differ: the renderer's word is expected, the archive's
/// was got.
#[derive(Clone, Debug)]
pub struct Difference {
    field: String,
    expected: String,
    got: String,
}

impl fmt::Display for Difference {
    fn fmt(&self, f: &mut fmt::Formatter<'_>) -> fmt::Result {
        let Difference {
            field,
            expected,
            got,
        } = self;
        write!(f, "{field}: expected {expected}, got {got}")
    }
}

/// Demands that two things are equal.
pub fn same<T: PartialEq + Debug>(field: &str, expected: T, got: T) -> Result<(), Difference> {
    if expected == got {
        return Ok(());
    }
    Err(Difference {
        field: field.to_string(),
        expected: format!("{expected:?}"),
        got: format!("{got:?}"),
    })
}

/// Demands that two lists are equal; the first place where they are not is
/// reported.
pub fn same_words<T: PartialEq + Debug + Copy>(
    name: impl Fn(usize) -> String,
    expected: &[T],
    got: &[T],
) -> Result<(), Difference> {
    if expected == got {
        return Ok(());
    }
    same("length", expected.len(), got.len())?;
    let pairs = expected.iter().zip(got).enumerate();
    for (at, (expected, got)) in pairs {
        same(&name(at), *expected, *got)?;
    }
    Ok(())
}

/// Guard words on either side. An odd number, so that slices are not aligned by
/// more than their words are.
const GUARD: usize = 7;

/// A slice between guard words.
struct Guarded<T> {
    words: Vec<T>,
    guard: T,
}

impl<T: Copy + PartialEq> Guarded<T> {
    fn new(inner: impl Iterator<Item = T>, guard: T) -> Guarded<T> {
        let mut words = vec![guard; GUARD];
        words.extend(inner);
        words.extend([guard; GUARD]);
        Guarded { words, guard }
    }

    fn inner(&self) -> &[T] {
        &self.words[GUARD..self.words.len() - GUARD]
    }

    fn inner_mut(&mut self) -> &mut [T] {
        let end = self.words.len() - GUARD;
        &mut self.words[GUARD..end]
    }

    fn intact(&self) -> Result<(), Difference> {
        let (before, rest) = self.words.split_at(GUARD);
        let after = &rest[rest.len() - GUARD..];
        let kept = before.iter().chain(after).all(|word| *word == self.guard);
        same("words around the slice left alone", true, kept)
    }
}

/// What output slices hold before a call: no word of it is a likely answer.
fn out_pattern(count: usize) -> impl Iterator<Item = i16> {
    (0..count).map(|at| (at as u32).wrapping_mul(40503).wrapping_add(12345) as i16)
}

/// What stores hold before they are built, and voices before they are opened.
fn store_pattern(count: usize) -> impl Iterator<Item = i32> {
    (0..count).map(|at| (at as u32 + 1).wrapping_mul(2_654_435_769) as i32)
}

/// What a multiply count is before a call: no play has so many.
const NO_COUNT: u64 = u64::MAX / 7;

/// The archive's number and, of a play, its multiply count; else 0.
pub fn archive_call(voice: &mut [i32], lent: &Lent, call: Call, out: &mut [i16]) -> (u32, u64) {
    let number = match call {
        Call::Jump(rate) => archive::jump(voice, rate),
        Call::Glide(rate, count) => archive::glide(voice, rate, count),
        Call::Seek(position) => archive::seek(voice, position),
        Call::Play(_) => {
            let mut multiplies = NO_COUNT;
            let number = archive::play(voice, lent.book, lent.store, out, &mut multiplies);
            return (number, multiplies);
        }
    };
    (number, 0)
}

/// The two sides, and what was seen of them.
#[derive(Default)]
pub struct Sides {
    /// Numbers seen so far.
    pub tally: Tally,
}

impl Sides {
    /// The check of a book.
    pub fn check(&mut self, book: &[i32]) -> Result<u32, Difference> {
        let expected = book_number(book);
        same("number", expected, archive::check(book))?;
        self.tally.note(Kind::Check, expected);
        Ok(expected)
    }

    /// The check of a store.
    pub fn check_store(&mut self, store: &[i32]) -> Result<u32, Difference> {
        let expected = store_number(store);
        same("number", expected, archive::check_store(store))?;
        self.tally.note(Kind::CheckStore, expected);
        Ok(expected)
    }

    /// The words of a store, 0 where S or T is outside its range.
    pub fn store_words(&mut self, sample_count: u64, top: u32) -> Result<usize, Difference> {
        let expected = match levels::sizes_out_of_range(sample_count.into(), top.into()) {
            true => 0,
            false => levels::store_length(EDITION, sample_count, top.into()),
        };
        let got = archive::store_words(sample_count as usize, top);
        same("words of a store", expected, got)?;
        Ok(expected)
    }

    /// Builds a store of `length` words; the number and the words afterwards.
    pub fn build(
        &mut self,
        book: &[i32],
        samples: &[i16],
        top: u32,
        length: usize,
    ) -> Result<(u32, Vec<i32>), Difference> {
        let mut expected: Vec<i32> = store_pattern(length).collect();
        let number = levels::build(EDITION, book, samples, top.into(), &mut expected);
        let mut store = Guarded::new(store_pattern(length), i32::MIN + 77);
        let got = archive::build(book, samples, top, store.inner_mut());
        same("number", number, got)?;
        let name = |at| format!("store word {at}");
        same_words(name, &expected, store.inner())?;
        store.intact()?;
        let written = match number {
            0 => self.store_words(samples.len() as u64, top)?,
            _ => 0,
        };
        let mut halves_up: Vec<i32> = store_pattern(length).collect();
        levels::build(HALVES_UP, book, samples, top.into(), &mut halves_up);
        self.tally.ties.words += differing(&expected, &halves_up);
        let left = store_pattern(length)
            .skip(written)
            .eq(store.inner()[written..].iter().copied());
        same("words after the levels left alone", true, left)?;
        self.tally.note(Kind::Build, number);
        self.tally.store_words += length as u64;
        Ok((number, expected))
    }

    /// Opening; a refused one writes the zero record.
    pub fn open(&mut self, rate: f32, top: u32) -> Result<(u32, Words), Difference> {
        let card = Card {
            rate,
            top: top.into(),
        };
        let (number, opened) = open(EDITION, card);
        let expected = words_of(&opened);
        let mut words = Guarded::new(store_pattern(VOICE_WORDS), -77);
        same(
            "number",
            number,
            archive::open(rate, top, words.inner_mut()),
        )?;
        same_words(word_name, &expected, words.inner())?;
        words.intact()?;
        if number != 0 {
            same_words(word_name, &[0; VOICE_WORDS], words.inner())?;
        }
        self.tally.note(Kind::Open, number);
        Ok((number, expected))
    }

    /// An order, a seek or a play, from the voice given to the one returned.
    pub fn call(&mut self, voice: &mut Words, lent: &Lent, call: Call) -> Result<u32, Difference> {
        let count = call.outputs();
        let mut expected: Vec<i16> = out_pattern(count).collect();
        let given = voice_of(voice);
        let rendered = call.rendered(&given, lent, &mut expected);
        let (number, next) = (rendered.number, rendered.voice);
        let after = words_of(&next);
        let mut words = Guarded::new(voice.iter().copied(), -77);
        let mut out = Guarded::new(out_pattern(count), 7777);
        let (got, multiplies) = archive_call(words.inner_mut(), lent, call, out.inner_mut());
        same("number", number, got)?;
        same("multiplies", rendered.multiplies, multiplies)?;
        same_words(|at| format!("output {at}"), &expected, out.inner())?;
        same_words(word_name, &after, words.inner())?;
        words.intact()?;
        out.intact()?;
        if number == 0 {
            self.tally.note_samples(&expected);
            if count > 0 {
                self.tally.note_band(&given, &next);
                let fades = self.tally.note_multiplies(lent.book, count, multiplies);
                let mut halves_up = vec![0; count];
                let up = call.rendered_at(HALVES_UP, &given, lent, &mut halves_up);
                let ties = (&up.voice, &halves_up[..]);
                self.tally.note_ties((&next, &expected), ties, fades);
            }
        } else {
            same("multiplies of a refusal", 0, multiplies)?;
            let left = out_pattern(count).eq(out.inner().iter().copied());
            same("outputs left alone by a refusal", true, left)?;
            same("voice left alone by a refusal", true, *voice == after)?;
        }
        self.tally.note(call.kind(), number);
        if (call.kind(), number) == (Kind::Play, 13) && voice[TOP] as u32 > MOST_TOP {
            self.tally.tops_above_4 += 1;
        }
        *voice = after;
        Ok(number)
    }

    /// An opening and another call with a voice slice of another length: its own
    /// number comes before all others, and nothing is written.
    pub fn wrong_length(
        &mut self,
        length: usize,
        (rate, top): (f32, u32),
        lent: &Lent,
        call: Call,
    ) -> Result<(), Difference> {
        let count = call.outputs();
        let mut words = Guarded::new(store_pattern(length), -77);
        let mut out = Guarded::new(out_pattern(count), 7777);
        let opened = archive::open(rate, top, words.inner_mut());
        same("number of an opening", VOICE_LENGTH, opened)?;
        let got = archive_call(words.inner_mut(), lent, call, out.inner_mut());
        same("number and multiplies", (VOICE_LENGTH, 0), got)?;
        let words_left = store_pattern(length).eq(words.inner().iter().copied());
        let out_left = out_pattern(count).eq(out.inner().iter().copied());
        same("slices left alone", (true, true), (words_left, out_left))?;
        words.intact()?;
        out.intact()?;
        self.tally.note(Kind::Open, VOICE_LENGTH);
        self.tally.note(call.kind(), VOICE_LENGTH);
        Ok(())
    }
}

#[cfg(test)]
mod tests {
    use super::*;

    #[test]
    fn the_first_difference_is_reported() {
        let difference = same_words(word_name, &[1, 2, 3], &[1, 5, 6]).unwrap_err();
        assert_eq!(difference.to_string(), "old level: expected 2, got 5");
        let difference = same_words(word_name, &[1, 2], &[1]).unwrap_err();
        assert_eq!(difference.to_string(), "length: expected 2, got 1");
    }

    #[test]
    fn writes_around_a_slice_are_seen() {
        for at in [0, GUARD - 1, GUARD + 3, GUARD + 3 + GUARD - 1] {
            let mut guarded = Guarded::new([1, 2, 3].into_iter(), -77);
            assert_eq!(guarded.inner(), [1, 2, 3]);
            guarded.inner_mut().fill(-77);
            assert!(guarded.intact().is_ok());
            guarded.words[at] = 0;
            assert!(guarded.intact().is_err());
        }
    }

    #[test]
    fn patterns_are_not_silence() {
        assert!(out_pattern(2000).all(|word| word != 0));
        assert!(store_pattern(2000).all(|word| word != 0));
    }
}
