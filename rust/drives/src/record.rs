//! The two forms of a voice: the archive's words and the renderer's record.
//!
//! Voices are made as words, so that every record that the archive can be lent is
//! tried. The renderer's fields are as wide as the archive's or wider: R, R0, R1
//! and P have 64 bits in both; T, levels, i, c and j are unsigned 32-bit words in
//! the archive, and its points signed ones. So the renderer is lent exactly what
//! the words say, and a voice that it hands back is words again, since a call
//! keeps a field or writes a number of the archive's width. No word stands for the
//! renderer's loop, which is none.

use renderer::voice::{Voice, POINTS};
use tone::VOICE_WORDS;

/// A voice as the archive has it.
pub type Words = [i32; VOICE_WORDS];

/// Word of T.
pub const TOP: usize = 0;
/// Word of the old level, the current one where no fade runs.
pub const LEVEL: usize = 1;
/// Word of the new level.
pub const NEXT_LEVEL: usize = 2;
/// Word of i.
pub const FADE: usize = 3;
/// First word of R.
pub const RATE: usize = 4;
/// First word of R0.
pub const GLIDE_FROM: usize = 6;
/// First word of R1.
pub const GLIDE_TO: usize = 8;
/// Word of c.
pub const GLIDE_COUNT: usize = 10;
/// Word of j.
pub const GLIDE_DONE: usize = 11;
/// First word of P.
pub const POSITION: usize = 12;
/// The newest point.
pub const HISTORY: usize = 14;

/// A word's place in the record, for reports.
pub fn word_name(at: usize) -> String {
    let half = |name: &str, first: usize| {
        let half = if at == first { "low" } else { "high" };
        format!("{name}, {half} word")
    };
    match at {
        TOP => "T".to_string(),
        LEVEL => "old level".to_string(),
        NEXT_LEVEL => "new level".to_string(),
        FADE => "i".to_string(),
        4 | 5 => half("R", RATE),
        6 | 7 => half("R0", GLIDE_FROM),
        8 | 9 => half("R1", GLIDE_TO),
        GLIDE_COUNT => "c".to_string(),
        GLIDE_DONE => "j".to_string(),
        12 | 13 => half("P", POSITION),
        _ => format!("point {}", at - HISTORY),
    }
}

/// The 64-bit field whose low word is at `at`.
pub fn wide(words: &Words, at: usize) -> u64 {
    u64::from(words[at] as u32) | u64::from(words[at + 1] as u32) << 32
}

/// Writes a 64-bit field.
pub fn set_wide(words: &mut Words, at: usize, value: u64) {
    words[at] = value as u32 as i32;
    words[at + 1] = (value >> 32) as u32 as i32;
}

/// The renderer's record for these words.
pub fn voice_of(words: &Words) -> Voice {
    let mut history = [0; POINTS];
    for (point, word) in history.iter_mut().zip(&words[HISTORY..]) {
        *point = i64::from(*word);
    }
    let field = |at: usize| words[at] as u32;
    Voice {
        top: field(TOP).into(),
        position: wide(words, POSITION),
        rate: wide(words, RATE),
        glide_from: wide(words, GLIDE_FROM),
        glide_to: wide(words, GLIDE_TO),
        glide_count: field(GLIDE_COUNT).into(),
        glide_done: field(GLIDE_DONE).into(),
        level: field(LEVEL).into(),
        next_level: field(NEXT_LEVEL).into(),
        fade: field(FADE).into(),
        history,
        ..Voice::ZERO
    }
}

/// The word of an unsigned field.
fn word_of(field: impl TryInto<u32>) -> i32 {
    field.try_into().ok().expect("the field has 32 bits") as i32
}

/// The words of the renderer's record.
pub fn words_of(voice: &Voice) -> Words {
    let mut words = [0; VOICE_WORDS];
    words[TOP] = word_of(voice.top);
    words[LEVEL] = word_of(voice.level);
    words[NEXT_LEVEL] = word_of(voice.next_level);
    words[FADE] = word_of(voice.fade);
    words[GLIDE_COUNT] = word_of(voice.glide_count);
    words[GLIDE_DONE] = word_of(voice.glide_done);
    set_wide(&mut words, RATE, voice.rate);
    set_wide(&mut words, GLIDE_FROM, voice.glide_from);
    set_wide(&mut words, GLIDE_TO, voice.glide_to);
    set_wide(&mut words, POSITION, voice.position);
    for (word, point) in words[HISTORY..].iter_mut().zip(&voice.history) {
        *word = i32::try_from(*point).expect("points lie within ±2^29");
    }
    words
}

#[cfg(test)]
mod tests {
    use super::*;
    use renderer::random::{wild_i32, Rng};

    #[test]
    fn there_and_back() {
        let mut rng = Rng::new(1);
        for _ in 0..2000 {
            let words: Words = std::array::from_fn(|_| wild_i32(&mut rng));
            assert_eq!(words_of(&voice_of(&words)), words);
        }
    }

    #[test]
    fn names() {
        assert_eq!(word_name(5), "R, high word");
        assert_eq!(word_name(94), "point 80");
    }
}
