//! Voices with a field changed.

use renderer::voice::Voice;

/// A field of a voice, by the names of `player_facts`.
#[derive(Clone, Copy)]
pub enum Field {
    /// T
    Top,
    /// The old level.
    From,
    /// The new level.
    To,
    /// i
    Step,
    /// R
    Rate,
    /// R0
    Start,
    /// R1
    Target,
    /// c
    Count,
    /// j
    Done,
    /// P
    Position,
    /// The oldest point.
    Point,
}

/// The voice with a field set to x.
pub fn with(mut voice: Voice, field: Field, x: u64) -> Voice {
    match field {
        Field::Top => voice.top = x,
        Field::From => voice.level = x as i64,
        Field::To => voice.next_level = x as i64,
        Field::Step => voice.fade = x,
        Field::Rate => voice.rate = x,
        Field::Start => voice.glide_from = x,
        Field::Target => voice.glide_to = x,
        Field::Count => voice.glide_count = x,
        Field::Done => voice.glide_done = x,
        Field::Position => voice.position = x,
        Field::Point => voice.history[80] = x as i64,
    }
    voice
}
