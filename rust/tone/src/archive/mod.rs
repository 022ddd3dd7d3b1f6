//! The archives' own calls: slices and numbers, nothing else.
//!
//! A function that has numbers beside it returns the one of documents 01 and 02
//! that refused the call, the first in that order, or 0.
//! [`VOICE_LENGTH`](crate::VOICE_LENGTH) is returned, before every other number,
//! where a voice slice is not `VOICE_WORDS` long. A refusal writes nothing, but
//! that a refused `open` writes the zero record, unless its slice has the wrong
//! length, and a refused `play` a multiply count of 0.
//!
//! These are the only modules with unsafe code. A slice crosses as its pointer
//! and its length. The archives read and write inside the slices that they are
//! lent, on every input, keep no pointer after a call and have no state of their
//! own; what they ask of their caller is that the slices are valid and that those
//! they write overlap no other, which the borrows of these signatures say.

#[cfg(feature = "builder")]
mod builder;
#[cfg(feature = "player")]
mod player;

#[cfg(feature = "builder")]
pub use builder::{build, check, store_words, test_hum};
#[cfg(feature = "player")]
pub use player::{check_store, glide, jump, open, play, seek};
