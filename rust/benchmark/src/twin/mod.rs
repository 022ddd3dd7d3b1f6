//! The player's rules written by hand for speed in safe Rust: what the proved
//! archives' time is measured against.
//!
//! Every call gives the archives' numbers, words and samples bit by bit. Sums are
//! 64-bit integers, as in document 01; the code is for any x86-64. SSE2 has no product
//! of signed 32-bit words: what costs is the number of products, 4N + B + 1 an output.
//! So halvings ([`halving`]) and the values of long taps and plays ([`pairs`]) are made
//! from raised words, whose unsigned products come two at a time; for other values
//! ([`values`]) the raising costs more than it gains. All else is kept off the products:
//! tests, limits and edges once per block of outputs, the glide's division once per
//! call, the history moved once per block.

#![forbid(unsafe_code)]

mod book;
mod control;
mod halving;
mod levels;
mod pairs;
mod play;
mod rounding;
mod values;
mod voice;

pub use book::check;
pub use levels::{build, check_store, store_words};
pub use voice::{Voice, VOICE_WORDS};
