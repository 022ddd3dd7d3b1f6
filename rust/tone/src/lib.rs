//! The driving-tone player: a recorded 16-bit hum is played faster or slower,
//! from octave levels made of it once.
//!
//! The work is done by two archives whose every call is proved to equal the
//! rules of documents 01 and 02 on every input, a refused one too. This crate lends
//! them slices and hands back their answers. A call is refused by a [`Refusal`] with
//! the number that the documents give, and a refused call has changed nothing.
//!
//! A filter book is a slice of words: taps per phase N, phases M, level taps A,
//! decimation taps B, fade length F, then the impulses, their differences, the
//! level taps and the decimation taps.
//!
//! A store is a slice of words, too: the count of samples S, the top level T and the
//! lengths of the octave levels 0..T of a recording, then these levels one after
//! another. `build` makes it, and a `Voice` that is opened for its T plays it.
//!
//! The two halves are features, both on unless switched off. Each links its own
//! archive and needs no other:
//!
//! - `builder`, for studios: [`builder`] with [`check`], [`store_words`],
//!   [`build`] and [`test_hum`], over libtone_builder.a.
//! - `player`, for units: [`player`] with [`check_store`], [`top_level`] and
//!   [`Voice`], over libtone.a.
//!
//! ```
//! # #[cfg(all(feature = "builder", feature = "player"))]
//! # fn main() -> Result<(), tone::Refusal> {
//! use tone::{build, check, store_words, top_level, Voice};
//!
//! // N 2, M 1, A 0, B 0, F 1; two impulses, two differences, h[0], g[0].
//! let book = [2, 1, 0, 0, 1, 0, 16384, 16384, -16384, 16384, 16384];
//! check(&book)?;
//!
//! let samples = [0, 1000, 2000];
//! let mut store = vec![0; store_words(samples.len(), 1).unwrap()];
//! build(&book, &samples, 1, &mut store)?;
//!
//! let mut voice = Voice::open(1.0, top_level(&store)?)?;
//! voice.jump(2.0)?;
//! let mut out = [0; 3];
//! voice.play(&book, &store, &mut out)?;
//! assert_eq!(out, [1000, 1000, 0]);
//! # Ok(())
//! # }
//! # #[cfg(not(all(feature = "builder", feature = "player")))]
//! # fn main() {}
//! ```

#![deny(unsafe_code)]
#![warn(missing_docs)]

#[cfg(not(any(feature = "builder", feature = "player")))]
compile_error!("tone has two halves: ask for the feature `builder`, `player` or both");

#[allow(unsafe_code)]
pub mod archive;
#[cfg(feature = "builder")]
pub mod builder;
#[cfg(feature = "player")]
pub mod player;
mod refusal;

#[cfg(feature = "builder")]
pub use builder::{build, check, store_words, test_hum};
#[cfg(feature = "player")]
pub use player::{check_store, top_level, Voice, MOST_GLIDE, MOST_OUTPUTS, VOICE_WORDS};
pub use refusal::{Refusal, VOICE_LENGTH};

/// The most samples of a recording, S.
pub const MOST_SAMPLES: usize = 1_048_576;

/// The highest top level, T.
pub const MOST_TOP: u32 = 4;
