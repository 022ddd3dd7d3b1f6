//! The proved player's speed, beside a player of the same rules that was
//! written by hand for speed ([`twin`]) and beside other resamplers whose
//! packages are installed ([`others`]).
//!
//! ```sh
//! cargo run --release -p benchmark              # all figures, about a minute
//! cargo run --release -p benchmark -- --quick   # a few seconds
//! cargo run --release -p benchmark -- --markdown
//! cargo run --release -p benchmark -- --taps 24 --phases 128
//! cargo run --release -p benchmark -- --grid    # many sizes, some minutes
//! ```

#![warn(missing_docs)]

pub mod builder;
pub mod drive;
pub mod grid;
pub mod machine;
pub mod measure;
pub mod options;
pub mod others;
pub mod page;
pub mod setting;
pub mod table;
pub mod twin;
