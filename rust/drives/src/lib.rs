//! Random drives through the archives and through a renderer that was written
//! from the documents alone: every number, voice word, store word, sample and
//! multiply count must be equal, and a refused call must leave everything as it was.
//!
//! `cargo test -p drives` is the short run, `cargo run --release -p drives` prints
//! its table and takes longer ones. [`run::run`] is the whole comparison; its plan
//! comes from the environment:
//!
//! - `DRIVE_SEED`: where the random numbers begin, decimal or `0x` hexadecimal.
//! - `DRIVE_COUNT`: samples to compare; one refused call for each ten of them.
//! - `DRIVE_ONLY`: the index of a single drive to run alone.
//! - `DRIVE_TRACE=1`: prints each drive's index before it starts, which names
//!   the drive if a call should end the process or not return.
//!
//! Each drive has a seed of its own, made of `DRIVE_SEED` and the drive's index,
//! so a run's drives do not depend on how many threads share them.

#![warn(missing_docs)]

pub mod call;
pub mod drive;
pub mod facts;
pub mod inputs;
pub mod rattle;
pub mod record;
pub mod recorded;
pub mod run;
pub mod sides;
pub mod stores;
pub mod tally;

use renderer::Edition;

/// The edition of the product: document 01 with the requests of document 02 up to
/// this one.
pub const EDITION: Edition = Edition::H;

/// The edition before request (g): halves are rounded up. What it gives differently
/// shows that a tie was met.
pub const HALVES_UP: Edition = Edition::F;
