//! The program `drive_report`, run as a process, against the renderer's text.
//!
//! `rt run` in crates/drive_report writes the program. `DRIVE_SEED` sets the random inputs;
//! see the crate.

mod damage;
mod lines;
mod program;
mod tally;
mod text;

mod limits;
mod long_numbers;
mod pieces;
mod random;
