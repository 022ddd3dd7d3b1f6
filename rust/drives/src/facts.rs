//! What the programs `level_facts`, `rounding_facts`, `player_facts`, `long_drive`,
//! `test_drive` and `drive_report` must print: the renderer's answers to the calls that
//! they make. Each module is in the order of its program and with its names, so that
//! the two can be read side by side; the texts of `test_drive` and `drive_report` are
//! the renderer's own.
//!
//! `recorded --facts crates` writes the texts; the test `recorded` holds the files
//! to what is made here.

mod damage;
pub mod levels;
pub mod long_drive;
pub mod player;
pub mod rounding;

use crate::EDITION;
use renderer::programs::{drive_report, hum_program};

/// Document 01's book K.
const K: [i32; 11] = [2, 1, 0, 0, 1, 0, 16384, 16384, -16384, 16384, 16384];

/// The drive that is kept for `drive_report`: every kind of line that its language
/// has, and every kind that it has not. Its last line lacks its line end.
pub const DRIVE: &[u8] = include_bytes!("../../../crates/drive_report/stdin");

/// A book or a store with one word changed.
fn changed<const L: usize>(mut words: [i32; L], at: usize, word: i32) -> [i32; L] {
    words[at] = word;
    words
}

/// The files of the programs, by their paths in the folder of all programs.
pub fn files() -> Vec<(String, String)> {
    let texts = [
        ("level_facts", levels::text()),
        ("rounding_facts", rounding::text()),
        ("player_facts", player::text()),
        ("long_drive", long_drive::text()),
        ("test_drive", hum_program(EDITION)),
        ("drive_report", drive_report(EDITION, DRIVE)),
    ];
    texts
        .map(|(program, text)| (format!("{program}/stdout"), text))
        .to_vec()
}
