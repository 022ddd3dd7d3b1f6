//! Small drives as a program of the player's own language: a module of constants
//! for each, and the text that the program must print, which is the renderer's.
//!
//! `recorded --rattle crates/recorded_drives` writes both; the program's other
//! modules play the drives and print their text. The test `recorded` holds the
//! files to what is made here.

use crate::call::Call;
use crate::recorded::{small_drive, SmallDrive};
use std::fmt::Display;

/// The drives of `crates/recorded_drives`, each of another recording. The test
/// `recorded` lists what they show: T 0 to 3, every N and M of small drives, fades
/// up and down by one to three levels, a level held by its band, at the band's end
/// too, and left just below it, rate changes inside a fade, glides, a position that
/// stops at 2^60, outputs at both limits, refused calls of every kind. A refused
/// opening returns the zero record, whose T is 0: plays with it are refused 19 where
/// the store's T is not, else 15.
pub const SEEDS: [u64; 8] = [5, 7, 23, 2184, 7059, 19505, 29102, 33350];

/// Longest text between the brackets of an array that stays on one line, as the
/// formatter of the language has it.
const ONE_LINE: usize = 60;

/// Longest element of an array that stands on a line with others.
const SHORT: usize = 10;

/// Longest line.
const LINE: usize = 100;

/// Short elements, as many on a line as fit.
fn filled(elements: &[String]) -> String {
    let mut lines: Vec<String> = Vec::new();
    for element in elements {
        match lines.last_mut() {
            Some(line) if line.len() + 2 + element.len() < LINE => *line += &format!(" {element},"),
            _ => lines.push(format!("    {element},")),
        }
    }
    lines.join("\n")
}

/// An array's elements in brackets.
fn array(elements: &[String]) -> String {
    let line = elements.join(", ");
    if line.len() <= ONE_LINE {
        return format!("[{line}]");
    }
    match elements.iter().all(|element| element.len() <= SHORT) {
        true => format!("[\n{}\n]", filled(elements)),
        false => format!("[\n    {},\n]", elements.join(",\n    ")),
    }
}

fn constant<T: Display>(name: &str, kind: &str, words: &[T]) -> String {
    let count = words.len();
    let elements: Vec<String> = words.iter().map(T::to_string).collect();
    format!(
        "const {name}: [{kind}; {count}] = {};\n\n",
        array(&elements)
    )
}

/// A call, as the program's module `calls` writes it.
fn written(call: Call) -> String {
    match call {
        Call::Jump(rate) => format!("Call::Jump(0x{:08x})", rate.to_bits()),
        Call::Glide(rate, count) => format!("Call::Glide(0x{:08x}, {count})", rate.to_bits()),
        Call::Seek(position) => format!("Call::Seek({position})"),
        Call::Play(count) => format!("Call::Play({count})"),
    }
}

/// The module of a drive.
pub fn module(drive: &SmallDrive) -> String {
    let mut text = format!(
        "// Drive {}, made by rust/drives: its numbers, handed to the one printer of drives.\n",
        drive.seed
    );
    text += "use crate::calls::Call;\n";
    text += "use crate::drive::Drive;\nuse std::io;\nuse std::io::Write;\n\n";
    text += &constant("BOOK", "i32", &drive.setting.book);
    text += &constant("SAMPLES", "i16", &drive.setting.samples);
    let calls = drive.calls.iter().map(|answered| written(answered.call));
    text += &constant("CALLS", "Call", &calls.collect::<Vec<String>>());
    let (seed, top, rate) = (drive.seed, drive.setting.top, drive.rate.to_bits());
    text += "pub fn text(out: &mut impl Write) -> io::Result<()> {\n    let drive = Drive {\n";
    text += &format!("        seed: {seed},\n        book: &BOOK,\n        samples: &SAMPLES,\n");
    text += &format!("        top: {top},\n        rate: 0x{rate:08x},\n        calls: &CALLS,\n");
    text + "    };\n    drive.text(out)\n}\n"
}

/// The files of the drives of these seeds, by their paths in the program's
/// folder: a module for each, and the text of them all.
pub fn files(seeds: &[u64]) -> Vec<(String, String)> {
    let drives: Vec<SmallDrive> = seeds.iter().map(|seed| small_drive(*seed)).collect();
    let modules = drives
        .iter()
        .map(|drive| (format!("src/drive_{}.rt", drive.seed), module(drive)));
    let text = drives.iter().map(SmallDrive::to_string).collect();
    let text = ("stdout".to_string(), text);
    modules.chain([text]).collect()
}
