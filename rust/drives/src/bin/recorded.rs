//! recorded SEED..: prints the small drive of each seed with the renderer's
//! answers, as lines of text; see `drives::recorded`.
//!
//! recorded --rattle FOLDER: writes the drives of the program `recorded_drives`,
//! and its expected output, into its folder; see `drives::rattle`.
//!
//! recorded --facts FOLDER: writes the expected outputs of the programs `level_facts`,
//! `rounding_facts`, `player_facts`, `long_drive`, `test_drive` and `drive_report` into
//! their folders in this one; see `drives::facts`.

use drives::recorded::small_drive;
use drives::{facts, rattle};
use std::fs;
use std::num::ParseIntError;
use std::path::Path;
use std::process::ExitCode;

fn print_drives(arguments: &[String]) -> ExitCode {
    let seeds: Result<Vec<u64>, ParseIntError> =
        arguments.iter().map(|text| text.parse()).collect();
    match seeds {
        Ok(seeds) if !seeds.is_empty() => {
            for seed in seeds {
                print!("{}", small_drive(seed));
            }
            ExitCode::SUCCESS
        }
        _ => {
            eprintln!("recorded SEED.. | recorded --rattle FOLDER | recorded --facts FOLDER");
            ExitCode::from(2)
        }
    }
}

/// Writes files by their paths in a folder.
fn write_files(folder: &str, files: Vec<(String, String)>) -> ExitCode {
    for (path, text) in files {
        let path = Path::new(folder).join(path);
        if let Err(error) = fs::write(&path, text) {
            eprintln!("{}: {error}", path.display());
            return ExitCode::FAILURE;
        }
    }
    ExitCode::SUCCESS
}

fn main() -> ExitCode {
    let arguments: Vec<String> = std::env::args().skip(1).collect();
    match &arguments[..] {
        [option, folder] if option == "--rattle" => {
            write_files(folder, rattle::files(&rattle::SEEDS))
        }
        [option, folder] if option == "--facts" => write_files(folder, facts::files()),
        seeds => print_drives(seeds),
    }
}
