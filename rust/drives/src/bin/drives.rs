//! Runs the random drives that the environment asks for and prints the table of
//! numbers seen: `DRIVE_SEED`, `DRIVE_COUNT`, `DRIVE_ONLY`, `DRIVE_TRACE`.

use drives::run::{run, Plan};
use drives::tally::Tally;
use std::io::{stderr, IsTerminal};
use std::process::ExitCode;

fn main() -> ExitCode {
    let plan = Plan::from_env();
    println!("{plan}");
    let terminal = stderr().is_terminal();
    let progress = |tally: &Tally| {
        if terminal {
            let (samples, refused) = (tally.samples, tally.refused());
            eprint!("\r{samples} samples, {refused} refused calls ");
        }
    };
    let result = run(&plan, progress);
    if terminal {
        eprintln!();
    }
    let tally = match result {
        Ok(tally) => tally,
        Err(failure) => {
            println!("{failure}");
            return ExitCode::FAILURE;
        }
    };
    print!("{}", tally.table());
    let missing = tally.not_seen();
    if plan.only.is_none() && !missing.is_empty() {
        println!("not seen: {}", missing.join(", "));
        return ExitCode::FAILURE;
    }
    ExitCode::SUCCESS
}
