//! `hum OUT.wav` writes the example recording; `hum OUT.wav TAKE` writes another take
//! of it, from 1 on, which is the first. It writes into what the path leads to and
//! replaces nothing, so that OUT.wav may be a link or /dev/stdout.

#![forbid(unsafe_code)]

use std::env;
use std::ffi::OsString;
use std::fs;
use std::process::ExitCode;

fn main() -> ExitCode {
    let arguments: Vec<_> = env::args_os().skip(1).collect();
    let Some((path, take)) = read(&arguments) else {
        eprintln!("usage: hum OUT.wav [TAKE], TAKE from 1 on");
        return ExitCode::from(2);
    };
    match fs::write(path, hum::wav(take)) {
        Ok(()) => ExitCode::SUCCESS,
        Err(error) => {
            eprintln!("hum: {}: {error}", path.display());
            ExitCode::from(2)
        }
    }
}

/// The file and the take.
fn read(arguments: &[OsString]) -> Option<(&OsString, u32)> {
    match arguments {
        [path] => Some((path, 1)),
        [path, take] => {
            let take = take.to_str()?.parse().ok()?;
            (take > 0).then_some((path, take))
        }
        _ => None,
    }
}
