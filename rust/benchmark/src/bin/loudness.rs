//! Plays one drive, loud or quiet, for a tool that counts what `tone_play` executes:
//!
//! ```sh
//! valgrind --tool=callgrind --branch-sim=yes --toggle-collect=tone_play \
//!     rust/target/release/loudness loud 0 3
//! ```

use benchmark::drive::{Course, Drive};
use benchmark::setting::{Setting, Sizes, LOWER};
use std::process::ExitCode;

const USAGE: &str = "usage: loudness loud|quiet B BLOCK";

/// A multiple of every block that matters here: 3, 64 and 4096.
const OUTPUTS: usize = 3 * 4096;

/// The setting and the drive of the command line.
fn asked() -> Option<(Setting, Drive)> {
    let arguments: Vec<String> = std::env::args().skip(1).collect();
    let [loudness, decimation, block] = arguments.as_slice() else {
        return None;
    };
    let divisor = match loudness.as_str() {
        "loud" => 1,
        "quiet" => LOWER,
        _ => return None,
    };
    // the same steps for both, so that all lies at the same addresses
    let sizes = Sizes {
        decimation: decimation.parse().ok()?,
        ..Sizes::default()
    };
    let loud = Setting::new(sizes).loud();
    let setting = loud.divided(divisor);
    let drive = Drive {
        course: Course::Around(1.5),
        block: block.parse().ok().filter(|block| *block > 0)?,
        outputs: OUTPUTS,
    };
    Some((setting, drive))
}

fn main() -> ExitCode {
    let Some((setting, drive)) = asked() else {
        eprintln!("{USAGE}");
        return ExitCode::FAILURE;
    };
    let limited = drive.limited(&setting);
    println!("{limited} of {OUTPUTS} outputs limited");
    ExitCode::SUCCESS
}
