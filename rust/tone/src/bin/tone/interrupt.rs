//! Signals that ask the command to end. They are noted, and the work stops at
//! its next test, so that a temporary file is removed on the way out.

use std::sync::atomic::{AtomicBool, Ordering};

use crate::failure::Failure;

static REQUESTED: AtomicBool = AtomicBool::new(false);

/// Ends the work where a signal has asked for it.
pub fn test() -> Result<(), Failure> {
    match REQUESTED.load(Ordering::Relaxed) {
        true => Err(Failure::Interrupted),
        false => Ok(()),
    }
}

/// Has the signals noted from here on.
#[cfg(unix)]
pub fn listen() {
    for number in [unix::HANGUP, unix::INTERRUPT, unix::TERMINATE] {
        unix::note(number);
    }
}

/// Where there are no such signals the command ends at once.
#[cfg(not(unix))]
pub fn listen() {}

#[cfg(unix)]
mod unix {
    use std::ffi::c_int;
    use std::sync::atomic::Ordering;

    // These numbers are the same on every Unix.
    pub const HANGUP: c_int = 1;
    pub const INTERRUPT: c_int = 2;
    pub const TERMINATE: c_int = 15;

    /// C's SIG_IGN: the signal is ignored.
    const IGNORED: usize = 1;

    unsafe extern "C" {
        fn signal(number: c_int, handler: usize) -> usize;
    }

    extern "C" fn noted(_number: c_int) {
        super::REQUESTED.store(true, Ordering::Relaxed);
    }

    /// Has one signal noted, unless it was ignored, as under `nohup`.
    pub fn note(number: c_int) {
        let handler: extern "C" fn(c_int) = noted;
        // SAFETY: `signal` is the C library's, and `noted` only stores to an
        // atomic, which a handler may do at any time.
        unsafe {
            if signal(number, handler as usize) == IGNORED {
                signal(number, IGNORED);
            }
        }
    }
}
