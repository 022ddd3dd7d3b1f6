//! Why a command ended early, and the exit status that says so.

use std::fmt;
use std::path::{Path, PathBuf};

use tone::Refusal;

/// Exit status of a refusal.
const REFUSED: u8 = 1;
/// Exit status of arguments or files that cannot be used.
const UNUSABLE: u8 = 2;
/// Exit status after an interrupt, as shells have it for SIGINT.
const INTERRUPTED: u8 = 130;

/// Why a command ended early.
#[derive(Debug)]
pub enum Failure {
    /// A call refused it. The place is a file and line, or the call.
    Refused {
        /// Where; none for a check, whose answer is the number alone.
        place: Option<String>,
        /// The call's answer.
        refusal: Refusal,
    },
    /// A store that no voice can be opened for.
    RefusedStore {
        /// STORE
        path: PathBuf,
        /// Its number.
        refusal: Refusal,
    },
    /// An argument or a file cannot be used.
    Unusable(String),
    /// A signal asked for the end.
    Interrupted,
}

impl Failure {
    /// A refusal at a place.
    pub fn refused(place: &str, refusal: Refusal) -> Failure {
        let place = Some(place.to_owned());
        Failure::Refused { place, refusal }
    }

    /// A refusal that is the whole answer.
    pub fn plain_refusal(refusal: Refusal) -> Failure {
        let place = None;
        Failure::Refused { place, refusal }
    }

    /// A refused store. One without a header, as stores once were, is refused for
    /// whatever stands in its place, so the text also says what to do.
    pub fn refused_store(path: &Path, refusal: Refusal) -> Failure {
        let path = path.to_owned();
        Failure::RefusedStore { path, refusal }
    }

    /// A file or argument, and what is wrong with it.
    pub fn unusable(what: impl fmt::Display, why: impl fmt::Display) -> Failure {
        Failure::Unusable(format!("{what}: {why}"))
    }

    /// The exit status.
    pub fn status(&self) -> u8 {
        match self {
            Failure::Refused { .. } | Failure::RefusedStore { .. } => REFUSED,
            Failure::Unusable(_) => UNUSABLE,
            Failure::Interrupted => INTERRUPTED,
        }
    }
}

impl fmt::Display for Failure {
    fn fmt(&self, f: &mut fmt::Formatter<'_>) -> fmt::Result {
        match self {
            Failure::Refused {
                place: Some(place),
                refusal,
            } => write!(f, "tone: {place}: {refusal}"),
            Failure::Refused {
                place: None,
                refusal,
            } => write!(f, "{refusal}"),
            Failure::RefusedStore { path, refusal } => {
                let path = path.display();
                writeln!(f, "tone: {path}: {refusal}")?;
                write!(
                    f,
                    "tone: a store begins with S, T and its level lengths, and has its levels whole: \
                     build {path} again with `tone build`"
                )
            }
            Failure::Unusable(text) => write!(f, "tone: {text}"),
            Failure::Interrupted => write!(f, "tone: interrupted"),
        }
    }
}
