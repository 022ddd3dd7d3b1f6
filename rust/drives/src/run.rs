//! Many drives, shared among threads.

use crate::drive::{run_drive, Mismatch, FIXED_DRIVES};
use crate::sides::Sides;
use crate::tally::Tally;
use std::env;
use std::fmt;
use std::panic::{catch_unwind, AssertUnwindSafe};
use std::sync::atomic::{AtomicU64, Ordering};
use std::thread;

/// The seed of a run that names none.
pub const DEFAULT_SEED: u64 = 20_260_315;

/// The samples of a run that names no count.
pub const DEFAULT_COUNT: u64 = 4_000_000;

/// Samples for each refused call that is asked for.
pub const SAMPLES_PER_REFUSAL: u64 = 10;

/// Drives between two looks at the counts. What a run does depends on it and not
/// on the threads.
const BATCH: u64 = 512;

/// What to run.
#[derive(Clone, Debug)]
pub struct Plan {
    /// Where the random numbers begin.
    pub seed: u64,
    /// Samples to compare.
    pub count: u64,
    /// A single drive, by its index.
    pub only: Option<u64>,
    /// Whether each drive's index is printed before it starts.
    pub trace: bool,
}

fn number_from(name: &str) -> Option<u64> {
    let text = env::var(name).ok()?;
    let number = match text.strip_prefix("0x") {
        Some(digits) => u64::from_str_radix(digits, 16),
        None => text.parse(),
    };
    Some(number.unwrap_or_else(|_| panic!("{name}={text} is not a whole number")))
}

impl Plan {
    /// The plan that the environment gives.
    pub fn from_env() -> Plan {
        Plan {
            seed: number_from("DRIVE_SEED").unwrap_or(DEFAULT_SEED),
            count: number_from("DRIVE_COUNT").unwrap_or(DEFAULT_COUNT),
            only: number_from("DRIVE_ONLY"),
            trace: number_from("DRIVE_TRACE").is_some_and(|trace| trace != 0),
        }
    }
}

impl fmt::Display for Plan {
    fn fmt(&self, f: &mut fmt::Formatter<'_>) -> fmt::Result {
        write!(f, "DRIVE_SEED={} DRIVE_COUNT={}", self.seed, self.count)?;
        match self.only {
            Some(index) => write!(f, " DRIVE_ONLY={index}"),
            None => Ok(()),
        }
    }
}

/// A drive that failed.
#[derive(Clone, Debug)]
pub struct Failure {
    /// The run's seed.
    pub seed: u64,
    /// The drive's index.
    pub index: u64,
    /// What differed, and where.
    pub mismatch: Mismatch,
}

impl fmt::Display for Failure {
    fn fmt(&self, f: &mut fmt::Formatter<'_>) -> fmt::Result {
        let Failure {
            seed,
            index,
            mismatch,
        } = self;
        writeln!(f, "drive {index} differs at {mismatch}")?;
        write!(f, "to repeat: DRIVE_SEED={seed} DRIVE_ONLY={index}")
    }
}

impl std::error::Error for Failure {}

/// One drive; a panic of the renderer is a failure like any other.
fn one_drive(plan: &Plan, index: u64, sides: &mut Sides) -> Result<(), Failure> {
    if plan.trace {
        eprintln!("drive {index}");
    }
    let run = AssertUnwindSafe(|| run_drive(plan.seed, index, sides));
    let result = catch_unwind(run).unwrap_or_else(|_| {
        Err(Mismatch {
            step: "some call".to_string(),
            difference: "the drive panicked".to_string(),
        })
    });
    result.map_err(|mismatch| Failure {
        seed: plan.seed,
        index,
        mismatch,
    })
}

/// Takes indices from `next` up to `end` until none is left.
fn work(plan: &Plan, next: &AtomicU64, end: u64) -> (Tally, Option<Failure>) {
    let mut sides = Sides::default();
    let mut first = None;
    loop {
        let index = next.fetch_add(1, Ordering::Relaxed);
        if index >= end {
            return (sides.tally, first);
        }
        // Of the failures of a batch the one with the lowest index counts.
        if let Err(failure) = one_drive(plan, index, &mut sides) {
            first = first.or(Some(failure));
        }
    }
}

/// The drives from `start` up to `end`, on every thread that the machine has.
fn batch(plan: &Plan, start: u64, end: u64) -> Result<Tally, Failure> {
    let threads = thread::available_parallelism().map_or(1, |count| count.get());
    let next = AtomicU64::new(start);
    let results: Vec<(Tally, Option<Failure>)> = thread::scope(|scope| {
        let workers: Vec<_> = (0..threads)
            .map(|_| scope.spawn(|| work(plan, &next, end)))
            .collect();
        let join = |worker: thread::ScopedJoinHandle<_>| worker.join().expect("a worker ended");
        workers.into_iter().map(join).collect()
    });
    let mut tally = Tally::default();
    let mut failures = Vec::new();
    for (part, failure) in results {
        tally.add(&part);
        failures.extend(failure);
    }
    match failures.into_iter().min_by_key(|failure| failure.index) {
        Some(failure) => Err(failure),
        None => Ok(tally),
    }
}

/// Runs the plan; `progress` is shown the samples and refused calls of each
/// batch's end. The fixed drives do not count towards what is asked for.
pub fn run(plan: &Plan, mut progress: impl FnMut(&Tally)) -> Result<Tally, Failure> {
    if let Some(index) = plan.only {
        return batch(plan, index, index + 1);
    }
    let fixed = batch(plan, 0, FIXED_DRIVES)?;
    let mut tally = Tally::default();
    let mut start = FIXED_DRIVES;
    while start == FIXED_DRIVES
        || tally.samples < plan.count
        || tally.refused() < plan.count / SAMPLES_PER_REFUSAL
    {
        tally.add(&batch(plan, start, start + BATCH)?);
        start += BATCH;
        progress(&tally);
    }
    tally.add(&fixed);
    Ok(tally)
}

#[cfg(test)]
mod tests {
    use super::*;

    #[test]
    fn a_failure_says_how_to_repeat_it() {
        let failure = Failure {
            seed: 3,
            index: 14,
            mismatch: Mismatch {
                step: "call 2 (play 7)".to_string(),
                difference: "output 5: expected 1, got 2".to_string(),
            },
        };
        let lines = "drive 14 differs at call 2 (play 7): output 5: expected 1, got 2\n\
                     to repeat: DRIVE_SEED=3 DRIVE_ONLY=14";
        assert_eq!(failure.to_string(), lines);
    }

    #[test]
    fn a_drive_alone_is_the_drive_of_the_run() {
        let plan = |only| Plan {
            seed: 5,
            count: 0,
            only,
            trace: false,
        };
        let alone = |index| run(&plan(Some(index)), |_| ()).map(|tally| tally.table());
        let first = alone(FIXED_DRIVES + 9).expect("both sides agree");
        assert_eq!(first, alone(FIXED_DRIVES + 9).expect("both sides agree"));
        assert_ne!(first, alone(FIXED_DRIVES + 10).expect("both sides agree"));
    }
}
