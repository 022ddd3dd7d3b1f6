//! Random inputs, whole and damaged, and the one that is kept.

use crate::damage::damaged;
use crate::lines::{
    call, joined, other, round_call, round_kind, strange, Line, CALLS, FORMS, ROUNDS, STRANGE,
};
use crate::program::{expected, from_file, from_reads, hold, run, LARGEST_READ};
use crate::tally::{common, Tally};
use drives::facts::DRIVE;
use drives::run::Plan;
use renderer::random::Rng;

/// Some lines: calls for the most part, or a mix of everything.
fn random_lines(rng: &mut Rng) -> Vec<Line> {
    let calls = rng.pick(&[1, 2, 8]);
    let count = rng.below(80);
    let line = |rng: &mut Rng| match rng.below(3 + calls) {
        0 => other(rng),
        1 => round_call(rng),
        2 => strange(rng),
        _ => call(rng),
    };
    (0..count).map(|_| line(rng)).collect()
}

/// An input as pieces of random sizes, none of them empty.
fn random_pieces<'a>(rng: &mut Rng, input: &'a [u8]) -> Vec<&'a [u8]> {
    let most = rng.pick(&[1, 2, 5, 40, 1000, LARGEST_READ as u64]);
    let mut pieces = Vec::new();
    let mut rest = input;
    while !rest.is_empty() {
        let length = (1 + rng.below(most) as usize).min(rest.len());
        let (piece, others) = rest.split_at(length);
        pieces.push(piece);
        rest = others;
    }
    pieces
}

/// Runs an input, as a file or in reads of random sizes.
fn run_random(rng: &mut Rng, input: &[u8], what: &str) {
    let printed = match rng.below(2) {
        0 => from_file(input),
        _ => from_reads(random_pieces(rng, input).into_iter()),
    };
    hold(&printed, &expected(input), what);
}

/// What the lines must show: every other form is refused, and so is every number
/// that would come round to an accepted one; only P may lie past 2^32.
fn shown() -> Vec<String> {
    let forms = FORMS.iter().map(|(name, _)| name.to_string());
    let strange = STRANGE.iter().map(|(name, _)| name.to_string());
    let mut kinds: Vec<String> = forms.chain(strange).collect();
    for (word, places) in CALLS {
        let bits = ROUNDS.iter().filter(|bits| **bits > 32 || word != "seek");
        kinds.extend(bits.flat_map(|bits| places.iter().map(|p| round_kind(word, p, *bits))));
    }
    let refused = kinds.iter().map(|kind| format!("{kind}: refused"));
    common().into_iter().chain(refused).collect()
}

#[test]
fn random_inputs() {
    let seed = Plan::from_env().seed;
    println!("DRIVE_SEED={seed}");
    let mut rng = Rng::new(seed ^ 5);
    let mut tally = Tally::default();
    for round in 0..200 {
        let lines = random_lines(&mut rng);
        tally.see_lines(&lines);
        let mut input = joined(&lines);
        if rng.one_in(2) {
            input.pop();
        }
        let what = format!("input {round}, DRIVE_SEED={seed}");
        run_random(&mut rng, &input, &what);
    }
    tally.hold(&shown());
}

#[test]
fn damaged_inputs() {
    let seed = Plan::from_env().seed;
    println!("DRIVE_SEED={seed}");
    let mut rng = Rng::new(seed ^ 6);
    for round in 0..400 {
        let lines: Vec<Line> = (0..30).map(|_| call(&mut rng)).collect();
        let input = damaged(&mut rng, &joined(&lines));
        let what = format!("damaged input {round}, DRIVE_SEED={seed}");
        run_random(&mut rng, &input, &what);
    }
}

/// `rt ci` runs it too. Its last line is an accepted play without its line end.
#[test]
fn the_kept_drive() {
    let kept = |bytes: &[u8]| Line {
        kind: "kept line".to_string(),
        bytes: bytes.to_vec(),
    };
    let lines: Vec<Line> = DRIVE.split(|byte| *byte == b'\n').map(kept).collect();
    let last = lines.last().expect("a last line");
    assert!(last.bytes.starts_with(b"play "));
    let mut tally = Tally::default();
    tally.see_lines(&lines);
    tally.hold(&common());
    run(DRIVE, "crates/drive_report/stdin");
}
