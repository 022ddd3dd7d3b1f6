//! Numbers of many digits, at the ends of the program's reads.

use crate::program::{run, LARGEST_READ};

const DIGITS: [usize; 8] = [1, 19, 20, 21, 4095, 4096, 4097, 100_000];

/// What stands before a number and behind it.
const PLACES: [[&str; 2]; 5] = [
    ["jump ", ""],
    ["glide ", " 9"],
    ["glide 1024 ", ""],
    ["seek ", ""],
    ["play ", ""],
];

/// Numbers of so many digits: small ones with leading zeros, and large ones. A power
/// of ten and a little more is small modulo 2^32 and 2^64.
fn numbers(digits: usize) -> Vec<String> {
    let ended = |first: &str, end: &str| {
        let zeros = digits.saturating_sub(first.len() + end.len());
        format!("{first}{}{end}", "0".repeat(zeros))
    };
    vec![
        ended("", "8"),
        ended("", "600"),
        ended("1", "256"),
        "9".repeat(digits),
    ]
}

/// Appends a line so that its number ends `past` bytes behind the end of a read,
/// and a play that shows what it did.
fn append(input: &mut Vec<u8>, line: [&str; 3], past: usize) {
    let [before, number, behind] = line;
    let end = input.len() + 1 + before.len() + number.len();
    let room = (LARGEST_READ + past - end % LARGEST_READ) % LARGEST_READ;
    input.extend(b"x".repeat(room));
    input.push(b'\n');
    input.extend([before, number, behind, "\nplay 3\n"].concat().into_bytes());
}

#[test]
fn at_the_ends_of_reads() {
    // One and two bytes before the end of a read count from the read before it.
    for past in [LARGEST_READ - 2, LARGEST_READ - 1, 0, 1, 2] {
        for [before, behind] in PLACES {
            let mut input = Vec::new();
            for number in DIGITS.into_iter().flat_map(numbers) {
                append(&mut input, [before, &number, behind], past);
            }
            run(&input, &format!("{before:?}, {past} past a read's end"));
        }
    }
}
