//! Inputs at the limit of 1048576 bytes and past it.

use crate::program::{
    expected, from_file, from_pipe, from_reads, hold, lines_of, run, start, whole, LARGEST_READ,
    LIMIT, PATIENCE,
};
use crate::text;
use std::collections::BTreeSet;
use std::io::{Read, Write};
use std::os::fd::OwnedFd;
use std::os::unix::net::UnixStream;
use std::thread;

/// Lines of so many bytes in all: some plays, and a long one that is refused.
fn filler(length: usize) -> Vec<u8> {
    let mut input = b"play 1\n".repeat(20);
    input.resize(length - 1, b'0');
    input.push(b'\n');
    input
}

/// What stands around the limit.
const AROUND: &[u8] =
    b"jump 700\nplay 4096\nglide 300 9\nplay 20\nseek 12345\nplay 0\n\nhum\njump 99999\nplay 3\n";

/// An input in which that begins so many bytes before the limit.
fn around(inside: usize) -> Vec<u8> {
    [&filler(LIMIT - inside), AROUND].concat()
}

/// The limit falls at every byte, so that a line counts as what stands before it:
/// "play 4096" as "play 40". Of the inputs one has a byte less than the limit, one
/// that many, one a byte more.
#[test]
fn the_limit_falls_anywhere() {
    let mut lengths = BTreeSet::new();
    let mut last_plays = BTreeSet::new();
    for inside in 0..=AROUND.len() + 1 {
        let input = around(inside);
        lengths.insert(input.len());
        let printed = run(&input, &format!("{inside} bytes before the limit"));
        let last = text::plays(&text::read(&printed)).last();
        last_plays.extend(last.map(|played| played.outputs));
    }
    assert!(lengths.is_superset(&BTreeSet::from([LIMIT - 1, LIMIT, LIMIT + 1])));
    assert!(last_plays.is_superset(&BTreeSet::from([4, 40, 409, 4096])));
}

/// Short lines up to the limit, and more of them past it.
#[test]
fn many_lines() {
    for line in ["play 1\n", "x\n", "\n", "seek 8\n"] {
        let input = line.repeat(3 * LIMIT / 2 / line.len()).into_bytes();
        run(&input, &format!("{line:?} again and again"));
    }
}

/// However the input comes, what lies past the limit counts for nothing.
#[test]
fn in_pieces() {
    let input = [around(16), b"play 1\n".repeat(100_000)].concat();
    let expected = expected(&input);
    for size in [1000, LARGEST_READ - 1, LARGEST_READ] {
        let what = format!("pieces of {size} bytes");
        hold(&from_pipe(input.chunks(size)), &expected, &what);
        hold(&from_reads(input.chunks(size)), &expected, &what);
    }
}

/// What lies past the limit stays in the stream, though a read would have room for
/// it: a first line that is read by itself shifts all reads behind it.
#[test]
fn the_rest_of_a_stream() {
    let (mut ours, theirs) = UnixStream::pair().expect("a pair of sockets");
    let mut shared = theirs.try_clone().expect("the stream is shared");
    let input = around(16);
    let (first, others) = input.split_at(7);
    let mut program = start(OwnedFd::from(theirs));
    let printed = lines_of(&mut program);
    ours.write_all(first).expect("the first line");
    let line = printed.recv_timeout(PATIENCE);
    let mut heard = vec![line.expect("it is read by itself")];
    let mut rest = Vec::new();
    thread::scope(|scope| {
        scope.spawn(move || ours.write_all(others).expect("the others"));
        heard.extend(printed.iter());
        shared.read_to_end(&mut rest).expect("what is left");
    });
    hold(&whole(&heard), &expected(&input), "a stream");
    assert_eq!(rest, &input[LIMIT..]);
    assert!(program.wait().expect("the program ends").success());
}

/// As many reads as there can be.
#[test]
fn a_byte_at_a_time() {
    let input = around(16);
    hold(&from_reads(input.chunks(1)), &expected(&input), "bytes");
}

/// Nothing but digits; and a number that goes to the limit, or past it.
#[test]
fn one_long_line() {
    for length in [LIMIT - 1, LIMIT, LIMIT + 1, 2 * LIMIT] {
        let what = format!("{length} bytes");
        run(&b"7".repeat(length), &what);
        for word in ["jump ", "glide ", "glide 256 ", "seek ", "play "] {
            let mut input = word.as_bytes().to_vec();
            // A byte less makes it 2, and more must not make it 201.
            input.resize(LIMIT - 2, b'0');
            input.extend(b"20");
            input.resize(length, b'1');
            run(&input, &format!("{word:?}, {what}"));
        }
    }
}

/// The largest totals that an input can have: above 2^31, below 2^32. The figures
/// are those of the renderer's notes, B 5, as the renderer itself would take long.
#[test]
fn the_largest_totals() {
    let input = [b"play 4096\n".repeat(104_857), b"play 9".to_vec()].concat();
    assert_eq!(input.len(), LIMIT);
    let printed = from_file(&input);
    text::read(&printed);
    let mut lines = printed.lines();
    for number in 1..=104_857 {
        let expected = format!("{number} 4096 36864 0");
        assert_eq!(lines.next(), Some(&expected[..]));
    }
    let last: Vec<&str> = lines.collect();
    assert_eq!(last, ["104858 9 81 0", "total 429494281 3865448529"]);
}
