//! Inputs cut anywhere, and how they come: in pieces, a byte at a time, or slowly.

use crate::program::{
    expected, from_pipe, from_reads, hold, lines_of, run, start, whole, PATIENCE,
};
use crate::text;
use std::io::Write;
use std::process::Stdio;

/// Every kind of line, in few bytes; the last one lacks its line end.
const DRIVE: &[u8] = b"jump 700\nplay 5\nplay 3\nglide 300 9\nplay 20\nseek 268435456\nplay 4096\n\
    play 4097\njump 15\nglide 300 0\nglide 15 4\nseek 1152921504606846977\nseek 1152921504606846976\n\
    \nplay\nplay \nplay  1\n play 1\nplay 1 \nplay\t1\nplay 1\r\nPLAY 1\nplay -1\nplay 1.5\njump 1 2\n\
    glide 256\nplay 0000000000000000000000020\njump 18446744073709551872\njump 4294967552\nplay 0\n\
    hum\0\xff\njump 1024\nplay 12";

#[test]
fn no_input() {
    assert_eq!(run(b"", "no input"), "total 0 0\n");
}

#[test]
fn cut_off_at_every_byte() {
    for end in 0..=DRIVE.len() {
        run(&DRIVE[..end], &format!("the first {end} bytes"));
    }
}

#[test]
fn two_reads_cut_at_every_byte() {
    let expected = expected(DRIVE);
    for at in 1..DRIVE.len() {
        let (first, second) = DRIVE.split_at(at);
        let printed = from_reads([first, second].into_iter());
        hold(&printed, &expected, &format!("cut at byte {at}"));
    }
}

#[test]
fn a_byte_at_a_time() {
    let expected = expected(DRIVE);
    hold(&from_reads(DRIVE.chunks(1)), &expected, "reads of a byte");
    hold(&from_pipe(DRIVE.chunks(1)), &expected, "writes of a byte");
}

/// The text of the whole lines of an input, before there is a total.
fn lines_so_far(input: &[u8]) -> Vec<String> {
    let ended = input.iter().rposition(|byte| *byte == b'\n');
    let whole = &input[..ended.map_or(0, |at| at + 1)];
    let text = expected(whole);
    let count = text::read(&text).len();
    text.lines().take(count).map(str::to_string).collect()
}

/// What whole lines print is there before more input is given.
#[test]
fn output_comes_as_it_goes() {
    let mut program = start(Stdio::piped());
    let mut pipe = program.stdin.take().expect("a pipe");
    let printed = lines_of(&mut program);
    let next = || printed.recv_timeout(PATIENCE).expect("a line is printed");
    let mut heard = Vec::new();
    let mut given = 0;
    for piece in DRIVE.chunks(20) {
        pipe.write_all(piece).expect("a piece");
        given += piece.len();
        let expected = lines_so_far(&DRIVE[..given]);
        heard.extend((heard.len()..expected.len()).map(|_| next()));
        assert_eq!(heard, expected, "after {given} bytes");
    }
    assert!(heard.len() > 10);
    drop(pipe);
    heard.extend(printed.iter());
    hold(&whole(&heard), &expected(DRIVE), "a slow pipe");
    assert!(program.wait().expect("the program ends").success());
}
