//! The text of `level_facts`: the book's check, the level builder and the store's
//! check.

use super::{changed, K};
use crate::recorded::line;
use crate::stores::store_number;
use crate::EDITION;
use renderer::book::book_number;
use renderer::levels::build;
use std::fmt::Display;

fn unchanged() -> String {
    line("K", &[book_number(&K)])
}

/// A name, a word, and the check's number for a book with that word.
fn edited(name: impl Display, book: [i32; 11], at: usize, word: i32) -> String {
    let number = book_number(&changed(book, at, word));
    format!("{name} {word} {number}\n")
}

fn letter(name: char, at: usize, word: i32) -> String {
    edited(name, K, at, word)
}

fn sizes() -> String {
    [
        letter('N', 0, 1),
        letter('N', 0, 3),
        letter('N', 0, 26),
        letter('N', 0, -2),
        letter('M', 1, 0),
        letter('M', 1, 3),
        letter('M', 1, 256),
        letter('A', 2, 41),
        letter('B', 3, -1),
        letter('F', 4, 0),
        letter('F', 4, 256),
        letter('F', 4, 257),
    ]
    .concat()
}

/// Sizes of a longer book.
fn lengths() -> String {
    [letter('N', 0, 4), letter('M', 1, 2), letter('A', 2, 1)].concat()
}

fn words() -> String {
    [
        letter('G', 6, 32768),
        letter('h', 9, -32769),
        letter('g', 10, 32768),
        letter('h', 9, 32767),
        letter('h', 9, -32768),
    ]
    .concat()
}

fn difference(word: i32) -> String {
    edited("difference", K, 7, word)
}

fn differences() -> String {
    [
        edited("G_0[0]", K, 5, 1),
        difference(0),
        edited("last difference", K, 8, 0),
        difference(40000),
    ]
    .concat()
}

/// Two conditions at once.
fn pairs() -> String {
    [
        edited("G_0[0] 1 and g", changed(K, 5, 1), 10, 32768),
        edited("G_0[0] 1 and difference", changed(K, 5, 1), 7, 0),
        edited("F 0 and G_0[0]", changed(K, 4, 0), 5, 1),
    ]
    .concat()
}

/// The number of a book with the phase 0, 32767, 32767, x: its last two differences
/// are d and e.
fn phase(x: i32, d: i32, e: i32) -> u32 {
    let sizes = [4, 1, 0, 0, 1];
    let impulses = [0, 32767, 32767, x];
    let differences = [32767, 0, d, e];
    book_number(&[&sizes[..], &impulses, &differences, &[16384, 16384]].concat())
}

/// The number of a book with the level taps 16384, h and the decimation taps
/// -16384, g.
fn outer_taps(h: i32, g: i32) -> u32 {
    book_number(&[2, 1, 1, 1, 1, 0, 16384, 16384, -16384, 16384, h, -16384, g])
}

/// Sums of absolute values: a phase of 65536 and of 65538, and taps of 32768 and of
/// 32770.
fn sums() -> String {
    let rest = [
        phase(4, -32763, -4),
        outer_taps(-8192, 8192),
        outer_taps(-8193, 8192),
        outer_taps(-8192, 8193),
    ];
    line(phase(2, -32765, -2), &rest)
}

/// The first words of K.
fn starts() -> String {
    let number = |count: usize| book_number(&K[..count]);
    line(number(4), &[0, 5, 10].map(number))
}

/// Builds into the first `room` words of a store of nines: the number, and every
/// word of the store afterwards.
fn built(book: &[i32], samples: &[i16], top: u64, room: usize) -> String {
    let mut store = [9; 16];
    let number = build(EDITION, book, samples, top, &mut store[..room]);
    line(number, &store)
}

const RAMP: [i16; 3] = [0, 1000, 2000];

/// A store of a ramp.
fn ramp(top: u64, room: usize) -> String {
    built(&K, &RAMP, top, room)
}

/// A store of no samples, with K and with four words of it.
fn no_samples() -> String {
    [built(&K, &[], 1, 16), built(&K[..4], &[], 5, 0)].concat()
}

fn smooth() -> String {
    let samples = [-3, 5, -7, 9, -32768];
    let book = [2, 1, 1, 0, 1, 0, 16384, 16384, -16384, 8192, 4096, 16384];
    built(&book, &samples, 1, 16)
}

fn faint() -> String {
    let samples = [-32, 1, -33, 1, -96];
    built(&changed(K, 9, 1), &samples, 1, 16)
}

fn checks() -> String {
    [
        unchanged(),
        sizes(),
        lengths(),
        words(),
        differences(),
        pairs(),
        sums(),
        starts(),
    ]
    .concat()
}

fn stores() -> String {
    [
        ramp(0, 16),
        ramp(1, 16),
        ramp(1, 9),
        ramp(1, 8),
        ramp(4, 16),
        ramp(5, 16),
        no_samples(),
        ramp(5, 0),
        smooth(),
        faint(),
    ]
    .concat()
}

/// A ramp's store with a word changed: S 3, T 1 and the lengths 3 and 2 stand first.
fn store_with(at: usize, word: i32) -> [i32; 9] {
    let mut store = [0; 9];
    build(EDITION, &K, &RAMP, 1, &mut store);
    changed(store, at, word)
}

/// A name, a word, and the check's number for a store with that word.
fn header(name: &str, at: usize, word: i32) -> String {
    let number = store_number(&store_with(at, word));
    format!("{name} {word} {number}\n")
}

/// S and T out of range; in range, but of a longer store; of a shorter one.
fn named() -> String {
    [
        header("S", 0, 3),
        header("S", 0, 0),
        header("S", 0, -3),
        header("S", 0, 1048577),
        header("S", 0, 1048576),
        header("S", 0, 4),
        header("S", 0, 2),
        header("T", 1, -1),
        header("T", 1, 5),
        header("T", 1, 4),
        header("T", 1, 2),
        header("T", 1, 0),
    ]
    .concat()
}

/// Written lengths, and a word of a level.
fn written() -> String {
    [
        header("length 0", 2, 2),
        header("length 0", 2, 4),
        header("length 1", 3, 1),
        header("length 1", 3, -2),
        header("word", 4, i32::MIN),
    ]
    .concat()
}

/// The first words of such a store.
fn cut() -> String {
    let words = [3, 1, 3, 2, 0, 256000, 512000, 0, 512000];
    let number = |count: usize| store_number(&words[..count]);
    line(number(0), &[1, 2, 8, 9].map(number))
}

fn headers() -> String {
    [named(), written(), cut()].concat()
}

/// All of it.
pub fn text() -> String {
    [checks(), stores(), headers()].concat()
}
