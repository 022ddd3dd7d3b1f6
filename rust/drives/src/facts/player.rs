//! The text of `player_facts`: glides, limits, the levels along a glide and the ends
//! of their bands, the multiply counts of outputs, and every number of every call,
//! with whether the voice came back as it was and the multiply count of a play.

use super::damage::{with, Field};
use super::{changed, K};
use crate::call::lent;
use crate::recorded::line;
use crate::EDITION;
use renderer::voice::{open, order, play, seek, Card, Order, Voice};

/// K with a fade of 4 points.
const SLOW: [i32; 11] = [2, 1, 0, 0, 4, 0, 16384, 16384, -16384, 16384, 16384];

/// K with a fade of 3 points, which ends inside an output.
const ODD: [i32; 11] = [2, 1, 0, 0, 3, 0, 16384, 16384, -16384, 16384, 16384];

/// The sizes of source document 002, N = 12 and B = 3, with a fade of 4 points: the
/// sample next to P, and a mean of three points.
const TWELVE: [i32; 34] = [
    12, 1, 0, 3, 4, // sizes
    0, 0, 0, 0, 0, 0, 16384, 0, 0, 0, 0, 0, // impulses
    0, 0, 0, 0, 0, 16384, -16384, 0, 0, 0, 0, 0, // differences
    16384, 8192, 4096, 0, 0, // taps
];

/// A silent store of 3 samples with top level 1: S, T, two lengths, 3 + 2 words.
const SILENT: [i32; 9] = [3, 1, 3, 2, 0, 0, 0, 0, 0];

/// The same with top level 4: S, T, five lengths, 3 + 2 + 1 + 1 + 1 words.
const SILENT_4: [i32; 15] = [3, 4, 3, 2, 1, 1, 1, 0, 0, 0, 0, 0, 0, 0, 0];

/// A position past the last, 2^60.
const FAR: u64 = (1 << 60) + 1;

/// A point past the loudest, 2^29.
const LOUD: u64 = (1 << 29) + 1;

/// A number, and whether the voice came back as it was.
fn number(label: &str, given: &Voice, (number, voice): (u32, Voice)) -> String {
    let state = match voice == *given {
        true => "kept",
        false => "moved",
    };
    format!("{label} {number} {state}")
}

fn answered(label: &str, given: &Voice, answer: (u32, Voice)) -> String {
    number(label, given, answer) + "\n"
}

fn opening(label: &str, rate: f32, top: u64) -> String {
    let (number, voice) = open(EDITION, Card { rate, top });
    format!("{label} {number} {}\n", voice.rate)
}

/// Rates at the limits.
fn limits() -> String {
    [
        opening("open 1/16", 0.0625, 0),
        opening("open below 1/16", 0.062499996, 0),
        opening("open 2 T 0", 2.0, 0),
        opening("open 2 T 1", 2.0, 1),
        opening("open 31.999998 T 4", 31.999998, 4),
        opening("open 32 T 4", 32.0, 4),
    ]
    .concat()
}

/// Rates that no voice has, and a top level that none has.
fn no_rates() -> String {
    [
        opening("open NaN", f32::NAN, 4),
        opening("open infinity", f32::INFINITY, 4),
        opening("open -1", -1.0, 4),
        opening("open -0", -0.0, 4),
        opening("open T 5", 1.0, 5),
        opening("open NaN T 5", f32::NAN, 5),
    ]
    .concat()
}

/// A voice at rate 1 with top level 1.
fn fresh() -> Voice {
    open(EDITION, Card { rate: 1.0, top: 1 }).1
}

/// The same in a glide.
fn gliding(target: f32, count: u64) -> Voice {
    order(EDITION, &fresh(), Order::Glide(target, count)).1
}

/// One output more, and its rate.
fn one_output(voice: &mut Voice) -> u64 {
    *voice = play(EDITION, voice, &lent(&K, &SILENT), &mut [0]).voice;
    voice.rate
}

/// The rates of the outputs of a glide from 1 to 2 over 4 and of one after it, and
/// the count of the glide that is left.
fn glide() -> String {
    let mut voice = gliding(2.0, 4);
    let mut words = [0; 5].map(|_| one_output(&mut voice)).to_vec();
    words.push(voice.glide_count);
    line("glide", &words)
}

/// The rate of a voice, and its current level: in a fade the old one.
fn rate_and_level(voice: &Voice) -> [u64; 2] {
    [voice.rate, voice.level as u64]
}

/// One output more, and its rate and the level after it.
fn level_after(voice: &mut Voice, book: &[i32]) -> [u64; 2] {
    *voice = play(EDITION, voice, &lent(book, &SILENT_4), &mut [0]).voice;
    rate_and_level(voice)
}

/// A glide of 8 outputs to a rate.
fn glide_levels(label: &str, voice: &mut Voice, target: f32, book: &[i32]) -> String {
    *voice = order(EDITION, voice, Order::Glide(target, 8)).1;
    line(label, &[0; 8].map(|_| level_after(voice, book)).concat())
}

/// A voice with top level 4.
fn high(rate: f32) -> Voice {
    open(EDITION, Card { rate, top: 4 }).1
}

/// From 2 down past 1.875 to 1.75 and up again, with a fade of one point and of four.
fn glides_past_the_band() -> String {
    let (mut fast, mut slow) = (high(2.0), high(2.0));
    [
        glide_levels("down", &mut fast, 1.75, &K),
        glide_levels("up", &mut fast, 2.0, &K),
        glide_levels("down, F 4", &mut slow, 1.75, &SLOW),
        glide_levels("up, F 4", &mut slow, 2.0, &SLOW),
    ]
    .concat()
}

/// One output after a jump.
fn level_at(voice: &mut Voice, rate: f32) -> [u64; 2] {
    *voice = order(EDITION, voice, Order::Jump(rate)).1;
    level_after(voice, &K)
}

/// A level's band: opened at its end, and from the level itself to that end, just
/// below it and back, and to the lowest rate.
fn band(label: &str, octave: f32, end: f32, below: f32) -> String {
    let voice = high(octave);
    let (mut falling, mut lowest) = (voice, voice);
    let words = [
        rate_and_level(&high(end)),
        rate_and_level(&voice),
        level_at(&mut falling, end),
        level_at(&mut falling, below),
        level_at(&mut falling, end),
        level_at(&mut lowest, 0.0625),
    ];
    line(label, &words.concat())
}

/// The bands of levels 1 to 4: down to 15/16 of the octave.
fn bands() -> String {
    [
        band("band of 1", 2.0, 1.875, 1.8749999),
        band("band of 2", 4.0, 3.75, 3.7499998),
        band("band of 3", 8.0, 7.5, 7.4999995),
        band("band of 4", 16.0, 15.0, 14.999999),
    ]
    .concat()
}

/// One output more, and its multiply count.
fn count_after(voice: &mut Voice, book: &[i32]) -> u64 {
    let played = play(EDITION, voice, &lent(book, &SILENT), &mut [0]);
    *voice = played.voice;
    played.multiplies
}

/// Two outputs, and four more after a jump across the octave; then these four in one
/// play.
fn counts(label: &str, book: &[i32]) -> String {
    let mut voice = fresh();
    let mut words = [0; 2].map(|_| count_after(&mut voice, book)).to_vec();
    let (_, jumped) = order(EDITION, &voice, Order::Jump(2.0));
    voice = jumped;
    words.extend([0; 4].map(|_| count_after(&mut voice, book)));
    words.push(play(EDITION, &jumped, &lent(book, &SILENT), &mut [0; 4]).multiplies);
    line(label, &words)
}

/// Fades that end inside an output and with it.
fn all_counts() -> String {
    [
        counts("multiplies, F 1", &K),
        counts("multiplies, F 3", &ODD),
        counts("multiplies, F 4", &SLOW),
        counts("multiplies, N 12, B 3", &TWELVE),
    ]
    .concat()
}

fn jumped(label: &str, voice: &Voice, rate: f32) -> String {
    answered(label, voice, order(EDITION, voice, Order::Jump(rate)))
}

fn glided(label: &str, voice: &Voice, target: f32, count: u64) -> String {
    let answer = order(EDITION, voice, Order::Glide(target, count));
    answered(label, voice, answer)
}

fn sought(label: &str, voice: &Voice, position: u64) -> String {
    answered(label, voice, seek(EDITION, voice, position))
}

fn played(label: &str, voice: &Voice, book: &[i32], store: &[i32], out: &mut [i16]) -> String {
    let answer = play(EDITION, voice, &lent(book, store), out);
    let answered = number(label, voice, (answer.number, answer.voice));
    format!("{answered} {}\n", answer.multiplies)
}

fn orders() -> String {
    let v = fresh();
    [
        jumped("jump 2", &v, 2.0),
        jumped("jump 4", &v, 4.0),
        glided("glide c 0", &v, 2.0, 0),
        glided("glide c 65536", &v, 2.0, 65536),
        glided("glide c 65537", &v, 2.0, 65537),
        glided("glide 4 c 0", &v, 4.0, 0),
        glided("glide 4, P", &with(v, Field::Position, FAR), 4.0, 0),
        jumped("jump 2, i", &with(v, Field::Step, 7), 2.0),
    ]
    .concat()
}

fn seeks() -> String {
    let v = fresh();
    let loud = with(v, Field::Point, LOUD);
    [
        sought("seek 2^60", &v, FAR - 1),
        sought("seek 2^60 + 1", &v, FAR),
        sought("seek 2^60 + 1, point", &loud, FAR),
    ]
    .concat()
}

/// Each state, in an order, a seek and a play.
fn state(label: &str, voice: &Voice) -> String {
    [
        jumped(label, voice, 1.5),
        sought(label, voice, 5),
        played(label, voice, &SLOW, &SILENT, &mut [7; 2]),
    ]
    .concat()
}

/// A fresh voice with a field changed.
fn damaged(label: &str, field: Field, x: u64) -> String {
    state(label, &with(fresh(), field, x))
}

/// A fresh voice with two fields changed.
fn damaged_twice(label: &str, field: Field, x: u64, other: Field, y: u64) -> String {
    state(label, &with(with(fresh(), field, x), other, y))
}

/// A voice in a glide with a field changed.
fn damaged_glide(label: &str, field: Field, x: u64) -> String {
    state(label, &with(gliding(1.5, 9), field, x))
}

fn fades() -> String {
    [
        damaged("T 5", Field::Top, 5),
        damaged("from 2", Field::From, 2),
        damaged("to 2", Field::To, 2),
        damaged("unequal at rest", Field::To, 1),
        damaged("equal in a fade", Field::Step, 1),
        damaged_twice("i 4", Field::Step, 4, Field::To, 1),
        damaged_twice("i 3", Field::Step, 3, Field::To, 1),
    ]
    .concat()
}

fn rates() -> String {
    [
        damaged("R low", Field::Rate, 8388607),
        damaged("R high", Field::Rate, 536870912),
        damaged("R0 at rest", Field::Start, 1),
        damaged_glide("R0 low", Field::Start, 8388607),
        damaged_glide("R1 high", Field::Target, 536870912),
        damaged_glide("c 65537", Field::Count, 65537),
        damaged_glide("j 9", Field::Done, 9),
        damaged_glide("j 8", Field::Done, 8),
    ]
    .concat()
}

fn places() -> String {
    [
        damaged("P high", Field::Position, FAR),
        damaged("point high", Field::Point, LOUD),
        damaged("point 2^29", Field::Point, LOUD - 1),
    ]
    .concat()
}

/// Two conditions at once.
fn pairs() -> String {
    [
        damaged("13 and 14", Field::To, 2),
        damaged_twice("13 and 15", Field::To, 2, Field::Rate, 1),
        damaged_twice("14 and 15", Field::To, 1, Field::Rate, 1),
        damaged_twice("15 and 16", Field::Rate, 1, Field::Position, FAR),
        damaged_twice("16 and 17", Field::Position, FAR, Field::Point, LOUD),
    ]
    .concat()
}

/// A play of two outputs, and what they are afterwards.
fn lend(label: &str, voice: &Voice, book: &[i32], store: &[i32]) -> String {
    let mut out = [7; 2];
    played(label, voice, book, store, &mut out) + &line("", &out)
}

fn lent_book(label: &str, book: &[i32]) -> String {
    lend(label, &fresh(), book, &SILENT)
}

/// Books of a wrong length, or with sizes or words out of range.
fn sizes() -> String {
    [
        lent_book("play 1", &K[..4]),
        lent_book("play 2", &changed(K, 0, 3)),
        lent_book("play 3", &K[..10]),
        lent_book("play 4", &changed(K, 9, 40000)),
    ]
    .concat()
}

/// Books with a wrong first word, difference or sum.
fn words() -> String {
    let first = [2, 1, 0, 0, 1, 1, 16384, 16383, -16384, 16384, 16384];
    let heavy = [
        4, 1, 0, 0, 1, 0, 32767, 32767, 4, 32767, 0, -32763, -4, 16384, 16384,
    ];
    [
        lent_book("play 5", &first),
        lent_book("play 6", &changed(K, 8, 16384)),
        lent_book("play 7", &heavy),
    ]
    .concat()
}

fn lent_store(label: &str, store: &[i32]) -> String {
    lend(label, &fresh(), &K, store)
}

/// The silent store with a word of its header changed.
fn lent_header(label: &str, at: usize, word: i32) -> String {
    lent_store(label, &changed(SILENT, at, word))
}

/// Stores that are cut short, or name an S or a T out of range.
fn stores() -> String {
    [
        lent_store("play no words", &SILENT[..0]),
        lent_store("play one word", &SILENT[..1]),
        lent_store("play two words", &SILENT[..2]),
        lent_store("play 9", &SILENT[..8]),
        lent_header("play S 0", 0, 0),
        lent_header("play S -3", 0, -3),
        lent_header("play S 1048577", 0, 1048577),
        lent_header("play S 4", 0, 4),
        lent_header("play T -1", 1, -1),
        lent_header("play T 5", 1, 5),
        lent_header("play T 2", 1, 2),
    ]
    .concat()
}

/// A studio's store with a wrong length, and a store of another top level than the
/// voice's.
fn headers() -> String {
    [
        lent_header("play 18, level 0", 2, 2),
        lent_header("play 18, level 1", 3, 3),
        lent_header("play 19", 1, 0),
        lent_store("play", &SILENT),
    ]
    .concat()
}

fn lent_voice(label: &str, field: Field, x: u64, store: &[i32]) -> String {
    lend(label, &with(fresh(), field, x), &K, store)
}

/// Conditions of a book, a store and a voice at once.
fn mixed() -> String {
    let shorter = [3, 0, 3, 0, 0, 0];
    [
        lend("play 1 and 9", &fresh(), &K[..4], &SILENT[..0]),
        lent_voice("play 18 and 13", Field::To, 2, &changed(SILENT, 2, 2)),
        lent_voice("play 13 and 19", Field::Top, 5, &SILENT),
        lent_voice("play 19, T 0", Field::Top, 0, &SILENT),
        lent_voice("play 19, T 2", Field::Top, 2, &SILENT),
        lent_voice("play 19 and 14", Field::Step, 1, &shorter),
        lent_voice("play 19 and 17", Field::Point, LOUD, &shorter),
    ]
    .concat()
}

/// A play of no outputs leaves the voice as it was.
fn no_outputs() -> String {
    played("play 0", &fresh(), &K, &SILENT, &mut [])
}

/// All of it.
pub fn text() -> String {
    [
        limits(),
        no_rates(),
        glide(),
        glides_past_the_band(),
        bands(),
        all_counts(),
        orders(),
        seeks(),
        state("fresh", &fresh()),
        fades(),
        rates(),
        places(),
        pairs(),
        sizes(),
        words(),
        stores(),
        headers(),
        mixed(),
        no_outputs(),
    ]
    .concat()
}
