//! The text of `rounding_facts`: ties in levels, values, fades and outputs.

use super::{changed, K};
use crate::call::lent;
use crate::recorded::line;
use crate::EDITION;
use renderer::levels::build;
use renderer::voice::{open, order, play, seek, Card, Order, Voice};

/// Just behind word 300, by the smallest step there is.
const BEHIND: u64 = (300 << 28) + 1;

/// Half a word: what a point advances at rate 1.
const STEP: u64 = 1 << 27;

/// Words of level 1, from 1/2 to 5/2 and from -1/2 to -5/2: K with h\[0\] = 32.
fn level() -> String {
    let samples = [1, 0, 3, 0, 5, 0, -1, 0, -3, 0, -5];
    let mut store = [0; 21];
    build(EDITION, &changed(K, 9, 32), &samples, 1, &mut store);
    line("level", &store[15..])
}

/// A store of 302 samples with top level 1: its words are w, the last one of level 0
/// is `last`.
fn store_of(w: i32, last: i32) -> Vec<i32> {
    [&[302, 1, 302, 151][..], &[w; 301], &[last], &[w; 151]].concat()
}

/// A voice at rate 1 with top level 1, at a position.
fn at(position: u64) -> Voice {
    let voice = open(EDITION, Card { rate: 1.0, top: 1 }).1;
    seek(EDITION, &voice, position).1
}

/// The points after a play of `count` outputs, newest first.
fn points(voice: &Voice, book: &[i32], store: &[i32], count: usize) -> Vec<i64> {
    let mut out = vec![0; count];
    let played = play(EDITION, voice, &lent(book, store), &mut out);
    played.voice.history.to_vec()
}

/// K with impulses of 32 and a fade of four points: a value is a word / 512.
const QUIET: [i32; 11] = [2, 1, 0, 0, 4, 0, 32, 32, -32, 16384, 16384];

/// The first point of a fade to level 1, behind which the output has one more.
fn first_of_fade(position: u64, book: &[i32], store: &[i32]) -> i64 {
    let jumped = order(EDITION, &at(position), Order::Jump(2.0)).1;
    points(&jumped, book, store, 1)[1]
}

/// The value just behind word 300 in a play of one output.
fn in_one(store: &[i32]) -> i64 {
    points(&at(BEHIND - STEP), &QUIET, store, 1)[0]
}

/// The same in a play of 256, which has a table.
fn in_many(store: &[i32]) -> i64 {
    points(&at(BEHIND - 511 * STEP), &QUIET, store, 256)[0]
}

/// The same in these two and in a fade. There it is three quarters of the value and
/// one of level 1's, which is w / 512 rounded: so little that the mean is the value.
fn ways(store: &[i32]) -> [i64; 3] {
    [
        in_one(store),
        in_many(store),
        first_of_fade(BEHIND, &QUIET, store),
    ]
}

fn value(w: i32, last: i32) -> String {
    let [one, many, fade] = ways(&store_of(w, last));
    line("value", &[w.into(), last.into(), one, many, fade])
}

/// Halves, and what lies just above and below them, by so little that only the rest
/// of a division tells.
fn values() -> String {
    [256, 768, -256, -768]
        .map(|w| [w + 1, w, w - 1].map(|last| value(w, last)).concat())
        .concat()
}

/// A store of 8 samples with top level 1: the words of level 0 are w, those of level
/// 1 are 0.
fn even_store(w: i32) -> Vec<i32> {
    [&[8, 1, 8, 4][..], &[w; 8], &[0; 4]].concat()
}

/// The first of two points of a fade: a half of the old level's value.
fn faded(w: i32) -> i64 {
    first_of_fade(2 << 28, &changed(K, 4, 2), &even_store(w))
}

fn fades() -> String {
    line("fade", &[1, 3, 5, -1, -3, -5].map(faded))
}

/// An output of a word that stands for a sample / 256.
fn output(w: i32) -> String {
    let mut out = [0];
    play(EDITION, &at(2 << 28), &lent(&K, &even_store(w)), &mut out);
    line("output", &[w, out[0].into()])
}

fn outputs() -> String {
    [128, 384, 640, -128, -384, -640].map(output).concat()
}

/// All of it.
pub fn text() -> String {
    [level(), values(), fades(), outputs()].concat()
}
