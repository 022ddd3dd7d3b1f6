//! The text of `long_drive`: a check number of a million samples, and the last two.

use crate::call::lent;
use crate::recorded::line;
use crate::EDITION;
use renderer::levels::build;
use renderer::voice::{open, order, play, seek, Card, Order, Voice};

/// The program's book, as its source has it.
const SOURCE: &str = include_str!("../../../../crates/long_drive/src/filter.rt");

fn book() -> Vec<i32> {
    let (_, words) = SOURCE
        .split_once("BOOK: Book = [")
        .expect("a book in the source");
    let (words, _) = words.split_once(']').expect("its end");
    let words = words
        .split(',')
        .map(str::trim)
        .filter(|word| !word.is_empty());
    words.map(|word| word.parse().expect("a word")).collect()
}

/// Sample i of the hum: two ramps of different lengths, one less the other.
fn hum_at(i: usize) -> i16 {
    (i % 331 * 60) as i16 - (i % 97 * 80) as i16
}

/// What is done before block n: a jump, a glide or a seek to the start.
fn steered(voice: &Voice, n: u32) -> Voice {
    match n % 8 {
        0 => seek(EDITION, voice, 0).1,
        3 => order(EDITION, voice, Order::Jump(1.5)).1,
        5 => order(EDITION, voice, Order::Glide(3.0, 2000)).1,
        _ => *voice,
    }
}

/// The check number after one more block: c × 31 + sample, modulo 2^31 - 1, over the
/// block.
fn checked(check: u64, block: &[i16]) -> u64 {
    block.iter().fold(check, |check, sample| {
        let raised = (i64::from(*sample) + 32768) as u64;
        (check * 31 + raised) % ((1 << 31) - 1)
    })
}

/// All of it.
pub fn text() -> String {
    let book = book();
    let samples: Vec<i16> = (0..32768).map(hum_at).collect();
    let mut store = vec![0; 65536];
    build(EDITION, &book, &samples, 2, &mut store);
    let mut voice = open(EDITION, Card { rate: 1.5, top: 2 }).1;
    let mut block = [0; 4000];
    let mut check = 0;
    for n in 0..250 {
        voice = steered(&voice, n);
        voice = play(EDITION, &voice, &lent(&book, &store), &mut block).voice;
        check = checked(check, &block);
    }
    line(check, &block[3998..])
}
