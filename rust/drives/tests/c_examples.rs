//! The texts that the C examples must print are the renderer's.

use drives::call::lent;
use drives::recorded::line;
use drives::EDITION;
use renderer::book::book_number;
use renderer::levels::{build, store_length};
use renderer::programs::{bench_cases, book_k, Hum};
use renderer::voice::{open, order, play, Card, Order, Voice};
use std::fs;
use std::path::Path;

fn expected(example: &str) -> String {
    let folder = Path::new(env!("CARGO_MANIFEST_DIR")).join("../../examples/c");
    fs::read_to_string(folder.join(format!("{example}.txt"))).unwrap()
}

fn store_of(book: &[i32], samples: &[i16], top: u64) -> Vec<i32> {
    let mut store = vec![0; store_length(EDITION, samples.len() as u64, top)];
    assert_eq!(build(EDITION, book, samples, top, &mut store), 0);
    store
}

/// A voice of T 1 at its recorded speed.
fn opened() -> Voice {
    let (number, voice) = open(EDITION, Card { rate: 1.0, top: 1 });
    assert_eq!(number, 0);
    voice
}

/// The first eight samples of the test hum, and the state after them.
fn test_hum() -> String {
    let mut hum = Hum { state: 0 };
    let samples: [String; 8] = std::array::from_fn(|_| hum.next_sample().to_string());
    format!("test hum: {}, state {}\n", samples.join(" "), hum.state)
}

#[test]
fn studio() {
    let k = book_k(1, 16384, 16384);
    let mut text = format!("book K: number {}\n", book_number(&k));
    text += &format!("without its last word: number {}\n", book_number(&k[..10]));
    for (samples, top) in [(3, 1), (1, 4), (1_048_576, 4)] {
        text += &format!(
            "S {samples}, T {top}: {} words\n",
            store_length(EDITION, samples, top)
        );
    }
    text += "S 3, T 5: 0 words\n"; // T is out of range
    text += &line('A', &store_of(&k, &[0, 1000, 2000], 0));
    text += &line('B', &store_of(&k, &[0, 1000, 2000], 1));
    text += &line('C', &store_of(&k, &[0, 1000, 0, 1000], 1));
    for sample in [1, -1] {
        text += &line('F', &store_of(&book_k(1, 32, 16384), &[sample], 1));
    }
    for sample in [i16::MAX, i16::MIN] {
        text += &line('G', &store_of(&k, &[sample; 3], 0));
    }
    let mut short = [7; 8];
    let number = build(EDITION, &k, &[0, 1000, 2000], 1, &mut short);
    let meaning = "the store is shorter than its header and levels";
    text += &format!("B in 8 words: number {number}, {meaning}\n");
    assert_eq!(short, [7; 8]);
    text += "the store is as it was\n";
    text += &test_hum();
    assert_eq!(expected("studio"), text);
}

/// The lines of bench cases B and C, and the level that C ends on.
fn cases_b_and_c() -> [String; 3] {
    let cases = bench_cases(EDITION);
    let printed = |letter: char| {
        let case = cases.iter().find(|case| case.0 == letter).unwrap();
        line(letter, &case.1)
    };
    let level = cases.iter().find(|case| case.0 == 'C').unwrap().2.level;
    let level = format!("level {level} is then current\n");
    [printed('B'), printed('C'), level]
}

/// What plays of so many outputs after a jump take, as a line.
fn multiplies(book: &[i32], samples: &[i16], jump: f32, plays: &[usize]) -> String {
    let store = store_of(book, samples, 1);
    let (_, mut voice) = order(EDITION, &opened(), Order::Jump(jump));
    let mut sum = 0;
    for outputs in plays {
        let played = play(EDITION, &voice, &lent(book, &store), &mut vec![0; *outputs]);
        voice = played.voice;
        sum += played.multiplies;
    }
    format!("{sum} multiplies\n")
}

#[test]
fn unit() {
    let [b, c, level] = cases_b_and_c();
    let k = book_k(1, 16384, 16384);
    let store = store_of(&k, &[0, 1000, 2000], 1);
    // B's voice is opened at its rate, so it takes no fade
    let b_whole = multiplies(&k, &[0, 1000, 2000], 1.0, &[3]);
    let b_cut = multiplies(&k, &[0, 1000, 2000], 1.0, &[1, 1, 1]);
    let c_whole = multiplies(&book_k(4, 16384, 16384), &[0, 1000, 0, 1000], 2.0, &[2]);
    let mut damaged = opened();
    damaged.position |= 0xffff_ffff << 32;
    let mut out = [77; 2];
    let refused = play(EDITION, &damaged, &lent(&k, &store), &mut out);
    assert_eq!(out, [77; 2]);
    let refusal = format!(
        "a voice beyond 2^60: number {}, {} multiplies\nthe output is as it was\n",
        refused.number, refused.multiplies
    );
    let text = [b.clone(), b_whole, b, b_cut, c, c_whole, level, refusal];
    assert_eq!(expected("unit"), text.concat());
}

#[test]
fn both() {
    let [b, c, level] = cases_b_and_c();
    let a = line('A', &bench_cases(EDITION)[0].1);
    let (number, _) = order(EDITION, &opened(), Order::Jump(4.0));
    let refusal = format!("jump to 4: refused {number}, the rate is out of range\n");
    let rest = "the voice is as it was\n".to_owned();
    assert_eq!(
        expected("bench_cases"),
        [a, b, c, level, refusal, rest].concat()
    );
}
