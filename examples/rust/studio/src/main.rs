//! A studio's program: tests books, asks how long stores are, builds the stores of
//! document 01's bench cases, with its book K, and draws the test hum's first
//! samples. It knows no player and links no more than libtone_builder.a. It prints
//! what its twin in C prints, `examples/c/studio.txt`.

use tone::{build, check, store_words, test_hum, Refusal};

/// Book K with a level tap h[0]; 16384 leaves the levels unfiltered.
fn book_k(level_tap: i32) -> [i32; 11] {
    [2, 1, 0, 0, 1, 0, 16384, 16384, -16384, level_tap, 16384]
}

/// The number of an answer; 0 where it is accepted.
fn number(answer: Result<(), Refusal>) -> u32 {
    answer.map_or_else(Refusal::number, |()| 0)
}

fn print_length(sample_count: usize, top: u32) {
    let words = store_words(sample_count, top).unwrap_or(0);
    println!("S {sample_count}, T {top}: {words} words");
}

/// Builds a store of the length that it needs, and prints its words after the
/// case's letter: S, T, the lengths of the levels, then the levels.
fn print_store(letter: char, level_tap: i32, samples: &[i16], top: u32) -> Result<(), Refusal> {
    let mut store = vec![0; store_words(samples.len(), top).unwrap_or(0)];
    build(&book_k(level_tap), samples, top, &mut store)?;
    let words: Vec<String> = store.iter().map(i32::to_string).collect();
    println!("{letter} {}", words.join(" "));
    Ok(())
}

/// A store that is one word too short is refused, and no word of it is written.
fn refusal() {
    let mut store = [7; 8];
    if let Err(refusal) = build(&book_k(16384), &[0, 1000, 2000], 1, &mut store) {
        let (number, meaning) = (refusal.number(), refusal.meaning());
        println!("B in 8 words: number {number}, {meaning}");
    }
    let kept = if store == [7; 8] {
        "as it was"
    } else {
        "changed"
    };
    println!("the store is {kept}");
}

/// The first samples of the test hum, in two calls: the second goes on where the
/// first one ended.
fn print_test_hum() {
    let mut samples = [0; 8];
    let state = test_hum(0, &mut samples[..5]);
    let state = test_hum(state, &mut samples[5..]);
    let samples = samples.map(|sample| sample.to_string());
    println!("test hum: {}, state {state}", samples.join(" "));
}

fn main() -> Result<(), Refusal> {
    let book = book_k(16384);
    println!("book K: number {}", number(check(&book)));
    println!(
        "without its last word: number {}",
        number(check(&book[..10]))
    );
    for (sample_count, top) in [(3, 1), (1, 4), (tone::MOST_SAMPLES, tone::MOST_TOP), (3, 5)] {
        print_length(sample_count, top);
    }
    print_store('A', 16384, &[0, 1000, 2000], 0)?;
    print_store('B', 16384, &[0, 1000, 2000], 1)?;
    print_store('C', 16384, &[0, 1000, 0, 1000], 1)?;
    print_store('F', 32, &[1], 1)?;
    print_store('F', 32, &[-1], 1)?;
    print_store('G', 16384, &[i16::MAX; 3], 0)?;
    print_store('G', 16384, &[i16::MIN; 3], 0)?;
    refusal();
    print_test_hum();
    Ok(())
}
