//! Request (c): the last step's limit is worked out by arithmetic. Its source, with
//! that of all it calls, has no branch and no loop, and every output goes through it.

mod source;

use source::{tokens, Sources, BRANCHES};
use std::collections::BTreeSet;
use std::fs;
use std::path::{Path, PathBuf};

fn crates() -> PathBuf {
    Path::new(env!("CARGO_MANIFEST_DIR")).join("../../crates")
}

fn product() -> Sources {
    Sources::read(&crates())
}

fn set(words: &[&str]) -> BTreeSet<String> {
    words.iter().map(|word| word.to_string()).collect()
}

#[test]
fn the_limit_has_no_branch() {
    assert_eq!(product().branches("arith", "limit16"), set(&[]));
}

/// The way of the outputs: a function, a name in it, and under them all statements
/// that have this name. From the archive's call on the output words are handed on,
/// whole or by the run, until `write_samples` stores them; what it stores are sums',
/// which nothing but `sample` rounds and limits.
const WAY: &str = "
tone::tone_play out
    let played = marshal::play(voice, book, store, out)
marshal::play out
    let played = voice_of(voice).play(book, store, out)?
player::calls::play out
    Ok(fill(self, book, store, out))
player::outputs::fill out
    return fill_within::<1048>(&v, book, store, out)
    fill_within::<4136>(&v, book, store, out)
player::outputs::fill_within out
    fill_from(&source, v, out)
player::outputs::fill_from out
    decimation.write_outputs(&line, &mut out[i..end])
player::outputs::fill_from decimation
    let decimation = Taps::of(source.book)
    decimation.write_outputs(&line, &mut out[i..end])
    let reach = decimation.taps.len() - 1
decimation::write_outputs out
    self.write_lanes::<4>(line, 0, out)
    self.write_lanes::<1>(line, fours, &mut out[fours..])
decimation::write_lanes out
    write_samples(&sums, &mut out[i..i + LANES])
decimation::write_lanes sums
    let sums = self.sums::<LANES>(line, newest - 2 * (first + i))
    write_samples(&sums, &mut out[i..i + LANES])
decimation::write_samples out
    out[j] = sample(sums[j])
decimation::write_samples sums
    out[j] = sample(sums[j])
decimation::sample sum
    arith::limit16(arith::near(sum, 2097152) as i32)
";

/// Where sources leave the way.
fn strays(sources: &Sources) -> Vec<&'static str> {
    let mut strays = Vec::new();
    let mut lines = WAY.lines().filter(|line| !line.is_empty()).peekable();
    while let Some(heading) = lines.next() {
        let (path, name) = heading.split_once(' ').unwrap();
        let (module, function) = path.rsplit_once("::").unwrap();
        let mut expected = Vec::new();
        while let Some(line) = lines.next_if(|line| line.starts_with(' ')) {
            expected.push(tokens(line));
        }
        if sources.statements(module, function, name) != expected {
            strays.push(heading);
        }
    }
    strays
}

/// It is the limit of every output.
#[test]
fn the_limit_is_the_last_step() {
    let product = product();
    let last = set(&["arith::near", "arith::limit16"]);
    assert_eq!(product.called("decimation", "sample"), last);
    assert_eq!(
        product.called("decimation", "write_samples"),
        set(&["decimation::sample"])
    );
    assert_eq!(strays(&product), [""; 0]);
    assert!(product.imports("player::calls", "crate::outputs::fill"));
    assert!(product.imports("player::outputs", "decimation::Taps"));
}

/// An output that is stored or limited elsewhere, or not limited, is seen: each edit of
/// decimation, and where it leaves the way.
#[test]
fn other_ways_are_seen() {
    let lanes = [
        "decimation::write_lanes out",
        "decimation::write_lanes sums",
    ];
    let samples = [
        "decimation::write_samples out",
        "decimation::write_samples sums",
    ];
    let path = crates().join("decimation/src/lib.rt");
    let text = fs::read_to_string(path).expect("the source of decimation");
    let edits: [(&str, &str, &[&str]); 9] = [
        (
            "write_samples(&sums, &mut out[i..i + LANES]);",
            "out[i] = sample(sums[0]);",
            &lanes,
        ),
        (
            "write_samples(&sums, &mut out[i..i + LANES]);",
            "write_samples(&within(sums), &mut out[i..i + LANES]);",
            &lanes,
        ),
        (
            "write_samples(&sums, &mut out[i..i + LANES]);",
            "let sums = within(sums); write_samples(&sums, &mut out[i..i + LANES]);",
            &lanes[1..],
        ),
        (
            "let i = LANES * turn;",
            "let i = LANES * turn; out[i] = 0;",
            &lanes[..1],
        ),
        (
            "self.sums::<LANES>(line, newest",
            "within(newest",
            &lanes[1..],
        ),
        (
            "self.write_lanes::<1>(line, fours, &mut out[fours..]);",
            "let words = out;",
            &["decimation::write_outputs out"],
        ),
        (
            "out[j] = sample(sums[j]);",
            "out[j] = arith::near(sums[j], 2097152) as i16;",
            &samples,
        ),
        (
            "out[j] = sample(sums[j]);",
            "out[j] += sample(sums[j]);",
            &samples,
        ),
        (
            "arith::limit16(arith::near(sum, 2097152) as i32)",
            "arith::near(sum, 2097152) as i16",
            &["decimation::sample sum"],
        ),
    ];
    for (old, new, expected) in edits {
        assert_eq!(text.matches(old).count(), 1, "{old}");
        let edited = product().with("decimation", &text.replace(old, new));
        assert_eq!(strays(&edited), expected, "{new}");
    }
}

/// What is not the limit may have branches, and they are seen: the reader is not blind.
#[test]
fn branches_of_the_product_are_seen() {
    let product = product();
    // the rounding before the limit has none of its own
    assert_eq!(
        product.branches("arith", "near"),
        set(&["arith::.::rem_euclid: no source"])
    );
    assert_eq!(
        product.branches("arith", "floor_div"),
        set(&["arith::floor_div: if", "arith::floor_div: else"])
    );
    let fade = product.branches("arith", "near_by");
    for branch in ["arith::near_by: if", "arith::floor_div: if"] {
        assert!(fade.contains(branch));
    }
    // and across crates
    let rows = product.branches("octave::blocks", "write_rows");
    for branch in [
        "octave::blocks::write_rows: if",
        "pair_sums::write_row: for",
    ] {
        assert!(rows.contains(branch));
    }
}

/// Each of the words is found in a function, and in what it calls at second hand.
#[test]
fn every_word_is_found() {
    for word in BRANCHES {
        let lowest = format!("fn lowest(x: i64) -> i64 {{ x {word} x }}");
        let sources = Sources::new(&[
            ("high", "fn limit(x: i64) -> i64 { middle(x) + 1 } fn middle(x: i64) -> i64 { low::part::lowest(x) }"),
            ("low::part", &lowest),
        ]);
        let expected = set(&[&format!("low::part::lowest: {word}")]);
        assert_eq!(sources.branches("low::part", "lowest"), expected);
        assert_eq!(sources.branches("high", "limit"), expected);
    }
}

/// A comment, a text, a longer name and another function do not count.
#[test]
fn other_places_do_not_count() {
    let text = r#"
        fn other(x: i64) -> i64 { if x < 0 { 0 } else { x } }
        // if it is so
        fn limit(x: i64) -> i64
            requires { ⌜ x ≡ x ⌝ }
            ensures { λ r. ⌜ r ≡ x ⌝ }
        {
            let differs = x != 0; // for all, || and &&
            let loop_of = differs as i64;
            loop_of
        }
        fn another(x: i64) -> i64 { while x < 0 {} "match" }
    "#;
    let sources = Sources::new(&[("one", text)]);
    assert_eq!(sources.branches("one", "limit"), set(&[]));
}

/// What cannot be read is not taken for straight code.
#[test]
fn unread_calls_count() {
    let text = "
        fn outside(x: i64) -> i64 { std::num::low(x) }
        fn method(x: i64) -> i64 { x.low() }
        fn low(x: i64) -> i64 { x }
        fn macro_of(x: i64) -> i64 { low!(x) }
        fn round(x: i64) -> i64 { back(x) }
        fn back(x: i64) -> i64 { round(x) }
        fn twice(x: i64) -> i64 { x }
        fn twice(x: i64) -> i64 { x }
        fn of_array(x: &[i64; 4]) -> i64 { low(x[0]) }
        fn bodiless(x: &[i64; 4]) -> i64;
    ";
    let sources = Sources::new(&[("one", text)]);
    let found = |name| sources.branches("one", name);
    assert_eq!(found("low"), set(&[]));
    assert_eq!(found("of_array"), set(&[]));
    assert_eq!(found("outside"), set(&["one::std::num::low: no source"]));
    assert_eq!(found("method"), set(&["one::.::low: no source"]));
    assert_eq!(found("macro_of"), set(&["one::low::!: no source"]));
    assert_eq!(found("round"), set(&["one::round: calls itself"]));
    assert_eq!(found("twice"), set(&["one::twice: no source"]));
    assert_eq!(found("bodiless"), set(&["one::bodiless: no source"]));
}
