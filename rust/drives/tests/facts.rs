//! What the texts of `level_facts` and `player_facts` show: every number, and that a
//! refused call leaves all as it was.

use drives::facts::{levels, player};
use std::collections::BTreeSet;

/// Words of a line that begins with a building's number: the store's follow it.
const BUILT: usize = 17;

/// The numbers of a line of `level_facts`: the one before the words of a store, all
/// of a list, or the one after a name.
fn level_numbers(line: &str) -> Vec<u32> {
    let words: Vec<&str> = line.split(' ').collect();
    let numbers = match words[0].parse::<u32>() {
        Ok(_) if words.len() == BUILT => &words[..1],
        Ok(_) => &words[..],
        Err(_) => &words[words.len() - 1..],
    };
    numbers.iter().map(|word| word.parse().unwrap()).collect()
}

#[test]
fn every_number_of_levels() {
    let text = levels::text();
    let seen: BTreeSet<u32> = text.lines().flat_map(level_numbers).collect();
    assert_eq!(seen, (0..=9).chain([18]).collect());
}

#[test]
fn refused_buildings_write_nothing() {
    let text = levels::text();
    let built = text.lines().filter(|l| l.split(' ').count() == BUILT);
    let refused: Vec<&str> = built.filter(|line| !line.starts_with("0 ")).collect();
    let nines = " 9".repeat(BUILT - 1);
    let expected = [9, 8, 8, 1, 8].map(|number| format!("{number}{nines}"));
    assert_eq!(refused, expected);
}

/// An order, a seek or a play of `player_facts`.
struct Answer<'a> {
    label: &'a str,
    number: u32,
    /// Whether the voice came back as it was.
    kept: bool,
    /// The multiply count of a play.
    multiplies: Option<u64>,
}

fn answer(line: &str) -> Option<Answer<'_>> {
    let (before, last) = line.rsplit_once(' ')?;
    let (line, multiplies) = match last.parse() {
        Ok(count) => (before, Some(count)),
        Err(_) => (line, None),
    };
    let kept = line.ends_with(" kept");
    let line = line.strip_suffix(" kept").or(line.strip_suffix(" moved"))?;
    let (label, number) = line.rsplit_once(' ')?;
    Some(Answer {
        label,
        number: number.parse().ok()?,
        kept,
        multiplies,
    })
}

/// And they have no multiplies, where a play of some outputs has.
#[test]
fn refusals_keep_the_voice() {
    let text = player::text();
    let answers: Vec<_> = text.lines().filter_map(answer).collect();
    for answer in &answers {
        let (label, number) = (answer.label, answer.number);
        let nothing_done = number != 0 || label == "play 0";
        assert_eq!(answer.kept, nothing_done, "{label} {number}");
        if let Some(multiplies) = answer.multiplies {
            assert_eq!(multiplies == 0, nothing_done, "{label} {number}");
        }
    }
    let seen: BTreeSet<u32> = answers.iter().map(|answer| answer.number).collect();
    assert_eq!(seen, (0..=19).collect());
}

/// The numbers of the plays whose outputs stand on the next line; those of a refused
/// one are as they were.
fn numbers_with_outputs(lines: &[&str]) -> Vec<u32> {
    let pairs = lines.windows(2).filter(|pair| pair[1].starts_with(' '));
    let numbers = pairs.map(|pair| {
        let answer = answer(pair[0]).unwrap();
        let outputs = if answer.number == 0 { " 0 0" } else { " 7 7" };
        assert_eq!(pair[1], outputs, "{}", answer.label);
        answer.number
    });
    numbers.collect()
}

/// The numbers of the plays of a state, each the third line of the same label.
fn numbers_of_states(lines: &[&str]) -> Vec<u32> {
    let threes = lines.windows(3).filter_map(|three| {
        let [first, second, third] = [0, 1, 2].map(|at| answer(three[at]));
        let third = third?;
        let labels = [first?.label, second?.label];
        (labels == [third.label; 2]).then_some(third.number)
    });
    threes.collect()
}

/// 11 is not among them: no program lends so many outputs.
#[test]
fn every_number_of_play() {
    let text = player::text();
    let lines: Vec<&str> = text.lines().collect();
    let [lent, states] = [numbers_with_outputs(&lines), numbers_of_states(&lines)];
    let seen: BTreeSet<u32> = lent.into_iter().chain(states).collect();
    assert_eq!(seen, (0..=9).chain(13..=19).collect());
}

/// The numbers after a label.
fn numbers_of(text: &str, label: &str) -> Vec<u64> {
    let named = |line: &str| Some(line.strip_prefix(label)?.strip_prefix(' ')?.to_owned());
    let words = text.lines().find_map(named).unwrap();
    words.split(' ').map(|word| word.parse().unwrap()).collect()
}

/// The rates and levels of a line.
fn rates_and_levels(text: &str, label: &str) -> impl Iterator<Item = (u64, u64)> {
    let pairs = numbers_of(text, label).as_chunks().0.to_vec();
    pairs.into_iter().map(|[rate, level]| (rate, level))
}

/// Down, the level stays to 15/16 of the octave; up, it changes at the octave. A fade
/// of four points ends an output later.
#[test]
fn levels_along_the_glides() {
    let text = player::text();
    let (end, octave) = (15 << 24, 16 << 24);
    let step = 1 << 22;
    for (late, labels) in [(0, ["down", "up"]), (step, ["down, F 4", "up, F 4"])] {
        let [down, up] = labels.map(|label| rates_and_levels(&text, label));
        for (rate, level) in down {
            assert_eq!(level, u64::from(rate + late >= end), "{rate}");
        }
        for (rate, level) in up {
            assert_eq!(level, u64::from(rate >= octave + late), "{rate}");
        }
    }
}

/// Opened at its band's end a level is the one below; from the level itself it stays
/// there, is left just below, and is not come back to. The lowest rate has level 0.
#[test]
fn levels_at_the_ends_of_the_bands() {
    let text = player::text();
    for level in 1..=4 {
        let label = format!("band of {level}");
        let levels: Vec<u64> = rates_and_levels(&text, &label).map(|(_, l)| l).collect();
        let below = level - 1;
        assert_eq!(levels, [below, level, level, below, below, 0], "{label}");
    }
}

/// 4N + 2B + 1 for an output, and 2N more for each of a fade's F points, which come two
/// to an output; the counts of four plays are that of one.
#[test]
fn multiplies_along_a_fade() {
    let text = player::text();
    let books = [
        ("F 1", 2, 0, 1u64),
        ("F 3", 2, 0, 3),
        ("F 4", 2, 0, 4),
        ("N 12, B 3", 12, 3, 4),
    ];
    for (name, taps, decimation, fade) in books {
        let rest: u64 = 4 * taps + 2 * decimation + 1;
        let in_fade = [0, 2, 4, 6].map(|made: u64| fade.saturating_sub(made).min(2));
        let after = in_fade.map(|points| rest + points * 2 * taps);
        let whole = 4 * rest + fade * 2 * taps;
        let expected = [&[rest; 2][..], &after, &[whole]].concat();
        let label = format!("multiplies, {name}");
        assert_eq!(numbers_of(&text, &label), expected, "{label}");
    }
}
