//! Stores whose levels hold anything, and stores with a damaged header or length.

use crate::inputs::damage_any;
use crate::EDITION;
use renderer::levels::{header_length, level_lengths, store_length, Store, MOST_SAMPLES, MOST_TOP};
use renderer::random::{wild_i32, Rng};

/// The check's number for a store: the first of 9, 8, 9 and 18 that holds, or 0.
pub fn store_number(store: &[i32]) -> u32 {
    Store::headed(store).err().unwrap_or(0)
}

/// What a right header says. The lengths of the levels follow from it.
#[derive(Clone, Copy, Debug, PartialEq)]
pub struct Header {
    /// S
    pub samples: u64,
    /// T
    pub top: u64,
}

impl Header {
    /// That of an accepted store.
    pub fn of(store: &[i32]) -> Header {
        let Store { samples, top, .. } = Store::headed(store).expect("the store is accepted");
        Header { samples, top }
    }

    fn words(self) -> Vec<i32> {
        let lengths = level_lengths(self.samples, self.top);
        let mut words = vec![self.samples as i32, self.top as i32];
        words.extend(lengths.iter().map(|length| *length as i32));
        words
    }
}

/// The words after an accepted store's header.
fn levels(store: &[i32]) -> &[i32] {
    &store[header_length(EDITION, Header::of(store).top)..]
}

/// Fills what follows the header of an accepted store with anything: words beyond
/// the limits of their levels, at them and just past them.
pub fn fill_levels(rng: &mut Rng, store: &mut [i32]) {
    let Header { samples, top } = Header::of(store);
    let kind = rng.below(4);
    let lengths = level_lengths(samples, top);
    let ends: Vec<usize> = lengths
        .iter()
        .scan(0, |end, length| {
            *end += length;
            Some(*end)
        })
        .collect();
    let levels = &mut store[header_length(EDITION, top)..];
    for (at, word) in levels.iter_mut().enumerate() {
        let level = ends.iter().take_while(|end| at >= **end).count().min(4);
        let limit = 1 << (23 + level);
        *word = match kind {
            0 => wild_i32(rng),
            1 => rng.pick(&[i32::MIN, i32::MAX]),
            2 => rng.pick(&[limit, -limit, limit + 1, -limit - 1, limit - 1, 1 - limit]),
            _ => rng.word() as i32,
        };
    }
}

/// The length of a store that is too short, or at times just long enough.
pub fn short_length(rng: &mut Rng, needed: usize) -> usize {
    match rng.below(4) {
        0 => rng.below(needed as u64 + 1) as usize,
        1 => rng.below(3) as usize,
        _ => needed.saturating_sub(1 + rng.below(2) as usize),
    }
}

/// An accepted store's levels behind another header, with words added where that
/// calls for more.
pub fn under_header(store: &[i32], header: Header) -> Vec<i32> {
    let mut words = header.words();
    words.extend(levels(store));
    let needed = store_length(EDITION, header.samples, header.top);
    let missing = needed.saturating_sub(words.len());
    words.extend(levels(store).iter().cycle().take(missing));
    words
}

/// An accepted store with its header, its levels or its length damaged, now and
/// then twice, so that the order of the tests is seen. What it comes to is the
/// check's to say: some of it is still accepted.
pub fn damaged_store(rng: &mut Rng, store: &[i32]) -> Vec<i32> {
    let header = Header::of(store);
    let (mut words, damages) = match rng.below(4) {
        0 => (under_header(store, other_header(rng, header)), rng.below(2)),
        _ => (store.to_vec(), rng.pick(&[1, 1, 2])),
    };
    for _ in 0..damages {
        match rng.below(7) {
            0 | 1 => damage_samples_or_top(rng, &mut words),
            2 | 3 => damage_lengths(rng, &mut words, header.top),
            4 => words.truncate(short_length(rng, words.len())),
            5 => damage_any(rng, &mut words),
            _ => words.fill_with(|| wild_i32(rng)),
        }
    }
    words
}

/// A right header for another S or another T, or both.
fn other_header(rng: &mut Rng, header: Header) -> Header {
    let Header { samples, top } = header;
    let other_samples = match rng.below(4) {
        0 => 1,
        1 => samples + 1,
        2 => samples.max(2) - 1,
        _ => 1 + rng.below(2 * samples),
    };
    let other_top = rng.below(MOST_TOP + 1);
    Header {
        samples: rng.pick(&[samples, other_samples]),
        top: rng.pick(&[top, other_top]),
    }
}

/// Words that a header's word is tried with: the limits of S and T, the edges of
/// the type, and words next to the right one or with its low 16 bits.
fn edge_header_words(right: i32) -> Vec<i32> {
    let (most, most_top) = (MOST_SAMPLES as i32, MOST_TOP as i32);
    let mut list = vec![i32::MIN, -1, 0, 1, i32::MAX, right.wrapping_neg()];
    list.extend([most - 1, most, most + 1, most_top, most_top + 1]);
    list.extend([-1, 1, 1 << 16, i32::MIN].map(|off| right.wrapping_add(off)));
    list
}

/// S or T outside its range, at its end or one off, or anything.
fn damage_samples_or_top(rng: &mut Rng, words: &mut [i32]) {
    if let Some(word) = words.get_mut(rng.below(2) as usize) {
        let wild = wild_i32(rng);
        let edge = rng.pick(&edge_header_words(*word));
        *word = rng.pick(&[edge, edge, wild]);
    }
}

/// One written length off by one or anything, or several.
fn damage_lengths(rng: &mut Rng, words: &mut [i32], top: u64) {
    for _ in 0..rng.pick(&[1, 1, 2, 5]) {
        let at = 2 + rng.below(top + 1) as usize;
        if let Some(length) = words.get_mut(at) {
            *length = match rng.below(3) {
                0 => wild_i32(rng),
                1 => length.wrapping_add(1),
                _ => length.wrapping_sub(1),
            };
        }
    }
}

/// An accepted store with each word of its header set to each limit in turn, whole
/// and cut to two words, and the store cut at each length.
pub fn each_damage(store: &[i32]) -> Vec<Vec<i32>> {
    let Header { samples, top } = Header::of(store);
    let mut list = Vec::new();
    for at in 0..header_length(EDITION, top) {
        for word in edge_header_words(store[at]) {
            let mut words = store.to_vec();
            words[at] = word;
            list.push(words[..2].to_vec());
            list.push(words);
        }
    }
    let needed = store_length(EDITION, samples, top);
    list.extend((0..=needed).map(|length| store[..length].to_vec()));
    list
}

#[cfg(test)]
mod tests {
    use super::*;
    use crate::inputs::random_setting;
    use renderer::exact::setting_store;
    use std::collections::BTreeSet;

    fn any_store(rng: &mut Rng, top: u64) -> Vec<i32> {
        let setting = random_setting(rng, top, 40);
        setting_store(EDITION, &setting).expect("the setting is accepted")
    }

    /// The number of a store of T 4, and what it is for.
    fn reason(store: &[i32], damaged: &[i32]) -> String {
        let number = match Store::headed(damaged) {
            Ok(other) => return format!("0 for T {}", other.top),
            Err(number) => number,
        };
        let off = |at: usize| damaged[at] != store[at];
        match number {
            9 if damaged.len() < 2 => format!("9 for {} words", damaged.len()),
            8 => format!("8 with S changed {}, T {}", off(0), off(1)),
            18 => {
                let lengths = (2..7).filter(|at| off(*at));
                format!("18 at {:?}", lengths.collect::<Vec<usize>>())
            }
            number => number.to_string(),
        }
    }

    #[test]
    fn damaged_stores_give_every_number() {
        let mut rng = Rng::new(4);
        let mut seen = BTreeSet::new();
        for _ in 0..4000 {
            let store = any_store(&mut rng, 4);
            seen.insert(reason(&store, &damaged_store(&mut rng, &store)));
        }
        let tops = (0..=4).map(|top| format!("0 for T {top}"));
        let short = ["9 for 0 words", "9 for 1 words", "9"].map(String::from);
        let sizes = [(true, false), (false, true), (true, true)]
            .map(|(s, t)| format!("8 with S changed {s}, T {t}"));
        let lengths = (2..7).map(|at| format!("18 at [{at}]"));
        let expected = tops.chain(short).chain(sizes).chain(lengths);
        for reason in expected.chain(["18 at [2, 4]".to_string()]) {
            assert!(seen.contains(&reason), "not seen: {reason}");
        }
    }

    #[test]
    fn headers_are_kept_or_right() {
        let mut rng = Rng::new(5);
        for _ in 0..500 {
            let top = rng.below(MOST_TOP + 1);
            let built = any_store(&mut rng, top);
            let mut filled = built.clone();
            fill_levels(&mut rng, &mut filled);
            let header = Header::of(&built);
            assert_eq!(header.top, top);
            assert_eq!(header.words(), built[..3 + top as usize]);
            assert_eq!(header.words(), filled[..3 + top as usize]);
            let other = other_header(&mut rng, header);
            assert_eq!(Header::of(&under_header(&built, other)), other);
        }
    }
}
