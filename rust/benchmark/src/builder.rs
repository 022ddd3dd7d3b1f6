//! The level builder beside its twin, at several A, with zeros among the taps and
//! without.

use crate::measure::{shortest, Competitor};
use crate::options::Options;
use crate::page::{figure, ratio, Page};
use crate::setting::{LevelTaps, Setting, Sizes, TOP};
use crate::table::Table;
use crate::twin;

/// A
pub const REACHES: [usize; 4] = [3, 10, 20, 40];

/// Kinds of taps, and what they are called.
pub const KINDS: [(LevelTaps, &str); 2] = [
    (LevelTaps::HalfBand, "half-band"),
    (LevelTaps::Full, "no zeros"),
];

/// Samples of a build: few enough for a repetition to be short, since a busy machine
/// takes long ones apart.
const BUILT: usize = 65536;

/// Measures and prints the builder's rows.
pub fn print(options: &Options, first: &Setting) {
    let page = Page {
        markdown: options.markdown,
    };
    page.heading(&format!(
        "Level builder, S = {BUILT}, T = {TOP}: ns per sample"
    ));
    let mut table = Table::new(&["A, taps", "player", "twin", "ratio"]);
    for level_reach in REACHES {
        for (level_taps, name) in KINDS {
            let setting = first.of_sizes(Sizes {
                level_reach,
                level_taps,
                ..options.sizes
            });
            let times = times(&setting, options.rounds);
            table.push(vec![
                format!("{level_reach}, {name}"),
                figure(times[0]),
                figure(times[1]),
                ratio(times[0], times[1]),
            ]);
        }
    }
    page.table(&table);
}

/// Player and twin, after a comparison of their stores.
fn times(setting: &Setting, rounds: usize) -> Vec<f64> {
    let (book, samples) = (&setting.book, &setting.samples[..BUILT]);
    let words = tone::store_words(BUILT, TOP).expect("S and T are in range");
    let mut store = vec![0; words];
    let mut twin_store = vec![1; words];
    tone::build(book, samples, TOP, &mut store).expect("an accepted book");
    assert_eq!(twin::build(book, samples, TOP, &mut twin_store), 0);
    assert!(store == twin_store, "the twin's store");
    let mut competitors = [
        Competitor {
            name: "player",
            work: Box::new(|| {
                tone::build(book, samples, TOP, &mut store).expect("accepted");
                i64::from(store[store.len() - 1])
            }),
        },
        Competitor {
            name: "twin",
            work: Box::new(|| {
                twin::build(book, samples, TOP, &mut twin_store);
                i64::from(twin_store[twin_store.len() - 1])
            }),
        },
    ];
    shortest(&mut competitors, rounds, BUILT)
}
