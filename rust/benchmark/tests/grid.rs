//! The benchmark's books and drives at every size of the grid: that the books are
//! accepted, that player and twin agree, and that the drives are what they are called.

use benchmark::builder::{KINDS, REACHES};
use benchmark::grid::{Cell, BLOCKS, PHASES, TAPS};
use benchmark::setting::{book, LevelTaps, Setting, Sizes, TOP};
use benchmark::twin;

/// Both tables' cells.
fn cells() -> impl Iterator<Item = Cell> {
    [false, true].into_iter().flat_map(Cell::all)
}

#[test]
fn the_grid_has_every_size_once() {
    let all: Vec<Cell> = cells().collect();
    assert_eq!(all.len(), 2 * TAPS.len() * PHASES.len() * BLOCKS.len() * 3);
    for (place, cell) in all.iter().enumerate() {
        assert!(!all[..place].contains(cell), "{cell:?}");
    }
}

#[test]
fn player_and_twin_agree_on_every_cell() {
    let common = Setting::new(Sizes::default());
    for cell in cells() {
        let (drive, sizes) = cell.drive(2 * cell.block);
        drive.compare(&common.of_sizes(sizes));
    }
}

/// Every point of a fade costs two values, so that the multiply counts tell the share.
#[test]
fn drives_are_full_of_fades_or_have_none() {
    let common = Setting::new(Sizes::default());
    for cell in cells() {
        let (drive, sizes) = cell.drive(4 * cell.block);
        let share = drive.fade_share(&common.of_sizes(sizes));
        let expected = match (cell.fades, cell.block) {
            (false, _) => 0.0,
            // One to level 4 and one to each below it down to the rate's: 256 points each.
            (true, 4096) => [5.0, 4.0][usize::from(cell.rate > 2.0)] * 256.0 / 8192.0,
            (true, _) => 1.0,
        };
        assert_eq!(share, expected, "{cell:?}");
    }
}

#[test]
fn every_book_is_accepted() {
    for taps in (2..=24).step_by(2) {
        for phases in [1, 2, 4, 8, 16, 32, 64, 128] {
            for decimation in [10, 3, 0] {
                let book = book(Sizes {
                    taps,
                    phases,
                    decimation,
                    ..Sizes::default()
                });
                assert_eq!(tone::check(&book), Ok(()), "{taps} {phases} {decimation}");
            }
        }
    }
}

/// A book of the builder's rows, and its taps beside the centre.
fn level_book(level_reach: usize, level_taps: LevelTaps) -> (Vec<i32>, Vec<i32>) {
    let sizes = Sizes {
        level_reach,
        level_taps,
        ..Sizes::default()
    };
    let book = book(sizes);
    let start = 5 + 2 * sizes.taps * sizes.phases;
    let sides = book[start + 1..=start + level_reach].to_vec();
    (book, sides)
}

#[test]
fn level_taps_have_zeros_or_none() {
    for reach in REACHES {
        let zeros = |kind| {
            level_book(reach, kind)
                .1
                .iter()
                .filter(|x| **x == 0)
                .count()
        };
        assert_eq!(zeros(LevelTaps::HalfBand), reach / 2, "A = {reach}");
        assert_eq!(zeros(LevelTaps::Full), 0, "A = {reach}");
    }
}

#[test]
fn both_builders_make_the_same_store() {
    let samples: Vec<i16> = (0..5001).map(|k: i32| (k * k * 31) as i16).collect();
    for reach in REACHES {
        for (kind, name) in KINDS {
            let (book, _) = level_book(reach, kind);
            let mut store = vec![0; tone::store_words(samples.len(), TOP).expect("sizes")];
            let mut twin_store = vec![1; store.len()];
            tone::build(&book, &samples, TOP, &mut store).expect("an accepted book");
            assert_eq!(twin::build(&book, &samples, TOP, &mut twin_store), 0);
            assert!(store == twin_store, "A = {reach}, {name}");
        }
    }
}
