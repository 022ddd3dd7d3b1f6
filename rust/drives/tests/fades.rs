//! The fades that a drive takes under document 01's rule, which is edition C's, and
//! under request (d)'s: of a rate that trembles across an octave, and of the test
//! drive. And the multiplies of the same.

use drives::call::{lent, Call};
use drives::record::LEVEL;
use drives::EDITION;
use renderer::voice::{open, Card, Lent};
use renderer::Edition;
use std::iter::successors;
use tone::{test_hum, Voice};

/// Book K with a fade of 16 points.
const BOOK: [i32; 11] = [2, 1, 0, 0, 16, 0, 16384, 16384, -16384, 16384, 16384];

/// A silent store of one sample, T 4: S, T, five lengths, five words.
const STORE: [i32; 12] = [1, 4, 1, 1, 1, 1, 1, 0, 0, 0, 0, 0];

const LENT: Lent = lent(&BOOK, &STORE);

/// An opening's rate, and orders with the outputs played after each.
struct Drive {
    rate: f32,
    orders: Vec<(Call, usize)>,
}

/// What a drive takes.
#[derive(Default, PartialEq, Eq, Debug)]
struct Taken {
    fades: usize,
    multiplies: u64,
}

impl Drive {
    /// By the renderer: each fade ends, with another level, before the next begins.
    fn rendered(&self, edition: Edition) -> Taken {
        let card = Card {
            rate: self.rate,
            top: 4,
        };
        let mut voice = open(edition, card).1;
        let mut taken = Taken::default();
        for (order, outputs) in &self.orders {
            voice = order.rendered_at(edition, &voice, &LENT, &mut []).voice;
            for _ in 0..*outputs {
                let level = voice.level;
                let played = Call::Play(1).rendered_at(edition, &voice, &LENT, &mut [0]);
                voice = played.voice;
                taken.fades += usize::from(voice.level != level);
                taken.multiplies += played.multiplies;
            }
        }
        taken
    }

    /// The same by the archive.
    fn played(&self) -> Taken {
        let mut voice = Voice::open(self.rate, 4).unwrap();
        let mut taken = Taken::default();
        for (order, outputs) in &self.orders {
            match *order {
                Call::Jump(rate) => voice.jump(rate).unwrap(),
                Call::Glide(rate, count) => voice.glide(rate, count).unwrap(),
                other => panic!("{other} is no order"),
            }
            for _ in 0..*outputs {
                let level = voice.words()[LEVEL];
                taken.multiplies += voice.play(&BOOK, &STORE, &mut [0]).unwrap();
                taken.fades += usize::from(voice.words()[LEVEL] != level);
            }
        }
        taken
    }

    /// The renderer's under the old rule and under the one that the archive has.
    fn taken(&self) -> [Taken; 2] {
        let [old, new] = [Edition::C, EDITION].map(|edition| self.rendered(edition));
        assert_eq!(self.played(), new);
        [old, new]
    }

    fn fades(&self) -> [usize; 2] {
        self.taken().map(|taken| taken.fades)
    }
}

/// Down to the lowest rate and up to the highest, so often.
const TREMBLES: usize = 10;

/// Outputs of each way, far more than a fade has.
const WAY: usize = 60;

fn trembling(octave: f32, depth: f32) -> Drive {
    let ends = [octave * (1.0 - depth), octave * (1.0 + depth)];
    let glides = ends.map(|rate| (Call::Glide(rate, WAY as u32), WAY));
    Drive {
        rate: octave,
        orders: [glides; TREMBLES].concat(),
    }
}

/// The old rule fades at every crossing; the new one only where the rate leaves the
/// band, which it does not at 15/16 of the octave.
#[test]
fn a_tremble_inside_the_band_takes_no_fade() {
    for octave in [2.0, 4.0, 8.0, 16.0] {
        for (depth, leaves) in [(1.0 / 32.0, 0), (1.0 / 16.0, 0), (1.0 / 8.0, 2)] {
            let fades = trembling(octave, depth).fades();
            println!("around {octave}, depth {depth}: {fades:?}");
            assert_eq!(fades, [2 * TREMBLES, leaves * TREMBLES]);
        }
    }
}

/// The orders of request (b), the states being those after the hum's.
fn test_drive() -> Drive {
    let next = |state: &u32| Some(test_hum(*state, &mut [0]));
    let states = successors(Some(test_hum(0, &mut [0; 6400])), next).skip(1);
    let order = |state: u32| {
        let rate = 1.0 + (state >> 24) as f32 / 64.0;
        match state % 2 {
            0 => (Call::Jump(rate), 20),
            _ => (Call::Glide(rate, 10), 20),
        }
    };
    Drive {
        rate: 1.0,
        orders: states.take(64).map(order).collect(),
    }
}

/// A test of the command `tone` counts them too.
#[test]
fn the_test_drive() {
    let [old, new] = test_drive().taken();
    assert_eq!((old.fades, new.fades), (47, 45));
    assert_eq!(new.multiplies, 14_400);
}
