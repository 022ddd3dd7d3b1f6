//! A recording of near silence, samples of -1, 0 and 1: how far its mean moves on the
//! way through the player, with halves rounded up, as before request (g), and with
//! halves to the even number. Linear interpolation at rate 1 hands out a mean of two
//! neighbours, so four outputs in nine are a half.

use drives::call::{lent, Call};
use drives::{EDITION, HALVES_UP};
use renderer::levels::build;
use renderer::voice::{open, Card};
use renderer::Edition;
use tone::{test_hum, Voice};

/// Document 01's book K.
const K: [i32; 11] = [2, 1, 0, 0, 1, 0, 16384, 16384, -16384, 16384, 16384];

const SAMPLES: usize = 65536;

/// The generator of the test hum, in steps of a third of its range.
fn near_silence() -> Vec<i16> {
    let mut hum = vec![0; SAMPLES];
    test_hum(0, &mut hum);
    hum.iter()
        .map(|x| ((i32::from(*x) + 32768) * 3 / 65536 - 1) as i16)
        .collect()
}

fn mean(samples: &[i16]) -> f64 {
    samples.iter().map(|x| f64::from(*x)).sum::<f64>() / samples.len() as f64
}

/// The store and what a play at rate 1 hands out, by the renderer.
fn rendered(edition: Edition, samples: &[i16]) -> (Vec<i32>, Vec<i16>) {
    let mut store = vec![0; 3 + SAMPLES];
    assert_eq!(build(edition, &K, samples, 0, &mut store), 0);
    let (number, voice) = open(edition, Card { rate: 1.0, top: 0 });
    assert_eq!(number, 0);
    let mut out = vec![0; SAMPLES];
    let played = Call::Play(SAMPLES).rendered_at(edition, &voice, &lent(&K, &store), &mut out);
    assert_eq!(played.number, 0);
    (store, out)
}

#[test]
fn the_mean_stays() {
    let samples = near_silence();
    let recorded = mean(&samples);
    let (_, half_up) = rendered(HALVES_UP, &samples);
    let (store, to_even) = rendered(EDITION, &samples);
    let moved = [half_up, to_even.clone()].map(|out| mean(&out) - recorded);
    println!("recorded {recorded:.4}; moved by {moved:.4?}");
    assert!((moved[0] - 2.0 / 9.0).abs() < 0.01);
    assert!(moved[1].abs() < 0.01);

    let mut played = vec![0; SAMPLES];
    Voice::open(1.0, 0)
        .unwrap()
        .play(&K, &store, &mut played)
        .unwrap();
    assert_eq!(played, to_even);
}
