//! An example recording: two seconds of a motor's hum, 16 bits at 48000 Hz.
//!
//! The hum is made of the partials of 60 Hz up to 9 kHz, the rotor's and the
//! gear's stronger than the rest, over a soft noise of bearings; both swell and
//! sink a little with the shaft's turns. The loudest sample is half of full
//! scale, which leaves the room that interpolation asks for (source document
//! 002, 4.1.2). It begins and ends in silence. Another take of it has the same motor
//! and another noise.
//!
//! The same samples come out each time and on every machine: the noise is a
//! congruential generator's, and sines are made of sums and products, whose
//! rounding IEEE 754 fixes, where a system's own sine may differ in its last bit.

#![forbid(unsafe_code)]
#![warn(missing_docs)]

use std::f64::consts::{PI, TAU};

/// Samples a second.
pub const SAMPLE_RATE: u32 = 48_000;
/// Samples of the hum.
pub const SAMPLE_COUNT: usize = 2 * SAMPLE_RATE as usize;

const RATE: f64 = SAMPLE_RATE as f64;
/// Turns of the shaft a second.
const SHAFT: f64 = 60.0;
/// Samples of a turn.
const TURN: usize = 800;
/// Partials up to 9 kHz.
const PARTIALS: u32 = 150;
/// Teeth: each 14th partial stands out.
const GEAR: u32 = 14;
const LOUDEST: f64 = 16384.0;
/// Beside partials of about 1.
const NOISE: f64 = 0.02;
/// Samples of rise and fall: 20 ms.
const RAMP: f64 = 960.0;

/// The sine. For the angles of this hum it is right to some 12 decimals.
fn sine(angle: f64) -> f64 {
    let rest = angle - TAU * (angle / TAU).round();
    // from -PI..PI into -PI/2..PI/2, where the series is short
    let x = if rest > PI / 2.0 {
        PI - rest
    } else if rest < -PI / 2.0 {
        -PI - rest
    } else {
        rest
    };
    // x - x^3/3! + x^5/5! - .., from the last term on
    let bracket = |sum: f64, k: u32| 1.0 - x * x / f64::from(2 * k * (2 * k + 1)) * sum;
    x * (1..=11).rev().fold(1.0, bracket)
}

/// The amplitude of the k-th partial.
fn amplitude(k: u32) -> f64 {
    let strong = match k {
        2 => 1.0,
        _ if k.is_multiple_of(GEAR) => 0.35,
        _ => 0.25,
    };
    strong / f64::from(k).sqrt()
}

/// One turn of all partials. All are whole multiples of the shaft's, so that the
/// next turns are the same.
fn turn() -> Vec<f64> {
    let mut values = vec![0.0; TURN];
    for k in 1..=PARTIALS {
        // partials that all began at once would make a click a turn
        let start = f64::from((k - 1) * (k - 1)) * 0.7;
        let frequency = SHAFT * f64::from(k);
        for (n, value) in values.iter_mut().enumerate() {
            *value += amplitude(k) * sine(TAU * frequency * n as f64 / RATE + start);
        }
    }
    values
}

/// Numbers from -1 up to below 1, which begin elsewhere in each take.
fn noise(take: u32) -> impl Iterator<Item = f64> {
    let next = |state: &u32| Some(state.wrapping_mul(1_664_525).wrapping_add(1_013_904_223));
    let states = std::iter::successors(next(&take), next);
    states.map(|state| f64::from(state) / f64::from(1u32 << 31) - 1.0)
}

/// How the hum swells and sinks.
fn swell(n: usize) -> f64 {
    1.0 + 0.1 * sine(TAU * 3.0 * n as f64 / RATE)
}

/// Rises from 0 to 1 at the beginning, and falls to 0 at the end.
fn ramp(n: usize) -> f64 {
    let to_end = (SAMPLE_COUNT - 1 - n) as f64;
    (n as f64 / RAMP).min(to_end / RAMP).min(1.0)
}

/// The samples of a take of the hum.
pub fn samples(take: u32) -> Vec<i16> {
    let turn = turn();
    let values: Vec<f64> = noise(take)
        .take(SAMPLE_COUNT)
        .enumerate()
        .map(|(n, noise)| (turn[n % TURN] + NOISE * noise) * swell(n) * ramp(n))
        .collect();
    let loudest = values.iter().fold(0.0, |most: f64, x| most.max(x.abs()));
    let scale = LOUDEST / loudest;
    let sample = |value: &f64| (value * scale + 0.5).floor() as i16;
    values.iter().map(sample).collect()
}

/// A take of the hum as a 16-bit mono PCM WAV file.
pub fn wav(take: u32) -> Vec<u8> {
    let data = 2 * SAMPLE_COUNT as u32;
    let mut bytes = b"RIFF".to_vec();
    bytes.extend((36 + data).to_le_bytes());
    bytes.extend(b"WAVEfmt \x10\0\0\0\x01\0\x01\0"); // 16 bytes of format: PCM, one channel
    bytes.extend(SAMPLE_RATE.to_le_bytes());
    bytes.extend((2 * SAMPLE_RATE).to_le_bytes());
    bytes.extend(b"\x02\0\x10\0data"); // 2 bytes and 16 bits a sample
    bytes.extend(data.to_le_bytes());
    bytes.extend(samples(take).iter().flat_map(|sample| sample.to_le_bytes()));
    bytes
}

#[cfg(test)]
mod tests {
    use super::*;

    #[test]
    fn sines() {
        for n in 0..200_000 {
            let angle = f64::from(n) * 0.083 - 100.0;
            assert!((sine(angle) - angle.sin()).abs() < 4e-12, "{angle}");
        }
    }

    /// By the 64-bit FNV-1a hash of the file.
    #[test]
    fn the_same_bytes_everywhere() {
        let mix = |hash: u64, byte: &u8| (hash ^ u64::from(*byte)).wrapping_mul(0x100_0000_01b3);
        let hash = wav(1).iter().fold(0xcbf2_9ce4_8422_2325, mix);
        assert_eq!(hash, 0x5163_a2f8_9257_199f);
    }

    #[test]
    fn half_of_full_scale_from_silence_to_silence() {
        for take in [1, 2, u32::MAX] {
            let samples = samples(take);
            assert_eq!(samples.len(), SAMPLE_COUNT);
            let loudest = samples.iter().map(|sample| sample.unsigned_abs()).max();
            assert_eq!(loudest, Some(16384));
            assert_eq!((samples[0], samples[SAMPLE_COUNT - 1]), (0, 0));
        }
    }
}
