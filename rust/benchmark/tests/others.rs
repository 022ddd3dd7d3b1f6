//! The shims over other resamplers: a sine keeps its size at every rate.

use benchmark::others::kinds;

#[test]
fn sines() {
    let samples: Vec<f32> = (0..100_000).map(|at| (at as f32 * 0.05).sin()).collect();
    for kind in kinds() {
        if !kind.installed() {
            println!("{}: not installed ({})", kind.name, kind.package);
            continue;
        }
        for rate in [0.75, 1.5, 3.0] {
            let mut resampler = kind.open(rate).expect("a resampler");
            let mut used = 0;
            let mut squares = 0.0;
            for block in 0..200 {
                let mut out = [0.0; 64];
                let moving = rate * (1.0 + 0.04 * f64::from(block % 3 - 1));
                used += resampler
                    .play(moving, &samples[used..], &mut out)
                    .expect("all outputs");
                if block >= 40 {
                    squares += out.iter().map(|x| f64::from(x * x)).sum::<f64>();
                }
            }
            let mean = squares / (160.0 * 64.0);
            assert!(
                (mean - 0.5).abs() < 0.02,
                "{} at {rate}: mean square {mean}",
                kind.name
            );
            let expected = 200.0 * 64.0 * rate;
            // They take samples ahead, by less than this.
            assert!(
                (used as f64 - expected).abs() < 20_000.0,
                "{} at {rate}: {used} samples used",
                kind.name
            );
        }
    }
}
