//! The archive's test hum against the renderer's, from random states.

use drives::run::Plan;
use renderer::programs::Hum;
use renderer::random::Rng;
use tone::test_hum;

/// What stands around the samples that are drawn.
const AROUND: i16 = 12345;

/// A state as a random word, or at an end of its range.
fn random_state(rng: &mut Rng) -> u32 {
    match rng.below(10) {
        0 => 0,
        1 => u32::MAX,
        _ => rng.word() as u32,
    }
}

#[test]
fn samples_and_states() {
    let seed = Plan::from_env().seed;
    let mut rng = Rng::new(seed ^ 2);
    for round in 0..20_000 {
        let state = random_state(&mut rng);
        let count = rng.below(200) as usize;
        let mut hum = Hum { state };
        let drawn = (0..count).map(|_| hum.next_sample());
        let expected: Vec<i16> = [AROUND].into_iter().chain(drawn).chain([AROUND]).collect();
        let mut samples = vec![AROUND; count + 2];
        let last = test_hum(state, &mut samples[1..=count]);
        let repeat = format!("round {round}, DRIVE_SEED={seed}: {count} from {state}");
        assert!(samples == expected, "samples differ: {repeat}");
        assert!(last == hum.state, "states differ: {repeat}");
    }
}
