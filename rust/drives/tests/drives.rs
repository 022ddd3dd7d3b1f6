//! The archives against the renderer, and demand 3 over the archive's samples.
//!
//! `DRIVE_SEED` and `DRIVE_COUNT` set the random drives; see the crate.

use drives::call::Call;
use drives::inputs::{accepted_rate, list_of_calls, random_setting};
use drives::record::Words;
use drives::run::{run, Plan, SAMPLES_PER_REFUSAL};
use drives::EDITION;
use renderer::big::Big;
use renderer::exact::{self, bound, run_list, Compared, Setting};
use renderer::random::Rng;
use tone::{build, store_words, Voice};

#[test]
fn random_drives() {
    let plan = Plan::from_env();
    println!("{plan}");
    let tally = run(&plan, |_| ()).unwrap_or_else(|failure| panic!("{failure}"));
    print!("{}", tally.table());
    if plan.only.is_none() {
        let missing = tally.not_seen();
        assert!(missing.is_empty(), "not seen: {}", missing.join(", "));
        assert!(tally.samples >= plan.count);
        // Silence and limited samples agree too easily to count alone.
        assert!(3 * tally.telling_samples >= tally.samples);
        assert!(tally.refused() >= plan.count / SAMPLES_PER_REFUSAL);
    }
}

/// What a list of calls leaves.
struct Heard {
    /// Each call's number.
    numbers: Vec<u32>,
    /// All samples.
    samples: Vec<i16>,
    /// The sum of the plays' multiply counts.
    multiplies: u64,
    /// The voice at the end.
    voice: Words,
}

/// A list through the archive.
fn archive_list(setting: &Setting, rate: f32, calls: &[Call]) -> Heard {
    let (book, samples, top) = (&setting.book, &setting.samples, setting.top as u32);
    let mut store = vec![0; store_words(samples.len(), top).unwrap()];
    build(book, samples, top, &mut store).unwrap();
    let mut voice = Voice::open(rate, top).unwrap();
    let (mut numbers, mut played, mut multiplies) = (Vec::new(), Vec::new(), 0);
    for call in calls {
        let answer = match *call {
            Call::Jump(rate) => voice.jump(rate),
            Call::Glide(rate, count) => voice.glide(rate, count),
            Call::Seek(position) => voice.seek(position),
            Call::Play(count) => {
                let mut out = vec![0; count];
                let answer = voice.play(book, &store, &mut out);
                played.extend(out);
                answer.map(|count| multiplies += count)
            }
        };
        numbers.push(answer.map_or_else(|refusal| refusal.number(), |()| 0));
    }
    Heard {
        numbers,
        samples: played,
        multiplies,
        voice: *voice.words(),
    }
}

/// The same accepted calls at the same samples: plays are cut otherwise, refused
/// calls are left out, others and empty plays put in.
fn other_cut(rng: &mut Rng, calls: &[Call], numbers: &[u32]) -> Vec<Call> {
    let mut list = Vec::new();
    for (call, number) in calls.iter().zip(numbers) {
        match rng.below(6) {
            0 => list.push(Call::Jump(f32::NAN)),
            1 => list.push(Call::Play(0)),
            2 => list.push(Call::Seek(u64::MAX)),
            3 => list.push(Call::Glide(1.0, 0)),
            _ => {}
        }
        match *call {
            Call::Play(mut left) => {
                while left > 0 {
                    let part = 1 + rng.below(left as u64) as usize;
                    list.push(Call::Play(part));
                    left -= part;
                }
            }
            other if *number == 0 => list.push(other),
            _ => {}
        }
    }
    list
}

/// Demand 3's last sentence, and that multiply counts add up.
#[test]
fn cuts_make_no_difference() {
    let seed = Plan::from_env().seed;
    let mut rng = Rng::new(seed);
    for round in 0..1500 {
        let top = round % 5;
        let setting = random_setting(&mut rng, top, 400);
        let rate = accepted_rate(&mut rng, top);
        let calls = list_of_calls(&mut rng, &setting, rate, 20, 300);
        let heard = archive_list(&setting, rate, &calls);
        let cut = other_cut(&mut rng, &calls, &heard.numbers);
        let other = archive_list(&setting, rate, &cut);
        let repeat = format!("round {round}, DRIVE_SEED={seed}: {calls:?} and {cut:?}");
        assert!(heard.samples == other.samples, "samples differ: {repeat}");
        assert!(heard.voice == other.voice, "voices differ: {repeat}");
        assert_eq!(heard.multiplies, other.multiplies, "multiplies: {repeat}");
    }
}

/// Whether a sample lies within (126 + 4 × 2^T)/256 of the exact sum, limited to
/// 16 bits; and its distance as a part of that.
fn within(sample: i16, exact: &Compared, f: i32, top: u64) -> (bool, f64) {
    let one = Big::from(i128::from(f)) << exact.scale_bits;
    let limited = exact.exact.clamp(one * -32768, one * 32767);
    let distance = (one * i128::from(sample) - limited).abs() * 256;
    let allowed = one * bound(top);
    (distance <= allowed, distance.to_f64() / allowed.to_f64())
}

/// Demand 3: every sample of the archive is close to the exact player's sum.
#[test]
fn samples_lie_within_the_bound() {
    let seed = Plan::from_env().seed;
    let mut rng = Rng::new(seed ^ 3);
    let mut most = [0f64; 5];
    let mut count = 0;
    for round in 0..1000 {
        let top = round % 5;
        let setting = random_setting(&mut rng, top, 150);
        let rate = accepted_rate(&mut rng, top);
        let calls = list_of_calls(&mut rng, &setting, rate, 16, 40);
        let Heard {
            numbers, samples, ..
        } = archive_list(&setting, rate, &calls);
        let list: Vec<exact::Call> = calls.iter().map(|call| (*call).into()).collect();
        let report = run_list(EDITION, &setting, rate, &list).unwrap();
        let repeat = format!("round {round}, DRIVE_SEED={seed}: {calls:?}");
        let exact_numbers: Vec<u32> = report.calls.iter().map(|c| c.exact_number).collect();
        assert_eq!(numbers, exact_numbers, "{repeat}");
        let sums: Vec<Compared> = report.calls.into_iter().flat_map(|c| c.samples).collect();
        assert_eq!(samples.len(), sums.len());
        for (at, (sample, exact)) in samples.iter().zip(&sums).enumerate() {
            let (close, ratio) = within(*sample, exact, setting.book[4], top);
            assert!(close, "sample {at} is {ratio} of the bound away, {repeat}");
            most[top as usize] = ratio.max(most[top as usize]);
        }
        count += samples.len();
    }
    println!("{count} samples; largest distance over bound, T 0..4: {most:.4?}");
    assert!(count > 50_000);
}
