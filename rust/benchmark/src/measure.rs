//! Times: short repetitions of all competitors in turn, the shortest of each.

use crate::drive::Drive;
use crate::setting::Setting;
use std::hint::black_box;
use std::time::Instant;

/// A competitor: its name, and what one repetition does.
pub struct Competitor<'a> {
    /// What it is called.
    pub name: &'a str,
    /// One repetition; the result keeps its work from being left out.
    pub work: Box<dyn FnMut() -> i64 + 'a>,
}

/// The shortest time of each competitor, in nanoseconds per unit. They take
/// turns, so that a busy machine disturbs all alike.
pub fn shortest(competitors: &mut [Competitor], rounds: usize, units: usize) -> Vec<f64> {
    let mut times = vec![f64::INFINITY; competitors.len()];
    for _ in 0..rounds {
        for (competitor, time) in competitors.iter_mut().zip(&mut times) {
            let start = Instant::now();
            black_box((competitor.work)());
            let spent = start.elapsed().as_secs_f64();
            *time = time.min(spent * 1e9 / units as f64);
        }
    }
    times
}

/// The player on a drive.
pub fn player<'a>(drive: Drive, setting: &'a Setting, name: &'a str) -> Competitor<'a> {
    let mut out = vec![0; drive.block];
    Competitor {
        name,
        work: Box::new(move || drive.play(&mut drive.player(), setting, &mut out)),
    }
}

/// The player and the twin on a drive, after a comparison of both.
pub fn players<'a>(drive: Drive, setting: &'a Setting) -> Vec<Competitor<'a>> {
    drive.compare(setting);
    let mut twin_out = vec![0; drive.block];
    vec![
        player(drive, setting, "player"),
        Competitor {
            name: "twin",
            work: Box::new(move || drive.play(&mut drive.twin(), setting, &mut twin_out)),
        },
    ]
}
