//! Playing a drive's calls, in parts so short that each fade is seen.

use std::path::Path;

use tone::{Refusal, Voice, MOST_OUTPUTS};

use crate::drive::Call;
use crate::fades::{longest_play, Fade, Place};
use crate::failure::Failure;

/// A part of a play.
#[derive(Clone, Copy, Debug)]
pub struct Part {
    /// Its outputs.
    pub outputs: usize,
    /// What they took.
    pub multiplies: u64,
    /// The fade that began in it, its beginning counted from the part's.
    pub fade: Option<Fade>,
}

/// A voice with what its plays are lent.
pub struct Player<'a> {
    voice: Voice,
    book: &'a [i32],
    store: &'a [i32],
    out: Vec<i16>,
    part: usize,
}

impl<'a> Player<'a> {
    /// Opens the voice at a rate for the store, which is tested first: T stands in
    /// it, and a refusal names its file. The book is tested here by a play of no
    /// outputs, which changes nothing, rather than at the first play.
    pub fn open(
        book: &'a [i32],
        store: &'a [i32],
        store_file: &Path,
        rate: f32,
    ) -> Result<Player<'a>, Failure> {
        let refused = |refusal| Failure::refused("opening", refusal);
        let top = tone::top_level(store)
            .map_err(|refusal| Failure::refused_store(store_file, refusal))?;
        let mut voice = Voice::open(rate, top).map_err(refused)?;
        voice.play(book, store, &mut []).map_err(refused)?;
        Ok(Player {
            voice,
            book,
            store,
            // One more than a play may have is enough to have it refused.
            out: vec![0; MOST_OUTPUTS + 1],
            part: longest_play(book),
        })
    }

    /// Makes parts no longer than this, for who wants to see more of a play.
    pub fn shorten_parts(&mut self, outputs: usize) {
        self.part = self.part.min(outputs).max(1);
    }

    /// The current level, in a fade the old one.
    pub fn level(&self) -> i32 {
        Place::of(&self.voice).level
    }

    /// Makes one call, and shows each part of a play. Hands out the samples that it
    /// played: none but for play.
    pub fn perform(&mut self, call: Call, seen: impl FnMut(Part)) -> Result<&[i16], Refusal> {
        match call {
            Call::Jump(rate) => self.voice.jump(rate).map(|()| &[][..]),
            Call::Glide(rate, count) => self.voice.glide(rate, count).map(|()| &[][..]),
            Call::Seek(position) => self.voice.seek(position).map(|()| &[][..]),
            Call::Play(count) => self.play(count, seen),
        }
    }

    /// Plays in parts: cuts leave samples, voice and the sum of the multiplies as
    /// they are. A play that is refused for its count is made whole.
    fn play(&mut self, count: usize, mut seen: impl FnMut(Part)) -> Result<&[i16], Refusal> {
        let part = match count {
            0..=MOST_OUTPUTS => self.part,
            _ => self.out.len(),
        };
        let count = count.min(self.out.len());
        for out in self.out[..count].chunks_mut(part) {
            let before = Place::of(&self.voice);
            let multiplies = self.voice.play(self.book, self.store, out)?;
            seen(Part {
                outputs: out.len(),
                multiplies,
                fade: before.began(Place::of(&self.voice), out.len()),
            });
        }
        Ok(&self.out[..count])
    }
}

#[cfg(test)]
mod tests {
    use super::*;
    use crate::fades::OUTPUT_POINTS;

    const TOP: u32 = 4;

    /// Document 01's book K with another F.
    fn book(fade_points: i32) -> [i32; 11] {
        [
            2,
            1,
            0,
            0,
            fade_points,
            0,
            16384,
            16384,
            -16384,
            16384,
            16384,
        ]
    }

    /// The rules for levels and fades, a point at a time, for drives of jumps.
    struct Control {
        level: i32,
        fade: Option<(Fade, u64)>,
        point: u64,
    }

    impl Control {
        /// The level that a rate asks for; downwards the current one stays to 15/16.
        fn asked(&self, rate: f32) -> i32 {
            let octave = (rate.log2().floor() as i32).max(0);
            let stays = 16.0 * rate >= 15.0 * (1 << self.level) as f32;
            octave.max(if stays { self.level } else { 0 })
        }

        /// One point at a rate; hands out the fade that begins there.
        fn step(&mut self, rate: f32, fade_points: u64) -> Option<Fade> {
            let new = self.asked(rate);
            let begins = self.fade.is_none() && new != self.level;
            if begins {
                let (begin, old) = (self.point, self.level);
                self.fade = Some((Fade { begin, old, new }, 0));
            }
            self.point += 1;
            let (fade, step) = self.fade.as_mut()?;
            *step += 1;
            let fade = *fade;
            if *step == fade_points {
                self.level = fade.new;
                self.fade = None;
            }
            begins.then_some(fade)
        }
    }

    /// Jumps, and the outputs after each: from none to some fades' length.
    fn orders(fade_points: i32) -> Vec<(f32, usize)> {
        let mut draws = [0; 600];
        tone::test_hum(0, &mut draws);
        let order = |draw: &[i16]| {
            let rate = 2f32.powf(f32::from(draw[0]) / 6600.0);
            let outputs = draw[1].unsigned_abs() as usize % (fade_points as usize + 5);
            (rate.clamp(0.0625, 31.9), outputs)
        };
        draws.chunks(2).map(order).collect()
    }

    /// The fades by the rules, and the levels after each order.
    fn expected(fade_points: i32) -> (Vec<Fade>, Vec<i32>) {
        let mut control = Control {
            level: 0,
            fade: None,
            point: 0,
        };
        let (mut fades, mut levels) = (Vec::new(), Vec::new());
        for (rate, outputs) in orders(fade_points) {
            let points = 0..OUTPUT_POINTS * outputs as u64;
            fades.extend(points.filter_map(|_| control.step(rate, fade_points as u64)));
            levels.push(control.level);
        }
        (fades, levels)
    }

    /// The fades that a player shows in parts, and the levels after each order.
    fn found(fade_points: i32, part: usize) -> (Vec<Fade>, Vec<i32>) {
        let book = book(fade_points);
        let mut store = vec![0; tone::store_words(3, TOP).unwrap()];
        tone::build(&book, &[0, 1000, 2000], TOP, &mut store).unwrap();
        let mut player = Player::open(&book, &store, Path::new("store"), 1.0).unwrap();
        player.shorten_parts(part);
        let (mut fades, mut levels, mut points) = (Vec::new(), Vec::new(), 0);
        for (rate, outputs) in orders(fade_points) {
            player.perform(Call::Jump(rate), |_| ()).unwrap();
            let seen = |part: Part| {
                fades.extend(part.fade.map(|fade| fade.after(points)));
                points += OUTPUT_POINTS * part.outputs as u64;
            };
            player.perform(Call::Play(outputs), seen).unwrap();
            levels.push(player.level());
        }
        (fades, levels)
    }

    #[test]
    fn fades_are_found_at_their_points() {
        for fade_points in [1, 2, 3, 5, 64, 255, 256] {
            let expected = expected(fade_points);
            assert!(expected.0.len() > 50, "{}", expected.0.len());
            for part in [1, 7, usize::MAX] {
                assert_eq!(
                    found(fade_points, part),
                    expected,
                    "F {fade_points}, {part}"
                );
            }
        }
    }
}
