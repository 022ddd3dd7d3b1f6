//! A call on a voice, with the archive's types. The renderer's own list has the
//! calls of every edition.

use crate::tally::Kind;
use crate::EDITION;
use renderer::exact;
use renderer::voice::{order, play, seek, Lent, Order, Played, Voice};
use renderer::Edition;
use std::fmt;

/// What a call is lent. A second book and a told S are for other editions.
pub const fn lent<'a>(book: &'a [i32], store: &'a [i32]) -> Lent<'a> {
    Lent {
        book,
        second: &[],
        store,
        samples: 0,
    }
}

/// A call on a voice.
#[derive(Clone, Copy, Debug)]
pub enum Call {
    /// A jump to a rate.
    Jump(f32),
    /// A glide to a rate over c outputs.
    Glide(f32, u32),
    /// A seek to P.
    Seek(u64),
    /// A play of so many outputs.
    Play(usize),
}

impl From<exact::Call> for Call {
    fn from(call: exact::Call) -> Call {
        match call {
            exact::Call::Jump(rate) => Call::Jump(rate),
            exact::Call::Glide(rate, count) => {
                Call::Glide(rate, count.try_into().expect("c has 32 bits"))
            }
            exact::Call::Seek(position) => Call::Seek(position),
            exact::Call::Play(count) => Call::Play(count),
            exact::Call::SetLoop(..) => panic!("the archive has no loops"),
        }
    }
}

impl From<Call> for exact::Call {
    fn from(call: Call) -> exact::Call {
        match call {
            Call::Jump(rate) => exact::Call::Jump(rate),
            Call::Glide(rate, count) => exact::Call::Glide(rate, count.into()),
            Call::Seek(position) => exact::Call::Seek(position),
            Call::Play(count) => exact::Call::Play(count),
        }
    }
}

/// The call in words, for reports.
impl fmt::Display for Call {
    fn fmt(&self, f: &mut fmt::Formatter<'_>) -> fmt::Result {
        match self {
            Call::Jump(rate) => write!(f, "jump to {rate}, bits {:08x}", rate.to_bits()),
            Call::Glide(rate, count) => {
                let bits = rate.to_bits();
                write!(f, "glide to {rate}, bits {bits:08x}, over {count}")
            }
            Call::Seek(position) => write!(f, "seek {position}"),
            Call::Play(count) => write!(f, "play {count}"),
        }
    }
}

impl Call {
    /// Its column in the table.
    pub fn kind(self) -> Kind {
        match self {
            Call::Jump(_) => Kind::Jump,
            Call::Glide(..) => Kind::Glide,
            Call::Seek(_) => Kind::Seek,
            Call::Play(_) => Kind::Play,
        }
    }

    /// The words of its output slice.
    pub fn outputs(self) -> usize {
        match self {
            Call::Play(count) => count,
            _ => 0,
        }
    }

    /// The renderer's number, voice and multiply count, which is 0 but for a play;
    /// `out` is the output slice of a play.
    pub fn rendered(self, voice: &Voice, lent: &Lent, out: &mut [i16]) -> Played {
        self.rendered_at(EDITION, voice, lent, out)
    }

    /// The same at an edition.
    pub fn rendered_at(
        self,
        edition: Edition,
        voice: &Voice,
        lent: &Lent,
        out: &mut [i16],
    ) -> Played {
        let (number, voice) = match self {
            Call::Jump(rate) => order(edition, voice, Order::Jump(rate)),
            Call::Glide(rate, count) => order(edition, voice, Order::Glide(rate, count.into())),
            Call::Seek(position) => seek(edition, voice, position),
            Call::Play(_) => return play(edition, voice, lent, out),
        };
        Played {
            number,
            voice,
            multiplies: 0,
        }
    }
}

#[cfg(test)]
mod tests {
    use super::*;

    #[test]
    fn there_and_back() {
        for call in [
            Call::Jump(1.5),
            Call::Glide(0.25, u32::MAX),
            Call::Seek(u64::MAX),
            Call::Play(9),
        ] {
            let back = Call::from(exact::Call::from(call));
            assert_eq!(format!("{back:?}"), format!("{call:?}"));
        }
    }
}
