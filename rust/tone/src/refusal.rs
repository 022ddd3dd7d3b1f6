//! Refusals: a number and its meaning.

use std::error::Error;
use std::fmt;

/// The number that is returned for a voice slice of the wrong length. Documents
/// 01 and 02 give none, since there a voice is a record.
pub const VOICE_LENGTH: u32 = 28;

/// Why a call was refused. A refused call has changed nothing.
///
/// ```
/// # #[cfg(feature = "player")] {
/// use tone::Voice;
///
/// let refusal = Voice::open(2.0, 0).unwrap_err();
/// assert_eq!(refusal.number(), 10);
/// assert_eq!(
///     refusal.to_string(),
///     "refused 10: the rate is not from 1/16 up to below 2^(T+1)"
/// );
/// # }
/// ```
#[derive(Clone, Copy, Debug, PartialEq, Eq)]
pub struct Refusal {
    number: u32,
}

impl Refusal {
    /// A call's answer: accepted where the number is 0.
    pub(crate) fn answer(number: u32) -> Result<(), Refusal> {
        match number {
            0 => Ok(()),
            number => Err(Refusal { number }),
        }
    }

    /// The number that documents 01 and 02 give it.
    pub fn number(self) -> u32 {
        self.number
    }

    /// The number's condition, in plain words.
    pub fn meaning(self) -> &'static str {
        match self.number {
            1 => "the book is shorter than 5 words",
            2 => "a size of the book is outside its range",
            3 => "the book's length is not the one that its sizes give",
            4 => "an impulse or tap of the book is outside -32768..32767",
            5 => "the first impulse of the book's first phase is not 0",
            6 => "a difference of the book is wrong",
            7 => "a sum of absolute values in the book is too large",
            8 => "the count of samples is outside 1..1048576, or the top level outside 0..4",
            9 => "the store is shorter than its header and levels",
            10 => "the rate is not from 1/16 up to below 2^(T+1)",
            11 => "the count of outputs is outside its range (a glide 1..65536, a play 0..1048576)",
            12 => "the position is beyond 2^60",
            13 => "the voice's top level is above 4, or one of its levels above the top level",
            14 => "the voice's fade does not fit its levels or the book's fade length",
            15 => "a rate of the voice, or its glide, is outside its range",
            16 => "the voice's position is beyond 2^60",
            17 => "a point of the voice's history is beyond 2^29 in magnitude",
            18 => "a level length in the store's header is not the one that its S and T give",
            19 => "the voice's top level is not the store's",
            VOICE_LENGTH => "the voice is not 95 words long",
            _ => "a number without a meaning here",
        }
    }
}

impl fmt::Display for Refusal {
    fn fmt(&self, f: &mut fmt::Formatter<'_>) -> fmt::Result {
        write!(f, "refused {}: {}", self.number, self.meaning())
    }
}

impl Error for Refusal {}
