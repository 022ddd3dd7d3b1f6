//! Random lines: calls at and around every limit, and lines of every other form.

use renderer::random::Rng;

/// A line without its line end, and what it was made for.
#[derive(Clone, Debug)]
pub struct Line {
    pub kind: String,
    pub bytes: Vec<u8>,
}

/// The place of a number in a line.
pub struct Place {
    pub name: &'static str,
    /// The least and the largest that is accepted.
    accepted: [u64; 2],
    /// Where something changes, accepted or not.
    limits: &'static [u64],
}

/// A rate in 256ths. Level 1 begins at 512 and is held to 480, level 2 at 1024 and
/// to 960.
const A: Place = Place {
    name: "a",
    accepted: [16, 2047],
    limits: &[
        0, 1, 15, 16, 17, 255, 256, 479, 480, 481, 511, 512, 513, 959, 960, 961, 1023, 1024, 1025,
        2046, 2047, 2048, 2049, 8192, 65536,
    ],
};

/// A glide's count of outputs.
const C: Place = Place {
    name: "c",
    accepted: [1, 65536],
    limits: &[0, 1, 2, 3, 7, 8, 9, 10, 20, 65535, 65536, 65537, 131_073],
};

/// A position; the hum ends at 6400 samples.
const P: Place = Place {
    name: "p",
    accepted: [0, 1 << 60],
    limits: &[
        0,
        1,
        (1 << 28) - 1,
        1 << 28,
        6399 << 28,
        6400 << 28,
        1 << 32,
        (1 << 60) - 1,
        1 << 60,
        (1 << 60) + 1,
        (1 << 60) + 2,
        1 << 61,
        1 << 63,
        u64::MAX,
    ],
};

/// A play's outputs; a fade takes 8.
const N: Place = Place {
    name: "n",
    accepted: [0, 4096],
    limits: &[
        0, 1, 2, 3, 4, 5, 6, 7, 8, 9, 10, 15, 16, 17, 20, 4095, 4096, 4097, 4098, 8192, 65536,
    ],
};

/// The calls, each with the places of its numbers.
pub const CALLS: [(&str, &[Place]); 4] = [
    ("jump", &[A]),
    ("glide", &[A, C]),
    ("seek", &[P]),
    ("play", &[N]),
];

/// Where numbers of some bits would come round to small ones again.
pub const ROUNDS: [u32; 3] = [32, 64, 96];

impl Place {
    fn accepted_number(&self, rng: &mut Rng) -> u64 {
        let [low, high] = self.accepted;
        match rng.below(3) {
            0 => rng.range(low as i64, high as i64) as u64,
            _ => rng.pick(self.limits).clamp(low, high),
        }
    }

    fn number(&self, rng: &mut Rng) -> u64 {
        match rng.below(4) {
            0 => self.accepted_number(rng),
            _ => rng.pick(self.limits),
        }
    }
}

/// A number's digits, with leading zeros now and then.
fn digits(rng: &mut Rng, number: u128) -> String {
    let zeros = match rng.below(8) {
        0 => rng.below(30) as usize,
        _ => 0,
    };
    format!("{}{number}", "0".repeat(zeros))
}

/// A call at and around its limits.
pub fn call(rng: &mut Rng) -> Line {
    let (word, places) = &CALLS[rng.pick(&[0, 0, 1, 2, 3, 3, 3])];
    let mut text = word.to_string();
    for place in *places {
        let number = place.number(rng).into();
        text = format!("{text} {}", digits(rng, number));
    }
    Line {
        kind: "a call".to_string(),
        bytes: text.into_bytes(),
    }
}

/// A call that would be accepted if one of its numbers came round.
pub fn round_call(rng: &mut Rng) -> Line {
    let (word, places) = &CALLS[rng.below(4) as usize];
    let at = rng.below(places.len() as u64) as usize;
    let bits = rng.pick(&ROUNDS);
    let mut text = word.to_string();
    for (index, place) in places.iter().enumerate() {
        let mut number: u128 = place.accepted_number(rng).into();
        if index == at {
            number += u128::from(1 + rng.below(3)) << bits;
        }
        text = format!("{text} {}", digits(rng, number));
    }
    Line {
        kind: round_kind(word, &places[at], bits),
        bytes: text.into_bytes(),
    }
}

/// The kind of `round_call`'s lines.
pub fn round_kind(word: &str, place: &Place, bits: u32) -> String {
    format!("{word} with {} past 2^{bits}", place.name)
}

type Form = (&'static str, fn(&str) -> String);

/// What makes a line of another form of a call's text.
pub const FORMS: [Form; 27] = [
    ("nothing", |_| String::new()),
    ("a blank alone", |_| " ".to_string()),
    ("a blank in front", |text| format!(" {text}")),
    ("a blank behind", |text| format!("{text} ")),
    ("two blanks", |text| text.replacen(' ', "  ", 1)),
    ("no blank", |text| text.replacen(' ', "", 1)),
    ("a tab", |text| text.replacen(' ', "\t", 1)),
    ("a tab behind", |text| format!("{text}\t")),
    ("a carriage return", |text| format!("{text}\r")),
    ("a NUL in front", |text| format!("\0{text}")),
    ("a NUL behind", |text| format!("{text}\0")),
    ("a plus", |text| text.replacen(' ', " +", 1)),
    ("a minus", |text| text.replacen(' ', " -", 1)),
    ("a fraction", |text| format!("{text}.5")),
    ("a comma", |text| text.replacen(' ', " 1,", 1)),
    ("hexadecimal", |text| text.replacen(' ', " 0x", 1)),
    ("a letter behind", |text| format!("{text}e")),
    ("a sign next to the digits", |text| format!("{text}/:")),
    ("digits of another script", |text| format!("{text}\u{664}")),
    ("capitals", |text| text.to_uppercase()),
    ("a shorter word", |text| text[1..].to_string()),
    ("a longer word", |text| text.replacen(' ', "s ", 1)),
    ("a word of many letters", |text| {
        format!("hum-hum-hum-{text}")
    }),
    ("no number", |text| text.split(' ').take(1).collect()),
    ("a number too many", |text| format!("{text} 1")),
    ("a number in front", |text| format!("1 {text}")),
    ("half a glide", |_| "glide 256".to_string()),
];

/// A line of another form.
pub fn other(rng: &mut Rng) -> Line {
    let (name, form) = rng.pick(&FORMS);
    let text = String::from_utf8(call(rng).bytes).expect("a call is ASCII");
    Line {
        kind: name.to_string(),
        bytes: form(&text).into_bytes(),
    }
}

/// Kinds of bytes that no call has, by their ranges. The line end is of none.
pub const STRANGE: [(&str, [i64; 2]); 3] = [
    ("a byte below 10", [0, 9]),
    ("a byte from 11 to 31", [11, 31]),
    ("a byte above 126", [127, 255]),
];

/// A call with such a byte put in anywhere.
pub fn strange(rng: &mut Rng) -> Line {
    let (name, [low, high]) = rng.pick(&STRANGE);
    let mut bytes = call(rng).bytes;
    let at = rng.below(bytes.len() as u64 + 1) as usize;
    bytes.insert(at, rng.range(low, high) as u8);
    Line {
        kind: name.to_string(),
        bytes,
    }
}

/// Some lines, each with its line end.
pub fn joined(lines: &[Line]) -> Vec<u8> {
    let ended = |line: &Line| [&line.bytes[..], b"\n"].concat();
    lines.iter().flat_map(ended).collect()
}
