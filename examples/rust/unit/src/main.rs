//! A unit's program: plays bench cases B and C of document 01 from stores that a
//! studio built, as constants. It knows no level builder and links no more than
//! libtone.a. It prints what its twin in C prints, `examples/c/unit.txt`.

use tone::{top_level, Refusal, Voice};

/// What plays are lent.
struct Hum {
    book: [i32; 11],
    store: &'static [i32],
}

/// Case B: book K, and the store of the samples 0, 1000, 2000.
const B: Hum = Hum {
    book: [2, 1, 0, 0, 1, 0, 16384, 16384, -16384, 16384, 16384],
    store: &[3, 1, 3, 2, 0, 256000, 512000, 0, 512000],
};

/// Case C: book K with a fade of 4 points, and the store of 0, 1000, 0, 1000.
const C: Hum = Hum {
    book: [2, 1, 0, 0, 4, 0, 16384, 16384, -16384, 16384, 16384],
    store: &[4, 1, 4, 2, 0, 256000, 0, 256000, 0, 0],
};

impl Hum {
    /// Opens a voice for the store. T stands in the store, which is tested
    /// first.
    fn open(&self, rate: f32) -> Result<Voice, Refusal> {
        Voice::open(rate, top_level(self.store)?)
    }

    fn play(&self, voice: &mut Voice, out: &mut [i16]) -> Result<u64, Refusal> {
        voice.play(&self.book, self.store, out)
    }
}

/// Plays `count` outputs, `step` or fewer at a time, and prints them after the
/// case's letter, and the sum of their multiplies.
fn print_played(
    letter: char,
    voice: &mut Voice,
    hum: &Hum,
    count: usize,
    step: usize,
) -> Result<(), Refusal> {
    let (mut out, mut sum) = (vec![0; count], 0);
    for part in out.chunks_mut(step) {
        sum += hum.play(voice, part)?;
    }
    let samples: Vec<String> = out.iter().map(i16::to_string).collect();
    println!("{letter} {}", samples.join(" "));
    println!("{sum} multiplies");
    Ok(())
}

/// However a drive is cut into plays, its samples and the sum of its multiplies are
/// the same.
fn case_b() -> Result<(), Refusal> {
    print_played('B', &mut B.open(2.0)?, &B, 3, 3)?;
    print_played('B', &mut B.open(2.0)?, &B, 3, 1)
}

/// The jump crosses an octave: a fade of 4 points leads to level 1, and makes two
/// level values at each.
fn case_c() -> Result<(), Refusal> {
    let mut voice = C.open(1.0)?;
    voice.jump(2.0)?;
    print_played('C', &mut voice, &C, 2, 2)?;
    println!("level {} is then current", voice.words()[1]);
    Ok(())
}

/// A damaged voice is refused by its number, and nothing is written: a refused
/// play has taken no multiplies.
fn refusal() -> Result<(), Refusal> {
    let mut words = *B.open(1.0)?.words();
    words[13] = -1; // the high word of P
    let mut out = [77; 2];
    if let Err(refusal) = B.play(&mut Voice::from_words(words), &mut out) {
        println!(
            "a voice beyond 2^60: number {}, 0 multiplies",
            refusal.number()
        );
    }
    let kept = if out == [77; 2] {
        "as it was"
    } else {
        "changed"
    };
    println!("the output is {kept}");
    Ok(())
}

fn main() -> Result<(), Refusal> {
    case_b()?;
    case_c()?;
    refusal()
}
