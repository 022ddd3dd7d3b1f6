//! The printed text: what it says by itself.

/// An accepted play.
#[derive(Clone, Copy, Debug, PartialEq, Eq)]
pub struct Played {
    pub number: u64,
    pub outputs: u64,
    pub multiplies: u64,
    pub level: u64,
}

/// A line before the last one.
#[derive(Clone, Copy, Debug, PartialEq, Eq)]
pub enum Printed {
    Refused,
    Played(Played),
}

impl Printed {
    pub fn played(self) -> Option<Played> {
        match self {
            Printed::Refused => None,
            Printed::Played(played) => Some(played),
        }
    }
}

/// Numbers with one blank between, without signs or leading zeros.
fn numbers<const COUNT: usize>(line: &str) -> Option<[u64; COUNT]> {
    let numbers: Option<Vec<u64>> = line.split(' ').map(|word| word.parse().ok()).collect();
    let numbers: [u64; COUNT] = numbers?.try_into().ok()?;
    let again = numbers.map(|number| number.to_string()).join(" ");
    (again == line).then_some(numbers)
}

fn printed_line(line: &str) -> Printed {
    if line == "refused" {
        return Printed::Refused;
    }
    let [number, outputs, multiplies, level] =
        numbers(line).unwrap_or_else(|| panic!("a line of no known form: {line:?}"));
    Printed::Played(Played {
        number,
        outputs,
        multiplies,
        level,
    })
}

/// The accepted plays among some lines.
pub fn plays(lines: &[Printed]) -> impl Iterator<Item = Played> + '_ {
    lines.iter().filter_map(|line| line.played())
}

/// The lines before the last one. Holds the text to what must be so whatever the
/// input was: plays count from 1, and the totals are the sums over the lines.
pub fn read(text: &str) -> Vec<Printed> {
    let whole = text.strip_suffix('\n').expect("a line end at the end");
    let mut lines: Vec<&str> = whole.split('\n').collect();
    let last = lines.pop().expect("a last line");
    let totals = last.strip_prefix("total ").and_then(numbers::<2>);
    let lines: Vec<Printed> = lines.into_iter().map(printed_line).collect();
    for (played, number) in plays(&lines).zip(1..) {
        assert_eq!(played.number, number, "a play's number");
    }
    let outputs = plays(&lines).map(|played| played.outputs).sum();
    let multiplies = plays(&lines).map(|played| played.multiplies).sum();
    assert_eq!(totals, Some([outputs, multiplies]), "last line {last:?}");
    lines
}
