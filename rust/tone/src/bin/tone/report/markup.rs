//! Texts and numbers as HTML and SVG take them. All of it is XML, too.

use std::fmt::{self, Write};

use crate::fades::OUTPUT_POINTS;

/// Characters of a long text that a sheet shows: its beginning and its end.
const FIRST_CHARACTERS: usize = 140;
const LAST_CHARACTERS: usize = 60;

/// A text that may hold anything. Characters that XML forbids, and those that do
/// not show or turn others around, are written as `\u{..}`. A long text is cut in
/// its middle.
pub struct Text<'a>(pub &'a str);

impl fmt::Display for Text<'_> {
    fn fmt(&self, f: &mut fmt::Formatter<'_>) -> fmt::Result {
        let characters = || self.0.chars();
        let more = characters()
            .count()
            .saturating_sub(FIRST_CHARACTERS + LAST_CHARACTERS);
        if more == 0 {
            return escape(f, characters());
        }
        escape(f, characters().take(FIRST_CHARACTERS))?;
        write!(f, "\u{2026} ({more} more characters) \u{2026}")?;
        escape(f, characters().skip(FIRST_CHARACTERS + more))
    }
}

fn escape(f: &mut fmt::Formatter<'_>, characters: impl Iterator<Item = char>) -> fmt::Result {
    for character in characters {
        match character {
            '&' => f.write_str("&amp;")?,
            '<' => f.write_str("&lt;")?,
            '>' => f.write_str("&gt;")?,
            '"' => f.write_str("&quot;")?,
            '\'' => f.write_str("&#39;")?,
            hidden if is_hidden(hidden) => write!(f, "{}", hidden.escape_default())?,
            shown => f.write_char(shown)?,
        }
    }
    Ok(())
}

/// Control characters, marks of direction and joining, line separators, tags, and
/// code points that are no characters. A tab separates words and is shown as it is.
fn is_hidden(character: char) -> bool {
    let nonsense = u32::from(character) & 0xfffe == 0xfffe;
    (character.is_control() && character != '\t')
        || nonsense
        || matches!(character,
            '\u{ad}' | '\u{61c}' | '\u{180e}' | '\u{feff}'
            | '\u{200b}'..='\u{200f}'
            | '\u{2028}'..='\u{202e}'
            | '\u{2060}'..='\u{206f}'
            | '\u{fdd0}'..='\u{fdef}'
            | '\u{fff9}'..='\u{fffb}'
            | '\u{e0000}'..='\u{e0fff}')
}

/// A coordinate, to a hundredth of a pixel.
pub struct At(pub f64);

impl fmt::Display for At {
    fn fmt(&self, f: &mut fmt::Formatter<'_>) -> fmt::Result {
        write!(f, "{}", (self.0 * 100.0).round() / 100.0)
    }
}

/// Points as outputs, which have two of them.
pub struct Outputs(pub u64);

impl fmt::Display for Outputs {
    fn fmt(&self, f: &mut fmt::Formatter<'_>) -> fmt::Result {
        let half = if self.0.is_multiple_of(OUTPUT_POINTS) {
            ""
        } else {
            ".5"
        };
        write!(f, "{}{half}", self.0 / OUTPUT_POINTS)
    }
}

/// A whole number with a narrow gap between its thousands, on one line.
pub fn grouped(number: u64) -> String {
    let digits = number.to_string();
    let first = digits.len() % 3;
    let gap = |at: usize| at != 0 && at % 3 == first;
    let spaced = |(at, digit)| gap(at).then_some('\u{a0}').into_iter().chain([digit]);
    digits.chars().enumerate().flat_map(spaced).collect()
}

#[cfg(test)]
mod tests {
    use super::*;

    fn shown(text: &str) -> String {
        Text(text).to_string()
    }

    #[test]
    fn markup_is_escaped() {
        assert_eq!(
            shown("<b title=\"x\" id='y'>&amp;</b>"),
            "&lt;b title=&quot;x&quot; id=&#39;y&#39;&gt;&amp;amp;&lt;/b&gt;"
        );
    }

    #[test]
    fn what_does_not_show_is_written_out() {
        assert_eq!(shown("a\0b\u{1b}[1m\rc"), "a\\u{0}b\\u{1b}[1m\\rc");
        assert_eq!(shown("\u{7f}\u{85}\u{feff}"), "\\u{7f}\\u{85}\\u{feff}");
        assert_eq!(shown("\u{202e}\u{2066}"), "\\u{202e}\\u{2066}");
        assert_eq!(shown("\u{fffe}\u{10ffff}"), "\\u{fffe}\\u{10ffff}");
        assert_eq!(shown("\u{e0041}\u{fdd0}"), "\\u{e0041}\\u{fdd0}");
        assert_eq!(
            shown("jump\t1 e\u{301} \u{4e2d} \u{1f50a}"),
            "jump\t1 e\u{301} \u{4e2d} \u{1f50a}"
        );
    }

    #[test]
    fn long_texts_are_cut_between_characters() {
        let (first, last) = ("\u{e9}".repeat(140), "<".repeat(60));
        let escaped = "&lt;".repeat(60);
        assert_eq!(
            shown(&format!("{first}{last}")),
            format!("{first}{escaped}")
        );
        assert_eq!(
            shown(&format!("{first}&&&{last}")),
            format!("{first}\u{2026} (3 more characters) \u{2026}{escaped}")
        );
    }

    #[test]
    fn numbers() {
        let spaced = |number| grouped(number).replace('\u{a0}', " ");
        assert_eq!(spaced(0), "0");
        assert_eq!(spaced(999), "999");
        assert_eq!(spaced(1000), "1 000");
        assert_eq!(spaced(100_000_000), "100 000 000");
        assert_eq!(At(1.0 / 3.0).to_string(), "0.33");
        assert_eq!(At(62.0).to_string(), "62");
        assert_eq!(Outputs(14).to_string(), "7");
        assert_eq!(Outputs(15).to_string(), "7.5");
    }
}
