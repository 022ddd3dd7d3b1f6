//! Books and stores as files.

use std::fs::{self, File};
use std::io::{self, Read, Write};
use std::path::Path;

use tone::{MOST_SAMPLES, MOST_TOP};

use crate::failure::Failure;

/// Bytes of a word in a store.
const WORD_BYTES: usize = 4;

/// Reads a book: decimal words, and lines of comment that begin with '#'.
pub fn read_book(path: &Path) -> Result<Vec<i32>, Failure> {
    let text =
        fs::read_to_string(path).map_err(|error| Failure::unusable(path.display(), error))?;
    book_words(&text).map_err(|(number, word)| {
        let place = format!("{}:{number}", path.display());
        Failure::unusable(place, format!("{word:?} is not a 32-bit decimal word"))
    })
}

/// The words of a text, or the line of the first that is none, and its text.
fn book_words(text: &str) -> Result<Vec<i32>, (usize, &str)> {
    let mut words = Vec::new();
    for (index, line) in text.lines().enumerate() {
        if line.trim_start().starts_with('#') {
            continue;
        }
        for word in line.split_whitespace() {
            words.push(word.parse().map_err(|_| (index + 1, word))?);
        }
    }
    Ok(words)
}

/// Reads a store: words of four bytes, the lowest first. What lies past the
/// words of the largest store is not read.
pub fn read_store(path: &Path) -> Result<Vec<i32>, Failure> {
    let most_words = tone::store_words(MOST_SAMPLES, MOST_TOP).unwrap_or(0);
    let most_bytes = (most_words * WORD_BYTES) as u64;
    let mut bytes = Vec::new();
    File::open(path)
        .and_then(|file| file.take(most_bytes).read_to_end(&mut bytes))
        .map_err(|error| Failure::unusable(path.display(), error))?;
    let (words, rest) = bytes.as_chunks::<WORD_BYTES>();
    if !rest.is_empty() {
        return Err(Failure::unusable(
            path.display(),
            "not a whole number of 4-byte words",
        ));
    }
    Ok(words.iter().map(|word| i32::from_le_bytes(*word)).collect())
}

/// Writes a store.
pub fn write_store(file: &mut impl Write, store: &[i32]) -> io::Result<()> {
    store
        .iter()
        .try_for_each(|word| file.write_all(&word.to_le_bytes()))
}

#[cfg(test)]
mod tests {
    use super::*;

    #[test]
    fn words_and_comments() {
        let text = "# sizes\n2 1 0\t0 1\r\n\n  # impulses\n0 16384\n+5 -2147483648 2147483647";
        let words = [2, 1, 0, 0, 1, 0, 16384, 5, i32::MIN, i32::MAX];
        assert_eq!(book_words(text), Ok(words.to_vec()));
        assert_eq!(book_words(""), Ok(vec![]));
    }

    #[test]
    fn what_is_no_word() {
        assert_eq!(book_words("1 2\n3 x4 5"), Err((2, "x4")));
        assert_eq!(book_words("2147483648"), Err((1, "2147483648")));
        assert_eq!(book_words("1.0"), Err((1, "1.0")));
        assert_eq!(book_words("1 # one"), Err((1, "#")));
    }

    #[test]
    fn a_store_is_written_lowest_byte_first() {
        let mut bytes = Vec::new();
        write_store(&mut bytes, &[1, -2, 0x0102_0304]).unwrap();
        assert_eq!(bytes, [1, 0, 0, 0, 0xfe, 0xff, 0xff, 0xff, 4, 3, 2, 1]);
    }
}
