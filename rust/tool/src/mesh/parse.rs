//! Lines and numbers of a mesh's text.

pub use crate::boxes::number;
use crate::failure::Failure;
use bounds::Vec3;

/// A line that says something: its number from 1, its first word, and the words behind it.
pub struct Said<'a> {
    pub line: usize,
    pub word: &'a str,
    pub rest: Vec<&'a str>,
    pub comment: &'a str,
}

/// The lines that say something. `#` begins a comment.
pub fn lines<'a>(path: &str, bytes: &'a [u8]) -> Result<Vec<Said<'a>>, Failure> {
    let text = std::str::from_utf8(bytes).map_err(|error| {
        let line = 1 + bytes[..error.valid_up_to()].iter().filter(|&&b| b == b'\n').count();
        wrong(path, line, "bytes that are no text; expected text in UTF-8")
    })?;
    let said = |(at, line): (usize, &'a str)| {
        let (said, comment) = line.split_once('#').unwrap_or((line, ""));
        let mut words = said.split_ascii_whitespace();
        Some(Said { line: at + 1, word: words.next()?, rest: words.collect(), comment: comment.trim() })
    };
    Ok(text.lines().enumerate().filter_map(said).collect())
}

/// A file that does not say what it should.
pub fn wrong(path: &str, line: usize, words: impl AsRef<str>) -> Failure {
    Failure::File(format!("{path}, line {line}: {}", words.as_ref()))
}

/// A word as a message shows it: garbage escaped, and not too long.
pub fn shown(word: &str) -> String {
    const MOST: usize = 40;
    let plain: String = word.chars().take(MOST).flat_map(char::escape_debug).collect();
    if word.chars().count() > MOST {
        plain + ".."
    } else {
        plain
    }
}

impl Said<'_> {
    /// So many numbers behind the word, and no more.
    pub fn floats<const N: usize>(&self, of: &str) -> Result<[f32; N], String> {
        let found = self.rest.len();
        let words: [&str; N] =
            self.rest.clone().try_into().map_err(|_| format!("{found} numbers behind {}; expected {of}", self.word))?;
        let mut numbers = [0.0; N];
        for (number, word) in numbers.iter_mut().zip(words) {
            *number = self::number(word)?;
        }
        Ok(numbers)
    }

    /// A point behind the word.
    pub fn point(&self) -> Result<Vec3, String> {
        self.floats("three: x y z").map(|[x, y, z]| Vec3::new(x, y, z))
    }
}

/// A whole number from `least` to `most`.
pub fn whole(word: &str, of: &str, least: i64, most: i64) -> Result<i64, String> {
    let number = word.parse().ok().filter(|n| (least..=most).contains(n));
    number.ok_or_else(|| format!("{of} '{}': expected a number from {least} to {most}", shown(word)))
}

/// A word of 32 bits, decimal or 0x and hexadecimal digits.
pub fn bits(word: &str) -> Result<u32, String> {
    let number = match word.strip_prefix("0x") {
        Some(digits) => u32::from_str_radix(digits, 16).ok().filter(|_| !digits.starts_with('+')),
        None => word.parse().ok().filter(|_| !word.starts_with('+')),
    };
    number.ok_or_else(|| format!("'{}' is no word of 32 bits: expected a decimal, or 0x and its digits", shown(word)))
}
