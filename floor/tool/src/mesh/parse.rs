//! Lines and numbers of a mesh's text.

pub use crate::boxes::{number, unmarked};
use crate::failure::Failure;
use bounds::Vec3;
use std::borrow::Cow;

/// A file's letters, and how they were read.
pub struct Text<'a> {
    pub letters: Cow<'a, str>,
    /// It is no UTF-8: each byte is a letter of Latin-1.
    pub latin_1: bool,
}

/// The text of a file: UTF-8, or else Latin-1, in which every byte is a letter; so many exporters write names and comments.
/// What has control characters that no text has is neither.
pub fn text<'a>(path: &str, bytes: &'a [u8]) -> Result<Text<'a>, Failure> {
    if bytes.starts_with(b"\xFF\xFE") || bytes.starts_with(b"\xFE\xFF") {
        return Err(wrong(path, 1, "text in UTF-16; expected UTF-8 or Latin-1"));
    }
    let bytes = unmarked(bytes);
    let found = std::str::from_utf8(bytes);
    let control = |byte: u8| byte < b' ' && !byte.is_ascii_whitespace();
    let odd = |&byte: &u8| byte == 0 || found.is_err() && control(byte);
    if let Some(at) = bytes.iter().position(odd) {
        let line = 1 + bytes[..at].iter().filter(|&&byte| byte == b'\n').count();
        return Err(wrong(path, line, format!("byte {:02X}, which no text has; expected text", bytes[at])));
    }
    Ok(match found {
        Ok(letters) => Text { letters: letters.into(), latin_1: false },
        Err(_) => Text { letters: bytes.iter().map(|&byte| char::from(byte)).collect(), latin_1: true },
    })
}

/// A line that says something: its number from 1, its first word, and the words behind it.
pub struct Said<'a> {
    pub line: usize,
    pub word: &'a str,
    pub rest: Vec<&'a str>,
    pub comment: &'a str,
}

/// The lines that say something. `#` begins a comment.
pub fn lines<'a>(text: &'a str) -> Vec<Said<'a>> {
    let said = |(at, line): (usize, &'a str)| {
        let (said, comment) = line.split_once('#').unwrap_or((line, ""));
        let mut words = said.split_ascii_whitespace();
        Some(Said { line: at + 1, word: words.next()?, rest: words.collect(), comment: comment.trim() })
    };
    text.lines().enumerate().filter_map(said).collect()
}

/// A file that does not say what it should.
pub fn wrong(path: &str, line: usize, words: impl AsRef<str>) -> Failure {
    Failure::File(format!("{path}, line {line}: {}", words.as_ref()))
}

/// A word as a message shows it: garbage escaped, and not too long.
pub fn shown(word: &str) -> String {
    const MOST: usize = 40;
    let plain: String = word.chars().take(MOST).flat_map(char::escape_debug).collect();
    if word.chars().count() > MOST {
        plain + ".."
    } else {
        plain
    }
}

impl<'a> Said<'a> {
    /// The line up to a word, and the words behind it where it is there.
    pub fn parted(&self, at: &str) -> (Said<'a>, Option<Vec<&'a str>>) {
        let Said { line, word, comment, .. } = *self;
        let k = self.rest.iter().position(|&word| word == at);
        let rest = self.rest[..k.unwrap_or(self.rest.len())].to_vec();
        (Said { line, word, rest, comment }, k.map(|k| self.rest[k + 1..].to_vec()))
    }

    /// So many numbers behind the word, and no more.
    pub fn floats<const N: usize>(&self, of: &str) -> Result<[f32; N], String> {
        let found = self.rest.len();
        let words: [&str; N] =
            self.rest.clone().try_into().map_err(|_| format!("{found} numbers behind {}; expected {of}", self.word))?;
        let mut numbers = [0.0; N];
        for (number, word) in numbers.iter_mut().zip(words) {
            *number = self::number(word)?;
        }
        Ok(numbers)
    }

    /// A point behind the word.
    pub fn point(&self) -> Result<Vec3, String> {
        self.floats("three: x y z").map(|[x, y, z]| Vec3::new(x, y, z))
    }
}

/// A whole number from `least` to `most`.
pub fn whole(word: &str, of: &str, least: i64, most: i64) -> Result<i64, String> {
    let number = word.parse().ok().filter(|n| (least..=most).contains(n));
    number.ok_or_else(|| format!("{of} '{}': expected a number from {least} to {most}", shown(word)))
}

/// A word of 32 bits, decimal or 0x and hexadecimal digits.
pub fn bits(word: &str) -> Result<u32, String> {
    let number = match word.strip_prefix("0x") {
        Some(digits) => u32::from_str_radix(digits, 16).ok().filter(|_| !digits.starts_with('+')),
        None => word.parse().ok().filter(|_| !word.starts_with('+')),
    };
    number.ok_or_else(|| format!("'{}' is no word of 32 bits: expected a decimal, or 0x and its digits", shown(word)))
}
