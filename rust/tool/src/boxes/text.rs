//! Boxes as text: six numbers a line (min x y z, max x y z), `absent` for an entry that is not there, `#` before a
//! comment, empty lines for the eye.

use super::{entry, Boxes, Origin};
use crate::failure::Failure;
use bounds::BvhItem;

/// A float: decimal, `nan`, `inf`, or `0x` and the eight digits of its word. One that only overflows to an infinity is
/// refused: who means one writes `inf`.
pub fn number(word: &str) -> Result<f32, String> {
    number_or(word, "a decimal, inf, nan or 0x and eight digits")
}

/// [`number`], where something else may stand as well.
fn number_or(word: &str, expected: &str) -> Result<f32, String> {
    let shown = word.escape_debug();
    if let Some(digits) = word.strip_prefix("0x") {
        let bits = u32::from_str_radix(digits, 16).ok().filter(|_| digits.len() == 8);
        return bits
            .map(f32::from_bits)
            .ok_or(format!("'{shown}' is no word: expected 0x and eight hexadecimal digits"));
    }
    let value: f32 = word.parse().map_err(|_| format!("'{shown}' is no number: expected {expected}"))?;
    if value.is_infinite() && word.contains(|c: char| c.is_ascii_digit()) {
        return Err(format!("'{shown}' is above every f32: write inf if that is meant"));
    }
    Ok(value)
}

/// The six numbers of a line.
fn six(line: &str) -> Result<[f32; 6], String> {
    let one = |word: &str| number_or(word, "a decimal, inf, nan, 0x.. or `absent` alone");
    let numbers: Vec<f32> =
        line.split([' ', '\t', ',']).filter(|w| !w.is_empty()).map(one).collect::<Result<_, _>>()?;
    let found = numbers.len();
    numbers.try_into().map_err(|_| format!("{found} numbers; expected six: min x y z, max x y z"))
}

/// The lines that say something, by their numbers from 1.
fn lines<'a>(path: &str, bytes: &'a [u8]) -> Result<Vec<(usize, &'a str)>, Failure> {
    let text = std::str::from_utf8(bytes).map_err(|error| {
        let line = 1 + bytes[..error.valid_up_to()].iter().filter(|&&b| b == b'\n').count();
        Failure::File(format!("{path}, line {line}: bytes that are no text; expected text in UTF-8"))
    })?;
    let said = |line: &'a str| line.split('#').next().unwrap_or("").trim();
    Ok(text.lines().map(said).enumerate().map(|(k, line)| (k + 1, line)).filter(|(_, line)| !line.is_empty()).collect())
}

fn at(path: &str, line: usize) -> impl Fn(String) -> Failure + '_ {
    move |words| Failure::File(format!("{path}, line {line}: {words}"))
}

/// The boxes of a text.
pub fn boxes(path: &str, bytes: &[u8]) -> Result<Boxes, Failure> {
    let lines = lines(path, bytes)?;
    let one = |&(line, text): &(usize, &str)| match text {
        "absent" => Ok(BvhItem::ABSENT),
        _ => six(text).map(|numbers| entry(1, numbers.map(f32::to_bits))).map_err(at(path, line)),
    };
    let items = lines.iter().map(one).collect::<Result<_, _>>()?;
    let origin = Origin::Text { file: path.into(), lines: lines.iter().map(|&(line, _)| line).collect() };
    Ok(Boxes { items, origin })
}

/// The queries of a text, each by its line.
pub fn queries(path: &str, bytes: &[u8]) -> Result<Vec<(usize, [f32; 6])>, Failure> {
    let one = |(line, text): (usize, &str)| Ok((line, six(text).map_err(at(path, line))?));
    lines(path, bytes)?.into_iter().map(one).collect()
}

#[cfg(test)]
mod tests {
    use super::*;

    fn failure(text: &str) -> String {
        boxes("f", text.as_bytes()).expect_err("not a list").to_string()
    }

    #[test]
    fn lines_become_entries() {
        let list =
            boxes("f", b"# a road\n0 0 0 1 1 1\n\nabsent # gone\r\n-1,0,0, 1e-3 inf 0x7FC00001\n").expect("a list");
        assert_eq!(list.items.len(), 3);
        assert_eq!(list.items[1], BvhItem::ABSENT);
        assert_eq!((list.items[2].min.x, list.items[2].max.z.to_bits()), (-1.0, 0x7FC0_0001));
        let axis = bounds::premises::Axis::Y;
        assert_eq!(list.origin.value(2, bounds::premises::Corner::Max, axis), "f line 5, number 5");
    }

    #[test]
    fn faults_name_the_line_and_what_was_expected() {
        assert_eq!(failure("0 0 0 1 1\n"), "bounds: f, line 1: 5 numbers; expected six: min x y z, max x y z");
        assert!(failure("\n0 0 0 1 1 one").contains("line 2: 'one' is no number"));
        assert!(failure("0 0 0 1 1 1e39").contains("above every f32"));
        assert!(failure("0 0 0 1 1 0x7FC").contains("eight hexadecimal digits"));
        let broken = boxes("f", b"0 0 0 1 1 1\n\xFF").expect_err("no text").to_string();
        assert!(broken.contains("line 2: bytes that are no text"), "{broken}");
    }
}
