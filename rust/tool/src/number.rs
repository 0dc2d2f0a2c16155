//! Numbers as people read them: a float beside its word, a record's value beside the place that it stands for.

/// A float by the fewest digits that lead back to it; `NaN`, `inf`, `-inf`.
pub fn float(x: f32) -> String {
    format!("{x:?}")
}

/// A word: eight hexadecimal digits.
pub fn word(word: u32) -> String {
    format!("{word:08X}")
}

/// A float and its word: `4.0 (40800000)`.
pub fn both(bits: u32) -> String {
    format!("{} ({})", float(f32::from_bits(bits)), word(bits))
}

/// A place on an axis, in the units of the boxes, to three digits: enough to tell a box from its neighbour.
pub fn place(x: f64) -> String {
    let size = x.abs();
    if x.is_nan() {
        "nowhere".into()
    } else if x.is_infinite() || (x != 0.0 && !(0.01..1e6).contains(&size)) {
        format!("{x:.3e}")
    } else {
        format!("{x:.3}")
    }
}

/// Bytes as hexadecimal pairs.
pub fn bytes(bytes: &[u8]) -> String {
    bytes.iter().map(|byte| format!("{byte:02X}")).collect::<Vec<_>>().join(" ")
}

/// A count with its noun: `1 node`, `2 nodes`, `3 boxes`.
pub fn counted(n: usize, noun: &str) -> String {
    match n {
        1 => format!("1 {noun}"),
        _ => format!("{n} {}", plural(noun)),
    }
}

/// `nodes`, `boxes`, `vertices`.
pub fn plural(noun: &str) -> String {
    match noun.strip_suffix("ex") {
        Some(stem) => format!("{stem}ices"),
        None if noun.ends_with('x') => format!("{noun}es"),
        None => format!("{noun}s"),
    }
}

/// A verb behind a count: `1 field differs`, `2 fields differ`.
pub fn verb(n: usize, verb: &str) -> String {
    format!("{verb}{}", if n == 1 { "s" } else { "" })
}

/// A list of numbers, the middle of a long one left out: `0,1,2 .. 97,98,99 (100)`.
pub fn some<T: std::fmt::Display>(of: &[T]) -> String {
    const SHOWN: usize = 12;
    let join = |part: &[T]| part.iter().map(T::to_string).collect::<Vec<_>>().join(",");
    if of.len() <= SHOWN {
        return join(of);
    }
    format!("{} .. {} ({} in all)", join(&of[..SHOWN / 2]), join(&of[of.len() - 2..]), of.len())
}

#[cfg(test)]
mod tests {
    use super::*;

    #[test]
    fn numbers_read_well() {
        assert_eq!(both(0x4080_0000), "4.0 (40800000)");
        assert_eq!(both(0x7FC0_0000), "NaN (7FC00000)");
        assert_eq!([0.0, 8.5, -1e9, 1e-5, f64::NAN].map(place), ["0.000", "8.500", "-1.000e9", "1.000e-5", "nowhere"]);
        assert_eq!(
            (counted(1, "box"), counted(2, "box"), counted(0, "node")),
            ("1 box".into(), "2 boxes".into(), "0 nodes".into())
        );
        assert_eq!(some(&[1, 2, 3]), "1,2,3");
        assert_eq!(some(&(0..100).collect::<Vec<_>>()), "0,1,2,3,4,5 .. 98,99 (100 in all)");
    }
}
