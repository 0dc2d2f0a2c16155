//! Inputs for the program `boxes`, and what it must print for them, by the reference.
use std::fs;
use std::io::{self, Write};
use std::path::Path;

/// A child box record: min, then max, each with a w that is to be ignored.
fn record(min: [u32; 3], max: [u32; 3]) -> Vec<u8> {
    let [x, y, z] = min;
    let [u, v, w] = max;
    [x, y, z, 0x7fc0_0001, u, v, w, 0xc2c8_0000].into_iter().flat_map(u32::to_le_bytes).collect()
}

fn records<const N: usize>(boxes: [([f32; 3], [f32; 3]); N]) -> Vec<u8> {
    boxes.into_iter().flat_map(|(min, max)| record(min.map(f32::to_bits), max.map(f32::to_bits))).collect()
}

/// The listing in the scope document.
fn two() -> Vec<u8> {
    records([([-1.0, -1.0, -1.0], [-0.5, 1.0, 1.0]), ([0.5, -1.0, -1.0], [1.0, 1.0, 1.0])])
}

/// Box i of n: its corner goes through the steps 37·i, 91·i and 53·i modulo 256, its sides through 1 to 7.
fn scattered(n: u32) -> Vec<u8> {
    let corner = |i: u32| [37 * i % 256, 91 * i % 256, 53 * i % 256].map(|k| k as f32 - 128.0);
    let side = |i: u32| [1 + i % 7, 1 + i % 5, 1 + i % 3].map(|k| k as f32);
    let place = |i| (corner(i), std::array::from_fn(|axis| corner(i)[axis] + side(i)[axis]));
    (0..n).flat_map(|i| records([place(i)])).collect()
}

/// NaNs of several bits. The first three x minima, 1, NaN and 3, fold to 3, so that the first box lies far outside the
/// box of all, and its node values wrap.
fn nan() -> Vec<u8> {
    let [one, two, three, four, five] = [1.0, 2.0, 3.0, 4.0, 5.0].map(f32::to_bits);
    let (quiet, signalling, negative) = (0x7fc0_0000, 0x7f80_0001, 0xffc0_1234);
    [
        record([one, one, one], [five, five, five]),
        record([quiet, signalling, negative], [negative, quiet, signalling]),
        record([three, two, quiet], [four, five, four]),
        record([three, negative, two], [four, four, signalling]),
        record([four, one, one], [five, two, two]),
    ]
    .concat()
}

/// Infinities, both zeros, and boxes turned inside out.
fn infinite() -> Vec<u8> {
    let (max, infinity) = (f32::MAX, f32::INFINITY);
    records([
        ([-infinity, 0.0, -0.0], [infinity, 0.0, 0.0]),
        ([1.0, -0.0, 0.0], [-1.0, -0.0, -0.0]),
        ([-max, 0.0, 3.0], [max, -0.0, -3.0]),
        ([infinity, 0.0, 1.0e-40], [infinity, 0.0, 1.0e-40]),
    ])
}

/// Four boxes of which three are the same: a split that leaves a group empty, so that they are sorted and cut.
fn equal() -> Vec<u8> {
    let same = ([1.0, 2.0, 3.0], [4.0, 5.0, 6.0]);
    records([same, same, ([1.0, 2.0, 3.0], [4.0, 5.0, 6.5]), same])
}

fn cases() -> [(&'static str, Vec<u8>); 11] {
    [
        ("two", two()),
        ("empty", vec![]),
        ("ragged", two()[..63].to_vec()),
        ("one", two()[..32].to_vec()),
        ("equal", equal()),
        ("nan", nan()),
        ("infinite", infinite()),
        ("64", scattered(64)),
        ("65", scattered(65)),
        ("256", scattered(256)),
        ("over", [scattered(256), vec![0]].concat()),
    ]
}

/// Writes each input to a file of the folder, and prints its name and what is printed for it.
pub fn print(out: &mut impl Write, folder: &Path) -> io::Result<()> {
    for (name, input) in cases() {
        fs::write(folder.join(name), &input)?;
        write!(out, "case {name}\n{}", oracle::tree::boxes(&input))?;
    }
    Ok(())
}
