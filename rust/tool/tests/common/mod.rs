//! Random lists, as hostile as floats allow, from a seed.
#![allow(dead_code)] // each test takes what it needs

pub mod command;
pub mod mesh;
pub mod terrain;

use bounds::{BvhItem, Vec3};

/// splitmix64.
pub struct Random(pub u64);

impl Random {
    pub fn next(&mut self) -> u64 {
        self.0 = self.0.wrapping_add(0x9E37_79B9_7F4A_7C15);
        let mut z = self.0;
        z = (z ^ (z >> 30)).wrapping_mul(0xBF58_476D_1CE4_E5B9);
        z = (z ^ (z >> 27)).wrapping_mul(0x94D0_49BB_1331_11EB);
        z ^ (z >> 31)
    }

    pub fn below(&mut self, n: usize) -> usize {
        (self.next() % n as u64) as usize
    }

    pub fn pick<T: Copy>(&mut self, from: &[T]) -> T {
        from[self.below(from.len())]
    }
}

/// Words that floats go wrong on.
const HARD: [u32; 18] = [
    0,
    0x8000_0000,
    0x0000_0001,
    0x807F_FFFF,
    0x0080_0000,
    0x3F80_0000,
    0xBF80_0000,
    0x4700_0000,
    0x4B80_0000,
    0x7180_0000,
    0x7F7F_FFFF,
    0xFF7F_FFFF,
    0x7F80_0000,
    0xFF80_0000,
    0x7FC0_0000,
    0xFFC0_0000,
    0x7F80_0001,
    0xFFA5_A5A5,
];

/// How the values of a list are spread: small whole numbers with many ties, a street, one size whichever it is, every
/// pattern, hard words, zeros of both signs, and one value throughout, which leaves all to the sort.
#[derive(Clone, Copy)]
pub enum Spread {
    Small,
    Street,
    Scaled(u32),
    Any,
    Hard,
    Zeros,
    Same(f32),
}

pub fn value(random: &mut Random, spread: Spread) -> f32 {
    match spread {
        Spread::Small => random.below(17) as f32 - 8.0,
        Spread::Street => random.below(2_000_000) as f32 * 0.001 - 1000.0,
        Spread::Scaled(exponent) => f32::from_bits(random.next() as u32 & 0x807F_FFFF | exponent << 23),
        Spread::Any => f32::from_bits(random.next() as u32),
        Spread::Hard => f32::from_bits(random.pick(&HARD)),
        Spread::Zeros => random.pick(&[0.0, -0.0, 0.0, -0.0, 1.0]),
        Spread::Same(value) => value,
    }
}

/// A list of `n` entries; `tame` ones have min at most max and no NaN.
pub fn list(random: &mut Random, n: usize) -> Vec<BvhItem> {
    let scaled = Spread::Scaled(random.below(254) as u32);
    let same = Spread::Same(random.below(9) as f32 - 4.0);
    let others = [Spread::Any, Spread::Hard, Spread::Zeros, same];
    let spread = random.pick(&[[Spread::Small, Spread::Street, Spread::Street, scaled], others].concat());
    let (turned, odd) = (random.below(3) == 0, random.below(3) == 0);
    let absent = random.pick(&[usize::MAX, usize::MAX, 5, 2]);
    let mut one = |_| {
        if random.below(absent) == 0 {
            return BvhItem::ABSENT;
        }
        let mut c: [f32; 6] = std::array::from_fn(|_| value(random, spread));
        for axis in 0..3 {
            if !turned && c[axis] > c[axis + 3] {
                c.swap(axis, axis + 3);
            }
        }
        if odd && random.below(6) == 0 {
            c[random.below(6)] = value(random, Spread::Hard);
        }
        BvhItem::new(Vec3::new(c[0], c[1], c[2]), Vec3::new(c[3], c[4], c[5]))
    };
    (0..n).map(&mut one).collect()
}

/// Lengths that matter: few, about a range's limit, more.
pub fn length(random: &mut Random) -> usize {
    match random.below(40) {
        0 => 60 + random.below(12),
        1 => 128 + random.below(60),
        2..=9 => 16 + random.below(48),
        _ => random.below(14),
    }
}

pub const THRESHOLDS: [u32; 9] = [1, 1, 1, 2, 3, 4, 8, 127, 32_767];
