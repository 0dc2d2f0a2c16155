//! Inputs: words that floats go wrong on, and random ones near them and near each other.

use crate::random::Random;

/// What an input word stands for.
#[derive(Clone, Copy, Debug, PartialEq, Eq)]
pub enum Input {
    /// A float's 32 bits.
    Float,
    /// A number of 16 bits.
    Count,
    /// A number of 32 bits.
    Number,
}

/// The fewest words that tell apart what order, ties and NaN do.
pub const CORE: [u32; 8] = [
    0x0000_0000, // 0
    0x8000_0000, // -0
    0x3F80_0000, // 1
    0xBF80_0000, // -1
    0x7F80_0000, // infinity
    0xFF80_0000, // -infinity
    0x7FC0_0000, // a quiet NaN
    0xFF80_0001, // a signalling NaN, sign set
];

/// Hard words without their sign; each is taken with both.
const MAGNITUDES: [u32; 44] = [
    0x0000_0000, // 0
    0x0000_0001, // the least subnormal
    0x0000_0002,
    0x0000_0003,
    0x007F_FFFF, // the greatest subnormal
    0x0080_0000, // the least normal
    0x0080_0001,
    0x00FF_FFFF,
    0x3586_37BD, // 1e-6, where norm begins, and its neighbours
    0x3586_37BC,
    0x3586_37BE,
    0x3EFF_FFFF, // below a half
    0x3F00_0000, // a half
    0x3F66_6666, // 0.9
    0x3F7F_FFFF, // below 1
    0x3F80_0000, // 1
    0x3F80_0001,
    0x3F80_0005,
    0x3FB5_04F3, // the root of 2
    0x4000_0000, // 2
    0x4040_0000, // 3
    0x46FF_FC00, // 32766
    0x46FF_FE00, // 32767
    0x46FF_FFFF, // below 32768
    0x4700_0000, // 32768
    0x4700_0100, // 32769
    0x471C_4000, // 40000
    0x477F_FF00, // 65535
    0x4780_0000, // 65536
    0x4780_8000, // 65792
    0x4B00_0000, // 2^23
    0x4B7F_FFFF, // 2^24 - 1
    0x4B80_0000, // 2^24
    0x4EFF_FFFF, // below 2^31
    0x4F00_0000, // 2^31
    0x4F00_0001,
    0x5F00_0000, // 2^63
    0x7E7F_FFFF, // doubled, still finite
    0x7F7F_FFFF, // the greatest
    0x7F80_0000, // infinity
    0x7F80_0001, // signalling NaN
    0x7FA5_A5A5, // signalling NaN
    0x7FC0_0000, // quiet NaN
    0x7FFF_FFFF, // quiet NaN, every bit
];

/// Every hard word of this sort, the core first.
pub fn hard(input: Input) -> Vec<u32> {
    let mut words = match input {
        Input::Float => {
            let both = MAGNITUDES.iter().flat_map(|&m| [m, m | 0x8000_0000]);
            CORE.into_iter().chain(both).collect()
        }
        Input::Count => vec![0, 1, 2, 3, 255, 256, 257, 4095, 4096, 32766, 32767, 32768, 32769, 65534, 65535],
        Input::Number => {
            let near = [0u32, 1, 0x7FFF, 0x8000, 0xFFFF, 0x1_0000, 0x7FFF_FFFF, 0x8000_0000];
            near.iter().flat_map(|&n| [n, n.wrapping_sub(1), n.wrapping_add(1), n.wrapping_neg(), !n]).collect()
        }
    };
    let mut seen = std::collections::HashSet::new();
    words.retain(|&w| seen.insert(w));
    words
}

/// How the floats of one case are spread.
#[derive(Clone, Copy)]
enum Spread {
    /// Whole or half numbers: sums without rounding, many ties.
    Small,
    /// Ordinary sizes.
    Tame,
    /// Of about one size, whichever it is: cancellation, underflow and overflow at every scale.
    Scaled(u32),
    /// Every exponent.
    Wide,
    /// Every pattern.
    Any,
    Hard,
}

/// Random inputs of one shape.
pub struct Inputs {
    random: Random,
    hard: [Vec<u32>; 3],
}

impl Inputs {
    pub fn new(seed: u64) -> Inputs {
        Inputs { random: Random::new(seed), hard: [Input::Float, Input::Count, Input::Number].map(hard) }
    }

    /// Fills `case` at random. Now and then one input is hard among tame ones, or near another.
    pub fn fill(&mut self, shape: &[Input], case: &mut [u32]) {
        let scaled = Spread::Scaled(self.random.below(248) as u32);
        let spread = self.random.pick(&[Spread::Small, Spread::Tame, scaled, Spread::Wide, Spread::Any, Spread::Hard]);
        for at in 0..shape.len() {
            case[at] = self.word(shape[at], spread);
        }
        if self.random.once_in(4) {
            let at = self.random.below(shape.len());
            case[at] = self.word(shape[at], Spread::Hard);
        }
        if self.random.once_in(4) {
            let (at, from) = (self.random.below(shape.len()), self.random.below(shape.len()));
            if shape[at] == shape[from] {
                case[at] = self.near(shape[at], case[from]);
            }
        }
    }

    /// A word equal to `word`, beside it, or with the other sign.
    fn near(&mut self, input: Input, word: u32) -> u32 {
        let near = self.random.pick(&[word, word.wrapping_add(1), word.wrapping_sub(1), word ^ 0x8000_0000]);
        if input == Input::Count {
            near & 0xFFFF
        } else {
            near
        }
    }

    fn word(&mut self, input: Input, spread: Spread) -> u32 {
        let r = &mut self.random;
        match (input, spread) {
            (_, Spread::Hard) => r.pick(&self.hard[input as usize]),
            (Input::Count, _) => r.u32() >> 16,
            (Input::Number, Spread::Small) => (r.below(0x4_0000) as u32).wrapping_sub(0x2_0000),
            (Input::Number, _) => r.u32(),
            (Input::Float, Spread::Small) => ((r.below(33) as f32 - 16.0) * 0.5).to_bits(),
            (Input::Float, Spread::Tame) => {
                ((r.u32() as f32 / 4294967296.0 - 0.5) * r.pick(&[2.0, 100.0, 80000.0])).to_bits()
            }
            (Input::Float, Spread::Scaled(least)) => {
                let exponent = least + r.below(8) as u32;
                r.u32() & 0x807F_FFFF | exponent << 23
            }
            (Input::Float, Spread::Wide) => {
                let exponent = 1 + r.below(254) as u32;
                r.u32() & 0x807F_FFFF | exponent << 23
            }
            (Input::Float, Spread::Any) => r.u32(),
        }
    }
}
