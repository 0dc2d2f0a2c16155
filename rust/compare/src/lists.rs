//! Lists of boxes to build trees of: random ones, and those that go wrong easily.

use crate::deep;
use crate::inputs::{hard, Input};
use crate::random::Random;
use oracle::Aabb;

/// A list, a threshold, and by how much each lent buffer (nodes, trees, order, work) differs from what it needs.
#[derive(Clone, Debug)]
pub struct Case {
    pub items: Vec<Option<Aabb>>,
    pub threshold: u32,
    pub slack: [isize; 4],
}

impl Case {
    /// All buffers as long as they have to be.
    pub fn exact(items: Vec<Option<Aabb>>, threshold: u32) -> Case {
        Case { items, threshold, slack: [0; 4] }
    }
}

/// How the boxes of a list are made.
#[derive(Clone, Copy, Debug, PartialEq, Eq)]
pub enum Style {
    /// Ordinary boxes.
    Tame,
    /// Small halves: many equal centres, some boxes inside out.
    Small,
    /// A few different boxes, repeated.
    Few,
    /// In a row along an axis, rising or falling.
    Row,
    /// Every corner of about one size, whichever it is.
    Scaled,
    /// Subnormal numbers and zeros.
    Subnormal,
    /// So large that sums overflow.
    Large,
    /// Ordinary boxes, now and then a hard word.
    Spiked,
    /// Hard words only: NaN payloads, infinities, zeros of both signs.
    Hard,
    /// Any bits.
    Any,
    /// The sum's rounding splits off a few boxes at a time (see [`deep`]).
    Deep,
}

pub const STYLES: [Style; 11] = [
    Style::Tame,
    Style::Small,
    Style::Few,
    Style::Row,
    Style::Scaled,
    Style::Subnormal,
    Style::Large,
    Style::Spiked,
    Style::Hard,
    Style::Any,
    Style::Deep,
];

/// Random lists.
pub struct Lists {
    random: Random,
    hard: Vec<u32>,
    /// Deep along x, and along any axis.
    deep: [Vec<(f32, f32)>; 2],
}

/// Most entries of a list.
pub const LIMIT: usize = 32_767;

impl Lists {
    pub fn new(seed: u64) -> Lists {
        let deep = [deep::corners(LIMIT, false), deep::corners(LIMIT, true)];
        Lists { random: Random::new(seed), hard: hard(Input::Float), deep }
    }

    /// A list of any kind. Most are small; one in 10,000 is over a limit or near it, one in 50,000 long and deep.
    pub fn case(&mut self) -> Case {
        let style = self.random.pick(&STYLES);
        let n = self.size(style);
        let items = self.items(n, style);
        let threshold = self.threshold(n);
        Case { items, threshold, slack: self.slack() }
    }

    fn size(&mut self, style: Style) -> usize {
        let r = &mut self.random;
        if style == Style::Deep {
            // The reference takes time by the square of it.
            return match r.below(5_000) {
                0 => 600 + r.below(3_500),
                1..=19 => 600 + r.below(200),
                _ => r.below(40),
            };
        }
        match r.below(20_000) {
            0 | 1 => {
                let any = 16_000 + r.below(16_768);
                r.pick(&[LIMIT + 1, LIMIT, LIMIT - 1, 16_384, 16_385, any])
            }
            2..=8 => r.below(3_000),
            9..=400 => r.below(300),
            401..=3_000 => r.below(70),
            _ => r.below(17),
        }
    }

    fn threshold(&mut self, n: usize) -> u32 {
        let r = &mut self.random;
        match r.below(200) {
            0 => 0,
            1 => r.pick(&[32_768, 65_536, 65_537, 0x8000_0001, u32::MAX]),
            2..=9 => r.pick(&[9, 16, 127, 1_000, 32_766, 32_767]),
            10..=19 => (n + r.below(3)).clamp(1, LIMIT) as u32,
            // Of the long ones some pass and some have too many nodes.
            _ if n > 16_384 => r.pick(&[1, 1, 1, 1, 2, 2, 3, 4, 5, 6, 7, 8]),
            _ => 1 + r.below(8) as u32,
        }
    }

    /// By how much the buffers differ from what they need: seldom, and seldom too short.
    pub fn slack(&mut self) -> [isize; 4] {
        let r = &mut self.random;
        let mut slack = [0; 4];
        match r.below(32) {
            0 => slack[r.below(4)] = -1,
            1 => slack[r.below(4)] = -1 - r.below(2_000) as isize,
            2..=12 => slack = std::array::from_fn(|_| r.pick(&[0, 0, 1, 2, 15, 16, 33])),
            _ => {}
        }
        slack
    }

    /// So many entries, some of which may be absent.
    pub fn items(&mut self, n: usize, style: Style) -> Vec<Option<Aabb>> {
        let absent = self.random.pick(&[0, 0, 0, 0, 0, 2, 8, 8, 1]);
        let boxes = self.boxes(n, style);
        let entry = |b| if absent > 0 && self.random.once_in(absent) { None } else { Some(b) };
        boxes.into_iter().map(entry).collect()
    }

    fn boxes(&mut self, n: usize, style: Style) -> Vec<Aabb> {
        match style {
            Style::Few => {
                let from = self.random.pick(&[Style::Tame, Style::Small, Style::Hard, Style::Spiked]);
                let some = 1 + self.random.below(5);
                let pool = self.boxes(some, from);
                (0..n).map(|_| self.random.pick(&pool)).collect()
            }
            Style::Row => self.row(n),
            Style::Deep => self.chain(n),
            _ => {
                let scale = self.random.below(248) as u32;
                (0..n).map(|_| self.one(style, scale)).collect()
            }
        }
    }

    fn row(&mut self, n: usize) -> Vec<Aabb> {
        let r = &mut self.random;
        let (axis, step) = (r.below(3), r.pick(&[1.0, -1.0, 0.1, -0.001, 1000.0]));
        let at = |i: usize| {
            let (mut min, mut max) = ([0.0; 3], [1.0; 3]);
            (min[axis], max[axis]) = (i as f32 * step, i as f32 * step + 0.5);
            Aabb { min, max }
        };
        (0..n).map(at).collect()
    }

    /// A part of a deep list, moved to another size and, where it may be, to another axis.
    fn chain(&mut self, n: usize) -> Vec<Aabb> {
        let r = &mut self.random;
        let axis = r.below(3);
        let list = &self.deep[(axis > 0) as usize];
        let size = 2f32.powi(r.below(200) as i32 - 120);
        // A short one is too short to be deep; from the middle its sums still round.
        let from = if n < 600 { r.below(list.len() - n) } else { 0 };
        let at = |&(low, high): &(f32, f32)| {
            let (mut min, mut max) = ([0.0; 3], [0.0; 3]);
            (min[axis], max[axis]) = (low * size, high * size);
            Aabb { min, max }
        };
        list[from..list.len().min(from + n)].iter().map(at).collect()
    }

    fn one(&mut self, style: Style, scale: u32) -> Aabb {
        match style {
            Style::Small => {
                let mut half = || (self.random.below(9) as f32 - 4.0) * 0.5;
                Aabb { min: std::array::from_fn(|_| half()), max: std::array::from_fn(|_| half()) }
            }
            Style::Tame | Style::Spiked => {
                let mut b = self.tame();
                if style == Style::Spiked && self.random.once_in(4) {
                    let corner = if self.random.once_in(2) { &mut b.min } else { &mut b.max };
                    corner[self.random.below(3)] = f32::from_bits(self.random.pick(&self.hard));
                }
                b
            }
            _ => {
                let mut word = || f32::from_bits(self.word(style, scale));
                Aabb { min: std::array::from_fn(|_| word()), max: std::array::from_fn(|_| word()) }
            }
        }
    }

    fn tame(&mut self) -> Aabb {
        let mut unit = || self.random.u32() as f32 / 4294967296.0;
        let min: [f32; 3] = std::array::from_fn(|_| (unit() - 0.5) * 400.0);
        Aabb { min, max: min.map(|low| low + unit() * 10.0) }
    }

    fn word(&mut self, style: Style, scale: u32) -> u32 {
        let r = &mut self.random;
        match style {
            Style::Scaled => r.u32() & 0x807F_FFFF | (scale + r.below(8) as u32) << 23,
            Style::Subnormal => r.u32() & r.pick(&[0x807F_FFFF, 0x8000_0003, 0x8000_0000]),
            Style::Large => r.u32() & 0x807F_FFFF | (251 + r.below(4) as u32) << 23,
            Style::Hard => r.pick(&self.hard),
            _ => r.u32(),
        }
    }
}

/// Lists to begin with, whatever the seed: small ones of each style and threshold, those around each limit, and the
/// deepest that are built and that are refused.
pub fn fixed() -> Vec<Case> {
    let mut lists = Lists::new(0);
    let mut cases = Vec::new();
    for style in STYLES {
        for n in (0..=9).chain([16, 17, 63, 64, 65, 66, 127, 128, 129]) {
            for threshold in 0..=9 {
                cases.push(Case::exact(lists.items(n, style), threshold));
            }
        }
    }
    let row: Vec<_> = lists.row(LIMIT + 2).into_iter().map(Some).collect();
    for n in [16_383, 16_384, 16_385, LIMIT - 1, LIMIT, LIMIT + 1, LIMIT + 2] {
        for threshold in [1, 2, 3, 4, 32_767, 32_768] {
            cases.push(Case::exact(row[..n].to_vec(), threshold));
        }
    }
    // Refusals in their order: every later one is there too.
    for (n, threshold) in [(LIMIT + 1, 0), (16_385, 0), (16_385, 1)] {
        cases.push(Case { items: row[..n].to_vec(), threshold, slack: [-1; 4] });
    }
    for (n, threshold) in [(16_384, 1), (26_000, 16), (17_000, 1)] {
        let deep =
            lists.deep[0][..n].iter().map(|&(low, high)| Some(Aabb { min: [low, 0.0, 0.0], max: [high, 0.0, 0.0] }));
        cases.push(Case::exact(deep.collect(), threshold));
    }
    cases
}
