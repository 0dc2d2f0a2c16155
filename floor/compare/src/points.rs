//! Lists of points, of which octants are made.

use crate::inputs::CORE;
use crate::random::Random;
use bounds::Vec3;

plain::listed! {
    /// How the points of a list are made.
    pub enum Style in STYLES {
        /// Anywhere in a cube.
        Random,
        /// x + y + z = 0 in whole numbers: none shadows another in two directions.
        Plane,
        /// (t, t, -t): in six directions none shadows another.
        Line,
        Sphere,
        /// All the same finite point.
        Equal,
        /// Small whole numbers, anywhere or in a plane: many ties.
        Grid,
        /// Every coordinate a NaN.
        Nan,
        /// Ordinary numbers, infinities of both signs and NaN.
        Mixed,
        /// Zeros, ones, infinities and NaN, of both signs.
        Core,
        /// A few points of such coordinates, repeated.
        Few,
        /// Every hard word.
        Hard,
        /// Subnormal numbers and zeros of both signs: a difference is the least number there is.
        Subnormal,
        /// So large that differences overflow.
        Large,
        /// Any bits.
        Any,
    }
}

/// Those that are made as long as can be: the reference is slow on some.
pub const LONG: [Style; 8] =
    [Style::Random, Style::Plane, Style::Line, Style::Sphere, Style::Equal, Style::Grid, Style::Nan, Style::Mixed];

impl Style {
    /// The reference takes so much time on a list of 32,768 that only one in so many is given to it.
    pub fn asked_once_in(self) -> usize {
        match self {
            Style::Plane | Style::Line | Style::Nan | Style::Mixed => 50,
            Style::Sphere | Style::Grid => 5,
            _ => 1,
        }
    }
}

/// Random points.
pub struct Points {
    random: Random,
}

impl Points {
    pub fn new(seed: u64) -> Points {
        Points { random: Random::new(seed) }
    }

    /// A number within half of 1 around 0.
    fn unit(&mut self) -> f32 {
        self.random.unit() - 0.5
    }

    fn whole(&mut self, around: usize) -> f32 {
        self.random.below(2 * around + 1) as f32 - around as f32
    }

    pub fn of(&mut self, n: usize, style: Style) -> Vec<Vec3> {
        match style {
            Style::Random => (0..n).map(|_| std::array::from_fn(|_| self.unit() * 100.0).into()).collect(),
            Style::Plane => (0..n).map(|_| self.in_plane(1 << 20)).collect(),
            Style::Line => self.line(n),
            Style::Sphere => (0..n).map(|_| self.on_sphere()).collect(),
            Style::Equal => vec![Vec3::new(self.unit(), self.unit(), 0.0); n],
            Style::Few => {
                let some = 1 + self.random.below(4);
                let pool = self.of(some, Style::Core);
                (0..n).map(|_| self.random.pick(&pool)).collect()
            }
            Style::Grid => {
                let (plane, around) = (self.random.once_in(2), self.random.pick(&[1, 3, 12, 60]));
                let mut point =
                    || if plane { self.in_plane(around) } else { std::array::from_fn(|_| self.whole(around)).into() };
                (0..n).map(|_| point()).collect()
            }
            _ => (0..n).map(|_| std::array::from_fn(|_| self.word(style)).into()).collect(),
        }
    }

    fn in_plane(&mut self, around: usize) -> Vec3 {
        let (x, y) = (self.whole(around), self.whole(around));
        Vec3::new(x, y, -(x + y))
    }

    /// In their order or not.
    fn line(&mut self, n: usize) -> Vec<Vec3> {
        let (step, shuffled) = (self.random.pick(&[1.0, -1.0, 0.25]), self.random.once_in(2));
        let at = |t: f32| Vec3::new(t, t, -t);
        let mut points: Vec<Vec3> = (0..n).map(|i| at(i as f32 * step)).collect();
        if shuffled {
            (1..n).for_each(|i| points.swap(i, self.random.below(i + 1)));
        }
        points
    }

    fn on_sphere(&mut self) -> Vec3 {
        loop {
            let p: [f32; 3] = std::array::from_fn(|_| self.unit());
            let square: f32 = p.iter().map(|x| x * x).sum();
            if (0.01..0.25).contains(&square) {
                return p.map(|x| x / square.sqrt() * 10.0).into();
            }
        }
    }

    fn word(&mut self, style: Style) -> f32 {
        let r = &mut self.random;
        f32::from_bits(match style {
            Style::Nan => 0x7F80_0001 | r.u32() & 0x807F_FFFF,
            Style::Mixed => match r.below(16) {
                0 => CORE[4],
                1 => CORE[5],
                2 => 0x7FC0_0000 | r.u32() & 0x803F_FFFF,
                _ => return self.unit() * 100.0,
            },
            Style::Core => r.pick(&CORE),
            Style::Hard => r.hard(),
            Style::Subnormal => r.u32() & r.pick(&[0x807F_FFFF, 0x8000_0003, 0x8000_0000]),
            Style::Large => r.u32() & 0x807F_FFFF | (251 + r.below(4) as u32) << 23,
            _ => r.u32(),
        })
    }
}
