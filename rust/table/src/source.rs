//! The source's formulas, each operator one of Rust's own on f32.
use std::cmp::Ordering;

#[derive(Clone, Copy)]
pub struct Vec3(pub f32, pub f32, pub f32);

impl Vec3 {
    pub fn each(self, f: impl Fn(f32) -> f32) -> Vec3 {
        Vec3(f(self.0), f(self.1), f(self.2))
    }
    pub fn both(self, b: Vec3, f: impl Fn(f32, f32) -> f32) -> Vec3 {
        Vec3(f(self.0, b.0), f(self.1, b.1), f(self.2, b.2))
    }
    pub fn add(self, b: Vec3) -> Vec3 {
        self.both(b, |x, y| x + y)
    }
    pub fn sub(self, b: Vec3) -> Vec3 {
        self.both(b, |x, y| x - y)
    }
    pub fn scale(self, k: f32) -> Vec3 {
        self.each(|x| x * k)
    }
    pub fn neg(self) -> Vec3 {
        self.each(|x| -x)
    }
    pub fn abs(self) -> Vec3 {
        self.each(f32::abs)
    }
    pub fn dot(self, b: Vec3) -> f32 {
        self.0 * b.0 + self.1 * b.1 + self.2 * b.2
    }
    pub fn length(self) -> f32 {
        self.dot(self).sqrt()
    }
    pub fn cross(self, b: Vec3) -> Vec3 {
        Vec3(self.1 * b.2 - self.2 * b.1, self.2 * b.0 - self.0 * b.2, self.0 * b.1 - self.1 * b.0)
    }
}

// ---- bounds.rs

pub fn vmul(a: Vec3, b: Vec3) -> Vec3 {
    a.both(b, |x, y| x * y)
}
pub fn vdiv(a: Vec3, b: Vec3) -> Vec3 {
    a.both(b, |x, y| x / y)
}
pub fn vadd_f(a: Vec3, f: f32) -> Vec3 {
    a.each(|x| x + f)
}

pub fn norm(v: Vec3) -> Vec3 {
    let len = v.length();
    if len > 1e-6 {
        v.scale(1.0 / len)
    } else {
        v
    }
}

pub fn vmin(a: f32, b: f32) -> f32 {
    if a < b {
        a
    } else {
        b
    }
}
pub fn vmax(a: f32, b: f32) -> f32 {
    if a > b {
        a
    } else {
        b
    }
}

/// The same choice, of the word: a NaN that is copied keeps its bits.
pub fn vmin_word(a: u32, b: u32) -> u32 {
    if f32::from_bits(a) < f32::from_bits(b) {
        a
    } else {
        b
    }
}
pub fn vmax_word(a: u32, b: u32) -> u32 {
    if f32::from_bits(a) > f32::from_bits(b) {
        a
    } else {
        b
    }
}

pub fn vertex_value(x: f32) -> i16 {
    if x.is_nan() {
        0
    } else {
        x.clamp(-32767.0, 32767.0) as i16
    }
}

// ---- bvh.rs

pub fn to_short(x: f32) -> i16 {
    x as i32 as i16
}

pub fn cmp_f32(a: f32, b: f32) -> Ordering {
    if a < b {
        Ordering::Less
    } else if a > b {
        Ordering::Greater
    } else if a == b {
        Ordering::Equal
    } else if a.is_nan() {
        if b.is_nan() {
            Ordering::Equal
        } else {
            Ordering::Less
        }
    } else {
        Ordering::Greater
    }
}

pub fn cmp_vec3(a: Vec3, b: Vec3) -> Ordering {
    cmp_f32(a.0, b.0).then(cmp_f32(a.1, b.1)).then(cmp_f32(a.2, b.2))
}

// ---- math.rs, Mat4: rows of four, a point goes through as p * M

#[derive(Clone, Copy)]
pub struct Mat4(pub [f32; 16]);

impl Mat4 {
    pub fn abs(self) -> Mat4 {
        Mat4(self.0.map(f32::abs))
    }

    fn column(self, c: usize, v: Vec3) -> f32 {
        let m = self.0;
        m[c] * v.0 + m[4 + c] * v.1 + m[8 + c] * v.2
    }

    pub fn transform_vector(self, v: Vec3) -> Vec3 {
        Vec3(self.column(0, v), self.column(1, v), self.column(2, v))
    }

    pub fn transform_point(self, p: Vec3) -> [f32; 4] {
        [0, 1, 2, 3].map(|c| self.column(c, p) + self.0[12 + c])
    }
}

/// The image of a box, its least and its greatest corner (bounds.rs).
pub fn transform_box(min: Vec3, max: Vec3, m: Mat4) -> (Vec3, Vec3) {
    let centre = max.add(min).scale(0.5);
    let extent = max.sub(min).scale(0.5);
    let [x, y, z, w] = m.transform_point(centre);
    let centre = Vec3(x, y, z).scale(1.0 / w);
    let extent = m.abs().transform_vector(extent).abs();
    (centre.sub(extent), centre.add(extent))
}
