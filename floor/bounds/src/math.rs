//! Points, boxes and transforms.

use crate::ffi::{self, Words3};
pub use crate::types::{Mat4, Vec3, Vec4};
use std::cmp::Ordering;
use std::ops::{Add, Mul, Neg, Sub};

impl Vec3 {
    /// The origin.
    ///
    /// ```
    /// # use bounds::{math::norm, Vec3};
    /// assert_eq!(norm(Vec3::ZERO), Vec3::ZERO); // it has no direction
    /// assert_eq!((-Vec3::ZERO).x.to_bits(), 0x8000_0000); // equal to it, but another word
    /// ```
    pub const ZERO: Vec3 = Vec3 { x: 0.0, y: 0.0, z: 0.0 };

    /// The point with these coordinates.
    ///
    /// ```
    /// # use bounds::Vec3;
    /// let points = [[0.0, 0.0, 1.0], [2.0, 3.0, 4.0]].map(|[x, y, z]| Vec3::new(x, y, z));
    /// assert_eq!((points[1].x, points[1].z), (2.0, 4.0));
    /// ```
    #[inline]
    pub fn new(x: f32, y: f32, z: f32) -> Vec3 {
        Vec3 { x, y, z }
    }

    /// The scalar product, summed from x to z.
    ///
    /// ```
    /// # use bounds::Vec3;
    /// assert_eq!(Vec3::new(1.0, 2.0, 3.0).dot(Vec3::new(4.0, 5.0, 6.0)), 32.0);
    /// ```
    #[inline]
    pub fn dot(self, rhs: Vec3) -> f32 {
        ffi::bounds_dot(self, rhs)
    }

    /// The vector product.
    ///
    /// ```
    /// # use bounds::Vec3;
    /// assert_eq!(Vec3::new(1.0, 0.0, 0.0).cross(Vec3::new(0.0, 1.0, 0.0)), Vec3::new(0.0, 0.0, 1.0));
    /// ```
    #[inline]
    pub fn cross(self, rhs: Vec3) -> Vec3 {
        ffi::bounds_cross(self, rhs)
    }

    /// The length, by the correctly rounded square root.
    ///
    /// ```
    /// # use bounds::Vec3;
    /// assert_eq!(Vec3::new(1.0, 1.0, 0.0).length().to_bits(), 0x3FB5_04F3);
    /// ```
    #[inline]
    pub fn length(self) -> f32 {
        ffi::bounds_length(self)
    }

    /// Each coordinate without its sign.
    ///
    /// ```
    /// # use bounds::Vec3;
    /// assert_eq!(Vec3::new(-1.0, 2.0, -0.0).abs(), Vec3::new(1.0, 2.0, 0.0));
    /// ```
    #[inline]
    pub fn abs(self) -> Vec3 {
        ffi::bounds_abs(self)
    }
}

/// ```
/// # use bounds::Vec3;
/// assert_eq!(Vec3::new(1.0, 2.0, 3.0) + Vec3::new(4.0, 5.0, 6.0), Vec3::new(5.0, 7.0, 9.0));
/// ```
impl Add for Vec3 {
    type Output = Vec3;
    #[inline]
    fn add(self, rhs: Vec3) -> Vec3 {
        ffi::bounds_add(self, rhs)
    }
}

/// ```
/// # use bounds::Vec3;
/// assert_eq!(Vec3::new(1.0, 2.0, 3.0) - Vec3::new(4.0, 6.0, 8.0), Vec3::new(-3.0, -4.0, -5.0));
/// ```
impl Sub for Vec3 {
    type Output = Vec3;
    #[inline]
    fn sub(self, rhs: Vec3) -> Vec3 {
        ffi::bounds_sub(self, rhs)
    }
}

/// ```
/// # use bounds::Vec3;
/// assert_eq!(Vec3::new(1.0, 2.0, 3.0) * 0.5, Vec3::new(0.5, 1.0, 1.5));
/// ```
impl Mul<f32> for Vec3 {
    type Output = Vec3;
    #[inline]
    fn mul(self, rhs: f32) -> Vec3 {
        ffi::bounds_scale(self, rhs)
    }
}

/// ```
/// # use bounds::Vec3;
/// assert_eq!(-Vec3::new(1.0, 2.0, 3.0), Vec3::new(-1.0, -2.0, -3.0));
/// ```
impl Neg for Vec3 {
    type Output = Vec3;
    #[inline]
    fn neg(self) -> Vec3 {
        ffi::bounds_neg(self)
    }
}

impl Vec4 {
    /// The point with these coordinates.
    ///
    /// ```
    /// # use bounds::{Mat4, Vec3, Vec4};
    /// let mut m = Mat4::identity();
    /// m.0[15] = 2.0;
    /// assert_eq!(m.transform_point(Vec3::ZERO), Vec4::new(0.0, 0.0, 0.0, 2.0));
    /// ```
    #[inline]
    pub fn new(x: f32, y: f32, z: f32, w: f32) -> Vec4 {
        Vec4 { x, y, z, w }
    }

    /// The first three coordinates.
    ///
    /// ```
    /// # use bounds::{Vec3, Vec4};
    /// assert_eq!(Vec4::new(2.0, 4.0, 6.0, 2.0).xyz(), Vec3::new(2.0, 4.0, 6.0)); // not divided by the fourth
    /// ```
    #[inline]
    pub fn xyz(self) -> Vec3 {
        Vec3::new(self.x, self.y, self.z)
    }
}

impl Mat4 {
    /// The transform that leaves finite points where they are.
    ///
    /// ```
    /// # use bounds::Mat4;
    /// const STILL: Mat4 = Mat4::identity();
    /// assert!((0..16).all(|k| STILL.0[k] == if k % 5 == 0 { 1.0 } else { 0.0 })); // 1 on the diagonal
    /// ```
    #[inline]
    pub const fn identity() -> Mat4 {
        Mat4([1.0, 0.0, 0.0, 0.0, 0.0, 1.0, 0.0, 0.0, 0.0, 0.0, 1.0, 0.0, 0.0, 0.0, 0.0, 1.0])
    }

    /// A point through the transform, not divided by its fourth coordinate.
    ///
    /// ```
    /// # use bounds::{Mat4, Vec3, Vec4};
    /// assert_eq!(Mat4::identity().transform_point(Vec3::new(1.0, 2.0, 3.0)), Vec4::new(1.0, 2.0, 3.0, 1.0));
    /// // The identity multiplies too: infinity times 0 is a NaN.
    /// assert!(Mat4::identity().transform_point(Vec3::new(f32::INFINITY, 0.0, 0.0)).y.is_nan());
    /// ```
    #[inline]
    pub fn transform_point(&self, p: Vec3) -> Vec4 {
        ffi::bounds_transform_point(*self, p)
    }

    /// A direction through the transform: rotation and scale only.
    ///
    /// ```
    /// # use bounds::{Mat4, Vec3};
    /// assert_eq!(Mat4::identity().transform_vector(Vec3::new(1.0, 2.0, 3.0)), Vec3::new(1.0, 2.0, 3.0));
    /// ```
    #[inline]
    pub fn transform_vector(&self, v: Vec3) -> Vec3 {
        ffi::bounds_transform_vector(*self, v)
    }
}

/// `v` with length 1, or `v` itself unless its length is above 1e-6.
///
/// ```
/// # use bounds::{math::norm, Vec3};
/// assert_eq!(norm(Vec3::new(0.0, 4.0, 0.0)), Vec3::new(0.0, 1.0, 0.0));
/// assert_eq!(norm(Vec3::new(0.0, 1e-7, 0.0)), Vec3::new(0.0, 1e-7, 0.0));
/// ```
#[inline]
pub fn norm(v: Vec3) -> Vec3 {
    ffi::bounds_norm(v)
}

/// The products, axis by axis.
///
/// ```
/// # use bounds::{math::vmul, Vec3};
/// assert_eq!(vmul(Vec3::new(1.0, 2.0, 3.0), Vec3::new(4.0, 5.0, 6.0)), Vec3::new(4.0, 10.0, 18.0));
/// ```
#[inline]
pub fn vmul(a: Vec3, b: Vec3) -> Vec3 {
    ffi::bounds_vmul(a, b)
}

/// The quotients, axis by axis.
///
/// ```
/// # use bounds::{math::vdiv, Vec3};
/// assert_eq!(vdiv(Vec3::new(1.0, 2.0, 3.0), Vec3::new(2.0, 4.0, 0.0)), Vec3::new(0.5, 0.5, f32::INFINITY));
/// ```
#[inline]
pub fn vdiv(a: Vec3, b: Vec3) -> Vec3 {
    ffi::bounds_vdiv(a, b)
}

/// The same number added on each axis.
///
/// ```
/// # use bounds::{math::vadd_f, Vec3};
/// assert_eq!(vadd_f(Vec3::new(1.0, 2.0, 3.0), 1.0), Vec3::new(2.0, 3.0, 4.0));
/// ```
#[inline]
pub fn vadd_f(v: Vec3, f: f32) -> Vec3 {
    ffi::bounds_vadd_f(v, f)
}

/// [`crate::float::vmin`], axis by axis.
///
/// ```
/// # use bounds::{math::vmin, Vec3};
/// assert_eq!(vmin(Vec3::new(1.0, 2.0, f32::NAN), Vec3::new(0.0, 3.0, 4.0)), Vec3::new(0.0, 2.0, 4.0));
/// ```
#[inline]
pub fn vmin(a: Vec3, b: Vec3) -> Vec3 {
    ffi::bounds_vmin3(a, b)
}

/// [`crate::float::vmax`], axis by axis.
///
/// ```
/// # use bounds::{math::vmax, Vec3};
/// assert_eq!(vmax(Vec3::new(1.0, 2.0, f32::NAN), Vec3::new(0.0, 3.0, 4.0)), Vec3::new(1.0, 3.0, 4.0));
/// ```
#[inline]
pub fn vmax(a: Vec3, b: Vec3) -> Vec3 {
    ffi::bounds_vmax3(a, b)
}

/// [`crate::float::vmin_word`], axis by axis.
///
/// ```
/// # use bounds::math::vmin_words;
/// assert_eq!(vmin_words([0, 0x3F80_0000, 0], [0x8000_0000, 0, 0x7F80_0001]), [0x8000_0000, 0, 0x7F80_0001]);
/// ```
#[inline]
pub fn vmin_words(a: [u32; 3], b: [u32; 3]) -> [u32; 3] {
    plain(ffi::bounds_vmin_words3(words(a), words(b)))
}

/// [`crate::float::vmax_word`], axis by axis.
///
/// ```
/// # use bounds::math::vmax_words;
/// assert_eq!(vmax_words([0, 0x3F80_0000, 7], [0x8000_0000, 0, 0xFFFF_FFFF]), [0x8000_0000, 0x3F80_0000, 0xFFFF_FFFF]);
/// ```
#[inline]
pub fn vmax_words(a: [u32; 3], b: [u32; 3]) -> [u32; 3] {
    plain(ffi::bounds_vmax_words3(words(a), words(b)))
}

#[inline]
fn words([x, y, z]: [u32; 3]) -> Words3 {
    Words3 { x, y, z }
}

#[inline]
fn plain(w: Words3) -> [u32; 3] {
    [w.x, w.y, w.z]
}

/// [`crate::float::cmp_f32`] of x, then y, then z.
///
/// ```
/// # use bounds::{math::cmp_vec3, Vec3};
/// use std::cmp::Ordering::*;
/// assert_eq!(cmp_vec3(Vec3::new(1.0, 2.0, 3.0), Vec3::new(1.0, 2.0, 2.0)), Greater);
/// ```
#[inline]
pub fn cmp_vec3(a: Vec3, b: Vec3) -> Ordering {
    ffi::bounds_cmp_vec3(a, b).cmp(&0)
}

/// A box through a transform: its centre, divided by the fourth coordinate, and its half extent through the matrix of
/// absolute values.
///
/// ```
/// # use bounds::{math::transform_box, Mat4, Vec3};
/// let mut m = Mat4::identity();
/// m.0[15] = 2.0; // only the centre is divided
/// let (min, max) = transform_box(Vec3::new(1.0, 1.0, 1.0), Vec3::new(3.0, 3.0, 3.0), &m);
/// assert_eq!((min, max), (Vec3::ZERO, Vec3::new(2.0, 2.0, 2.0)));
/// ```
#[inline]
pub fn transform_box(min: Vec3, max: Vec3, m: &Mat4) -> (Vec3, Vec3) {
    let row = |k: usize| Vec4::new(m.0[k], m.0[k + 1], m.0[k + 2], m.0[k + 3]);
    let b = ffi::bounds_transform_box_rows(row(0), row(4), row(8), row(12), min.x, min.y, min.z, max.x, max.y, max.z);
    (Vec3::new(b.0[0], b.0[1], b.0[2]), Vec3::new(b.0[3], b.0[4], b.0[5]))
}
