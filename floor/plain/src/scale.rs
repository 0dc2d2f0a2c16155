//! Rule T2: centre, half extent, quantum and inverse of an axis, and the values of records. Rules F6 to F8.

/// One axis of the box of all, and what it makes.
#[derive(Clone, Copy, Debug)]
pub struct Scale {
    pub min: f32,
    pub max: f32,
    pub cen: f32,
    pub below: f32,
    pub above: f32,
    /// q, the half extent.
    pub extent: f32,
    pub quantum: f32,
    pub inverse: f32,
}

impl Scale {
    /// The scale of an axis from `min` to `max`.
    pub fn of(min: f32, max: f32) -> Scale {
        let cen = (min + max) * 0.5;
        let (below, above) = ((min - cen).abs(), (max - cen).abs());
        let extent = if below > above { below } else { above };
        let quantum = extent / 32767.0;
        Scale { min, max, cen, below, above, extent, quantum, inverse: 1.0 / quantum }
    }

    /// A float on its way to a record.
    pub fn quantise(&self, v: f32) -> Quantised {
        let away = v - self.cen;
        let product = away * self.inverse;
        let whole = product as i32;
        Quantised { away, product, whole, short: whole as i16 }
    }
}

/// The steps of a node value.
#[derive(Clone, Copy, Debug)]
pub struct Quantised {
    /// v − cen.
    pub away: f32,
    /// (v − cen) · inverse.
    pub product: f32,
    /// Toward zero, NaN to 0, saturated (F6).
    pub whole: i32,
    /// Its low 16 bits (F7).
    pub short: i16,
}

impl Quantised {
    /// Whether the low 16 bits are another number.
    pub fn wrapped(&self) -> bool {
        self.short as i32 != self.whole
    }
}
