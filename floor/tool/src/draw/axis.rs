//! An axis of a picture: which places it shows, and where on the paper they are.

/// From `low` to `high` over `width` from `left` on.
#[derive(Clone, Copy, Debug)]
pub struct Ruler {
    pub low: f64,
    pub high: f64,
    pub left: f64,
    pub width: f64,
}

impl Ruler {
    /// A ruler over these places, those that are finite, with a little room at both ends.
    pub fn over(places: impl Iterator<Item = f64>, left: f64, width: f64) -> Ruler {
        let finite = places.filter(|place| place.is_finite());
        let (low, high) = finite.fold((f64::INFINITY, f64::NEG_INFINITY), |(low, high), x| (low.min(x), high.max(x)));
        let (low, high) = if low <= high { (low, high) } else { (0.0, 1.0) };
        let room = if high > low { 0.04 * (high - low) } else { 0.5 * low.abs().max(1.0) };
        Ruler { low: low - room, high: high + room, left, width }
    }

    /// Where a place is on the paper; what lies outside, or is no place, is at the end given.
    pub fn at(&self, place: f64, none: f64) -> f64 {
        let place = if place.is_nan() { none } else { place };
        let share = ((place - self.low) / (self.high - self.low)).clamp(0.0, 1.0);
        self.left + self.width * if share.is_nan() { 0.0 } else { share }
    }

    /// Both ends of a span on the paper, the lesser first; a NaN is at its own end.
    pub fn span(&self, low: f64, high: f64) -> (f64, f64) {
        let (a, b) = (self.at(low, self.low), self.at(high, self.high));
        (a.min(b), a.max(b))
    }

    /// Round places, at most about `most`.
    pub fn ticks(&self, most: usize) -> Vec<f64> {
        let raw = (self.high - self.low) / most as f64;
        let power = 10f64.powf(raw.log10().floor());
        let step = [1.0, 2.0, 5.0, 10.0].into_iter().map(|k| k * power).find(|&step| step >= raw).unwrap_or(raw);
        if !step.is_finite() || step <= 0.0 {
            return Vec::new();
        }
        let first = (self.low / step).ceil();
        let places = (0..=most).map(|k| (first + k as f64) * step);
        places
            .filter(|&place| place <= self.high)
            .map(|place| if place.abs() < 1e-9 * step { 0.0 } else { place })
            .collect()
    }
}

/// A tick's number, without digits that say nothing.
pub fn tick(place: f64) -> String {
    let size = place.abs();
    if size == 0.0 {
        return "0".into(); // of either sign
    }
    if !(1e-3..1e6).contains(&size) {
        return format!("{place:.1e}");
    }
    let text = format!("{place:.4}");
    text.trim_end_matches('0').trim_end_matches('.').to_string()
}

#[cfg(test)]
mod tests {
    use super::*;

    #[test]
    fn ticks_are_round() {
        let ruler = Ruler::over([0.0, 11.0, f64::NAN].into_iter(), 0.0, 100.0);
        assert_eq!(ruler.ticks(6).iter().map(|&t| tick(t)).collect::<Vec<_>>(), ["0", "2", "4", "6", "8", "10"]);
        assert_eq!([0.25, -1e9, 12345.0].map(tick), ["0.25", "-1.0e9", "12345"]);
        assert!(ruler.at(f64::NAN, 0.0) < ruler.at(11.0, 0.0));
        let flat = Ruler::over([3.0].into_iter(), 0.0, 100.0);
        assert!(flat.low < 3.0 && flat.high > 3.0);
    }
}
