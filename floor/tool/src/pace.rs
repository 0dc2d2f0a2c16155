//! How long shrinking takes, which kind 4 needs: the proved function says nothing while it runs, so what is done is worked out from
//! a sample of the same mesh, measured before.

use crate::mesh::state::corners;
use bounds::{calculate_verts_shrunk, Geometry, Polygon, ShrinkBound, ShrunkBy, Vec3};
use std::collections::HashMap;
use std::time::{Duration, Instant};

/// Triangles of a sample: some milliseconds of work.
const SAMPLE: usize = 400;

/// A margin is half the one before where that does not pass; so often a smaller one is tried, until one passes at once.
const TRIES: i32 = 4;

/// The sample is shrunk so often, for the least of the times: other work on the processors makes some of them long.
const REPEATS: usize = 5;

/// So many times slower than the sample a large mesh may go before another margin is the likelier reason.
const SLOWER: f64 = 2.0;

/// What a margin that passes takes: each vertex is held to each triangle.
#[derive(Clone, Copy, Debug, PartialEq)]
pub struct Pace {
    vertices: usize,
    /// For all vertices and one margin.
    margin: Duration,
}

impl Pace {
    /// Of a mesh, by a sample of it; none where the sample says nothing.
    pub fn of(geometry: &Geometry) -> Option<Pace> {
        let all = Sample::of(geometry, usize::MAX);
        let sample = Sample::of(geometry, SAMPLE);
        let took = (0..TRIES).find_map(|k| sample.took(geometry.margin * 0.0625f32.powi(k)))?;
        Some(Pace::scaled(took, sample.size(), all.size()))
    }

    /// From vertices and triangles of a sample to those of all.
    fn scaled(took: Duration, sample: (usize, usize), all: (usize, usize)) -> Pace {
        let pairs = |(vertices, triangles): (usize, usize)| vertices as f64 * triangles as f64;
        Pace { vertices: all.0, margin: took.mul_f64(pairs(all) / pairs(sample).max(1.0)) }
    }

    /// What may be done after so many seconds.
    pub fn words(&self, seconds: f64) -> String {
        let whole = self.margin.as_secs_f64();
        if seconds < whole {
            let done = (self.vertices as f64 * seconds / whole) as usize;
            let (done, all, left) = (thousands(rounded(done)), thousands(self.vertices), (whole - seconds).ceil());
            return format!("kind 4: about {done} of {all} vertices, some {left:.0} s left if the first margin passes");
        }
        if seconds < SLOWER * whole {
            let all = thousands(self.vertices);
            return format!("kind 4: {seconds:.0} s, about all of {all} vertices if the first margin passes");
        }
        let one = format!("a margin that passes takes some {whole:.0} s");
        format!("kind 4: {seconds:.0} s; {one}, so another may be tried now, half the one before")
    }
}

/// Triangles that are whole, and their vertices numbered anew.
struct Sample {
    records: Vec<u8>,
    vertices: Vec<Vec3>,
    triangles: usize,
}

impl Sample {
    /// The first so many triangles.
    fn of(geometry: &Geometry, most: usize) -> Sample {
        let mut sample = Sample { records: Vec::new(), vertices: Vec::new(), triangles: 0 };
        let mut numbers: HashMap<usize, u16> = HashMap::new();
        let triangle = |polygon: &&Polygon| matches!(polygon, Polygon::Triangle { .. });
        let whole = |corners: &Vec<usize>| corners.iter().all(|&k| k < geometry.vertices.len());
        for corners in geometry.polygons.iter().filter(triangle).map(corners).filter(whole).take(most) {
            let v = [corners[0], corners[1], corners[2]].map(|k| {
                *numbers.entry(k).or_insert_with(|| {
                    sample.vertices.push(geometry.vertices[k]);
                    (sample.vertices.len() - 1) as u16
                })
            });
            let triangle = Polygon::Triangle { material: 0, area: 0.0, v, edges: [-1; 3] };
            sample.records.extend(triangle.to_bytes());
            sample.triangles += 1;
        }
        sample
    }

    fn size(&self) -> (usize, usize) {
        (self.vertices.len(), self.triangles)
    }

    /// How long one margin takes where two threads shrink at once, as they do when a mesh is prepared; none where it does not
    /// pass, for then some vertices are left out, or other margins follow.
    fn took(&self, margin: f32) -> Option<Duration> {
        let once = || {
            std::thread::scope(|scope| {
                let beside = scope.spawn(|| self.alone(margin));
                let took = self.alone(margin);
                took.zip(beside.join().ok().flatten()).map(|(a, b)| a.max(b))
            })
        };
        let first = once()?;
        (1..REPEATS).try_fold(first, |least, _| Some(least.min(once()?)))
    }

    /// On one thread.
    fn alone(&self, margin: f32) -> Option<Duration> {
        // So large that half the box is no less than the margin.
        let wide = Vec3::new(1e6, 1e6, 1e6);
        let bound = ShrinkBound::new(-wide, wide, margin);
        let start = Instant::now();
        let shrunk = calculate_verts_shrunk(&bound, &self.records, self.triangles, &self.vertices).ok()?;
        (shrunk.by == ShrunkBy::Margin(margin)).then(|| start.elapsed())
    }
}

/// A number of which two digits count.
fn rounded(n: usize) -> usize {
    let unit = 10usize.pow(n.checked_ilog10().unwrap_or(0).saturating_sub(1));
    n / unit * unit
}

/// `16,384`.
fn thousands(n: usize) -> String {
    let digits = n.to_string();
    let mut text = String::new();
    for (at, digit) in digits.chars().enumerate() {
        if at > 0 && (digits.len() - at).is_multiple_of(3) {
            text.push(',');
        }
        text.push(digit);
    }
    text
}

#[cfg(test)]
mod tests {
    use super::*;

    #[test]
    fn time_goes_with_vertices_times_triangles() {
        let pace = Pace::scaled(Duration::from_millis(2), (200, 400), (16_384, 32_000));
        // 2 ms by 80,000 pairs is 25 ns each; 524,288,000 pairs.
        assert_eq!(pace.margin.as_millis(), 13_107);
        assert_eq!(Pace::scaled(Duration::from_millis(2), (0, 0), (0, 0)).margin, Duration::ZERO);
    }

    #[test]
    fn a_line_says_about_how_much_is_done() {
        let pace = Pace { vertices: 16_384, margin: Duration::from_secs(60) };
        assert_eq!(
            pace.words(19.7),
            "kind 4: about 5,300 of 16,384 vertices, some 41 s left if the first margin passes"
        );
        assert_eq!(
            pace.words(59.99),
            "kind 4: about 16,000 of 16,384 vertices, some 1 s left if the first margin passes"
        );
        assert_eq!(pace.words(61.0), "kind 4: 61 s, about all of 16,384 vertices if the first margin passes");
        let later =
            "kind 4: 121 s; a margin that passes takes some 60 s, so another may be tried now, half the one before";
        assert_eq!(pace.words(121.0), later);
        assert_eq!([0, 7, 42, 999, 1_000, 1_234_567].map(thousands), ["0", "7", "42", "999", "1,000", "1,234,567"]);
        assert_eq!([0, 7, 42, 999, 5_379].map(rounded), [0, 7, 42, 990, 5_300]);
    }

    #[test]
    fn a_sample_is_whole_and_small() {
        let corner = |k: usize| Vec3::new((k % 40) as f32, (k / 40) as f32, (k * 7 % 5) as f32 * 0.1);
        let cell = |k: usize| {
            let low = (k / 39 * 40 + k % 39) as u16;
            [[low, low + 1, low + 40], [low + 1, low + 41, low + 40]]
        };
        let triangle = |v: [u16; 3]| Polygon::Triangle { material: 0, area: 0.0, v, edges: [-1; 3] };
        let mut polygons: Vec<Polygon> = (0..39 * 39).flat_map(cell).map(triangle).collect();
        polygons.insert(3, triangle([0, 1, 5_000]));
        polygons.insert(5, Polygon::Sphere { material: 0, index: 7, radius: 1.0 });
        let geometry = Geometry {
            polygons,
            vertices: (0..1_600).map(corner).collect(),
            margin: 0.04,
            ..Geometry::new(Geometry::PLAIN)
        };
        let (sample, all) = (Sample::of(&geometry, SAMPLE), Sample::of(&geometry, usize::MAX));
        assert_eq!((sample.triangles, all.size()), (SAMPLE, (1_600, 2 * 39 * 39)));
        assert!(sample.vertices.len() < 300 && sample.records.len() == 16 * SAMPLE);
        let pace = Pace::of(&geometry).expect("a margin passes");
        assert!(pace.vertices == 1_600 && pace.margin > Duration::ZERO);
        assert_eq!(Pace::of(&Geometry::new(Geometry::PLAIN)), None, "nothing to measure");
    }
}
