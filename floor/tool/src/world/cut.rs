//! Cutting by place: from a world's polygons to parts of which each is within the limits of one mesh.
//!
//! A part that is over a limit is halved at the median of its polygons' middles along the axis on which these reach furthest,
//! until each part is within. Of equal middles the polygon with the lower number goes first, so that the same world is cut the
//! same way always. Each halving takes time by the polygons of its part, and halvings are as deep as a logarithm: a world of n
//! polygons takes n log n.

use super::Piece;
use bounds::Vec3;
use std::ops::Range;

/// What a part may have at most: polygons, vertices that they name, and materials that they use.
#[derive(Clone, Copy, Debug, PartialEq, Eq)]
pub struct Limits {
    pub polygons: usize,
    pub vertices: usize,
    pub materials: usize,
}

impl Limits {
    /// Those of a mesh that the library prepares. A list of 256 materials is taken, but of 256 that are used none is.
    pub const MESH: Limits =
        Limits { polygons: bounds::shrink::POLYGONS, vertices: bounds::octants::VERTICES, materials: 255 };
}

/// Parts, each the numbers of its polygons, rising: every polygon is in exactly one. Of no polygon there is one part, which is
/// empty. Parts lie in the order of their places: what a halving put first is before the rest.
pub fn parts(pieces: &[Piece], vertices: &[Vec3], limits: Limits) -> Vec<Vec<u32>> {
    let middles = middles(pieces, vertices);
    let mut counter = Counter::new(pieces, vertices.len());
    let mut numbers: Vec<u32> = (0..pieces.len() as u32).collect();
    let mut parts = Vec::new();
    // Those still to be looked at, the first on top: never more than one a halving above it.
    let mut left: Vec<Range<usize>> = std::iter::once(0..numbers.len()).collect();
    while let Some(range) = left.pop() {
        let part = &mut numbers[range.clone()];
        if part.len() < 2 || counter.fits(part, limits) {
            part.sort_unstable();
            parts.push(part.to_vec());
        } else {
            let half = range.start + halve(part, &middles);
            left.extend([half..range.end, range.start..half]);
        }
    }
    parts
}

/// A part of two polygons at least in two, each with its numbers rising: what a tree of too many nodes needs.
pub fn halves(part: &[u32], pieces: &[Piece], vertices: &[Vec3]) -> [Vec<u32>; 2] {
    let own: Vec<Piece> = part.iter().map(|&k| pieces[k as usize]).collect();
    let mut places: Vec<u32> = (0..part.len() as u32).collect();
    let half = halve(&mut places, &middles(&own, vertices));
    let numbers = |places: &[u32]| {
        let mut numbers: Vec<u32> = places.iter().map(|&place| part[place as usize]).collect();
        numbers.sort_unstable();
        numbers
    };
    [numbers(&places[..half]), numbers(&places[half..])]
}

/// Puts the lower half of the polygons first, by their middles on the longest axis, and answers how many these are.
fn halve(part: &mut [u32], middles: &[[f32; 3]]) -> usize {
    let axis = longest(part, middles);
    let half = part.len() / 2;
    let middle = |k: u32| middles[k as usize][axis];
    part.select_nth_unstable_by(half, |&a, &b| middle(a).total_cmp(&middle(b)).then(a.cmp(&b)));
    half
}

/// The axis on which the middles that are finite reach furthest, the first of equal ones.
fn longest(part: &[u32], middles: &[[f32; 3]]) -> usize {
    let reach = |axis: usize| {
        let finite = part.iter().map(|&k| middles[k as usize][axis]).filter(|x| x.is_finite());
        let (least, most) = finite.fold((f32::INFINITY, f32::NEG_INFINITY), |(a, b), x| (a.min(x), b.max(x)));
        most - least
    };
    let reaches = [0, 1, 2].map(reach);
    (1..3).fold(0, |best, axis| if reaches[axis] > reaches[best] { axis } else { best })
}

/// The middle of each polygon's corners on each axis; a NaN is passed over, and a vertex that is not there is zero.
fn middles(pieces: &[Piece], vertices: &[Vec3]) -> Vec<[f32; 3]> {
    let at = |k: u32| vertices.get(k as usize).map_or([0.0; 3], |v| [v.x, v.y, v.z]);
    let middle = |piece: &Piece| {
        let corners = piece.corners.map(at);
        [0, 1, 2].map(|axis| {
            let values = corners.map(|corner| corner[axis]);
            let (least, most) =
                (values.into_iter().fold(f32::NAN, f32::min), values.into_iter().fold(f32::NAN, f32::max));
            least * 0.5 + most * 0.5 + 0.0 // halves cannot overflow; -0 and 0 are one place
        })
    };
    pieces.iter().map(middle).collect()
}

/// Counts the vertices and materials of one part after the other, without clearing in between.
struct Counter<'a> {
    pieces: &'a [Piece],
    /// For each vertex and each material the round in which it was last seen. The last is for all that are not there.
    vertices: Vec<u32>,
    materials: Vec<u32>,
    round: u32,
}

impl Counter<'_> {
    fn new(pieces: &[Piece], vertices: usize) -> Counter<'_> {
        let materials = pieces.iter().map(|piece| piece.material as usize + 1).max().unwrap_or(0);
        Counter { pieces, vertices: vec![0; vertices + 1], materials: vec![0; materials], round: 0 }
    }

    /// Whether a part is within the limits. Vertices that are not there are one more: the number that no vertex has.
    fn fits(&mut self, part: &[u32], limits: Limits) -> bool {
        if part.len() > limits.polygons {
            return false;
        }
        self.round += 1;
        let (mut vertices, mut materials) = (0, 0);
        let missing = self.vertices.len() - 1;
        for piece in part.iter().map(|&k| &self.pieces[k as usize]) {
            for corner in piece.corners {
                vertices += first(&mut self.vertices[(corner as usize).min(missing)], self.round);
            }
            materials += first(&mut self.materials[piece.material as usize], self.round);
        }
        vertices <= limits.vertices && materials <= limits.materials
    }
}

/// 1 where it is seen the first time in this round.
fn first(seen: &mut u32, round: u32) -> usize {
    usize::from(std::mem::replace(seen, round) != round)
}

#[cfg(test)]
mod tests {
    use super::*;
    use bounds::Polygon;
    use std::collections::HashSet;

    const SMALL: Limits = Limits { polygons: 100, vertices: 90, materials: 7 };

    fn piece(corners: [u32; 3], material: u32) -> Piece {
        let [a, b, c] = corners;
        let shape = Polygon::Triangle { material: 0, area: 0.0, v: [0; 3], edges: [-1; 3] };
        Piece { corners: [a, b, c, c], material, shape }
    }

    /// splitmix64.
    fn random(state: &mut u64) -> usize {
        *state = state.wrapping_add(0x9E37_79B9_7F4A_7C15);
        let z = (*state ^ (*state >> 30)).wrapping_mul(0xBF58_476D_1CE4_E5B9);
        let z = (z ^ (z >> 27)).wrapping_mul(0x94D0_49BB_1331_11EB);
        (z ^ (z >> 31)) as usize
    }

    /// A grid of so many cells on a side, two triangles each, materials by `of(column, row)`.
    fn grid(side: usize, of: impl Fn(usize, usize) -> u32) -> (Vec<Piece>, Vec<Vec3>) {
        let at = |column: usize, row: usize| (column + (side + 1) * row) as u32;
        let cell = |k: usize| {
            let (c, r) = (k % side, k / side);
            let material = of(c, r);
            [
                piece([at(c, r), at(c + 1, r), at(c, r + 1)], material),
                piece([at(c + 1, r), at(c + 1, r + 1), at(c, r + 1)], material),
            ]
        };
        let vertex = |k: usize| Vec3::new((k % (side + 1)) as f32, (k / (side + 1)) as f32, 0.0);
        ((0..side * side).flat_map(cell).collect(), (0..(side + 1) * (side + 1)).map(vertex).collect())
    }

    /// What every cut must be: each polygon in one part, numbers rising, each part within the limits.
    fn held(pieces: &[Piece], vertices: &[Vec3], limits: Limits) -> Vec<Vec<u32>> {
        let parts = parts(pieces, vertices, limits);
        let mut seen = vec![0; pieces.len()];
        for part in &parts {
            assert!(part.windows(2).all(|pair| pair[0] < pair[1]), "numbers rise");
            part.iter().for_each(|&k| seen[k as usize] += 1);
            let of = |k: &u32| &pieces[*k as usize];
            let there = vertices.len() as u32;
            let named: HashSet<u32> = part.iter().flat_map(|k| of(k).corners).map(|v| v.min(there)).collect();
            let used: HashSet<u32> = part.iter().map(|k| of(k).material).collect();
            assert!(part.len() <= limits.polygons && named.len() <= limits.vertices && used.len() <= limits.materials);
        }
        assert!(seen.iter().all(|&times| times == 1), "each polygon once");
        assert_eq!(parts, super::parts(pieces, vertices, limits), "the same again");
        parts
    }

    #[test]
    fn a_grid_becomes_parts_of_one_size() {
        let (pieces, vertices) = grid(16, |_, _| 0); // 512 polygons, 289 vertices
        let parts = held(&pieces, &vertices, SMALL);
        assert_eq!(parts.iter().map(Vec::len).collect::<Vec<_>>(), [64; 8]);
        assert_eq!(held(&pieces, &vertices, Limits::MESH), [(0..512).collect::<Vec<u32>>()]);
    }

    /// Along the cut axis no middle of a part is beyond one of the part behind it.
    #[test]
    fn each_part_lies_in_its_place() {
        let (pieces, vertices) = grid(16, |_, _| 0);
        let middles = middles(&pieces, &vertices);
        let box_of = |part: &[u32]| {
            let reach = |axis: usize| {
                let values = part.iter().map(|&k| middles[k as usize][axis]);
                values.fold((f32::MAX, f32::MIN), |(a, b), x| (a.min(x), b.max(x)))
            };
            [reach(0), reach(1)]
        };
        let boxes: Vec<_> = held(&pieces, &vertices, SMALL).iter().map(|part| box_of(part)).collect();
        for (k, a) in boxes.iter().enumerate() {
            for b in &boxes[k + 1..] {
                assert!((0..2).any(|axis| a[axis].1 <= b[axis].0 || b[axis].1 <= a[axis].0), "{a:?} and {b:?} overlap");
            }
        }
    }

    #[test]
    fn each_limit_cuts() {
        let (pieces, vertices) = grid(16, |column, row| (column / 2 + 8 * (row / 2)) as u32);
        let wide = Limits { polygons: 1 << 20, vertices: 1 << 20, materials: 1 << 20 };
        assert_eq!(held(&pieces, &vertices, wide).len(), 1);
        assert_eq!(held(&pieces, &vertices, Limits { polygons: 511, ..wide }).len(), 2);
        assert_eq!(held(&pieces, &vertices, Limits { polygons: 512, ..wide }).len(), 1);
        assert_eq!(held(&pieces, &vertices, Limits { vertices: 288, ..wide }).len(), 2);
        assert_eq!(held(&pieces, &vertices, Limits { vertices: 289, ..wide }).len(), 1);
        assert_eq!(held(&pieces, &vertices, Limits { materials: 63, ..wide }).len(), 2);
        assert_eq!(held(&pieces, &vertices, Limits { materials: 64, ..wide }).len(), 1);
    }

    #[test]
    fn three_hundred_materials_in_one_place() {
        let vertices = [Vec3::ZERO, Vec3::new(1.0, 0.0, 0.0), Vec3::new(0.0, 1.0, 0.0)];
        let pieces: Vec<Piece> = (0..300).map(|k| piece([0, 1, 2], k)).collect();
        let parts = held(&pieces, &vertices, Limits::MESH);
        assert_eq!(parts, [(0..150).collect::<Vec<u32>>(), (150..300).collect()]);
        // equal middles by their number
    }

    #[test]
    fn what_is_degenerate_is_cut_too() {
        let none: [Piece; 0] = [];
        assert_eq!(held(&none, &[], SMALL), [Vec::<u32>::new()]);
        let equal = vec![piece([0, 0, 0], 0); 1000];
        assert_eq!(held(&equal, &[Vec3::new(5.0, 5.0, 5.0)], SMALL).len(), 16);
        let nowhere = [f32::NAN, f32::INFINITY, f32::NEG_INFINITY].map(|x| Vec3::new(x, f32::NAN, x));
        let odd: Vec<Piece> = (0..1000).map(|k| piece([k % 3, k % 2, k % 3], 0)).collect();
        assert_eq!(held(&odd, &nowhere, SMALL).len(), 16);
        let missing: Vec<Piece> = (0..1000).map(|k| piece([k, k + 7, u32::MAX], 0)).collect();
        assert_eq!(held(&missing, &[], SMALL).len(), 16); // all that are not there are one
        let (mut pieces, mut vertices) = grid(16, |_, _| 0);
        vertices.extend([
            Vec3::new(-1e30, -1e30, -1e30),
            Vec3::new(1e30, 1e30, 1e30),
            Vec3::new(f32::MAX, f32::MAX, f32::MAX),
        ]);
        pieces.push(piece([289, 290, 291], 0)); // one giant over all
        held(&pieces, &vertices, SMALL);
    }

    #[test]
    fn soups_of_every_kind_of_number() {
        let state = &mut 29;
        for _ in 0..200 {
            let (n, v) = (random(state) % 700, 1 + random(state) % 400);
            let any = |state: &mut u64| match random(state) % 4 {
                0 => f32::from_bits(random(state) as u32),
                1 => (random(state) % 5) as f32,
                _ => (random(state) % 100_000) as f32 * 0.01 - 500.0,
            };
            let vertices: Vec<Vec3> = (0..v).map(|_| Vec3::new(any(state), any(state), any(state))).collect();
            let corner = |state: &mut u64| (random(state) % (v + v / 8 + 1)) as u32;
            let one =
                |state: &mut u64| piece([corner(state), corner(state), corner(state)], (random(state) % 20) as u32);
            let pieces: Vec<Piece> = (0..n).map(|_| one(state)).collect();
            held(&pieces, &vertices, SMALL);
            if n > 1 {
                let all: Vec<u32> = (0..n as u32).step_by(2).collect();
                let [a, b] = halves(&all, &pieces, &vertices);
                assert_eq!((a.len(), b.len()), (all.len() / 2, all.len().div_ceil(2)));
                let mut both = [a, b].concat();
                both.sort_unstable();
                assert_eq!(both, all);
            }
        }
    }
}
