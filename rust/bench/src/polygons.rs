//! Polygons: links between triangles, lists of materials, boxes and records. The library on records and in lent buffers,
//! the reference on its own structs.

use crate::lists::{inputs, Tame};
use crate::subjects::{vec3, Kind, Pass, Side, Subject, Work};
use bounds::geometry::{edges_work_len, BoundMaterial, Polygon, MATERIALS_LEN};
use bounds::{build_materials, polygon_items, update_edge_indices, BvhItem, Vec3};
use compare::random::Random;
use oracle::geometry::VERTICES;
use oracle::polygon as reference;
use std::hint::black_box;

/// Of a few triangles a call's own cost shows.
const GRIDS: &[usize] = &[2, 14, 40, 1_000, 10_000, 32_000];

const LISTS: &[usize] = &[1_000, 10_000, 32_000];

const ENDS: &[usize] = &[1_000, 32_000];

const ONE: &[usize] = &[32_000];

pub fn all() -> Vec<Subject> {
    let row = |name, sizes, counted, work| Subject { kind: Kind::Polygon, name, sizes, counted, work };
    vec![
        row("links, grid", GRIDS, &[40, 10_000], |n, _| links(&grid(n))),
        row("links, grid, far numbers", &GRIDS[..5], &[40, 10_000], |n, _| links(&far(&grid(n)))),
        row("links, one edge", LISTS, &[10_000], |n, _| links(&fan(n))),
        row("links, equal", LISTS, &[10_000], |n, _| links(&vec![[0, 1, 2]; n])),
        row("materials, 8", LISTS, &[10_000], |n, seed| materials(n, 8, seed)),
        row("materials, 256", LISTS, &[10_000], |n, seed| materials(n, 256, seed)),
        row("bbox, triangles", ONE, ONE, |n, seed| boxes(&inputs(n, seed, corners), seed)),
        row("bbox, spheres", ONE, ONE, |n, seed| boxes(&inputs(n, seed, |tame| of_kind(1, parts(tame))), seed)),
        row("bbox, capsules", ONE, ONE, |n, seed| boxes(&inputs(n, seed, |tame| of_kind(2, parts(tame))), seed)),
        row("bbox, boxes", ONE, ONE, |n, seed| boxes(&inputs(n, seed, |tame| of_kind(3, parts(tame))), seed)),
        row("bbox, mixed kinds", ONE, ONE, |n, seed| boxes(&inputs(n, seed, mixed), seed)),
        row("items, triangles", ENDS, ENDS, |n, seed| items(&inputs(n, seed, corners), seed)),
        row("items, mixed kinds", ENDS, ENDS, |n, seed| items(&inputs(n, seed, mixed), seed)),
        row("read, triangles", ONE, ONE, |n, seed| reads(&inputs(n, seed, corners))),
        row("read, mixed kinds", ONE, ONE, |n, seed| reads(&inputs(n, seed, mixed))),
        row("to_bytes, triangles", ONE, ONE, |n, seed| writes(&inputs(n, seed, corners))),
        row("to_bytes, mixed kinds", ONE, ONE, |n, seed| writes(&inputs(n, seed, mixed))),
    ]
}

/// So many triangles of a square grid, two in each cell.
fn grid(triangles: usize) -> Vec<[u16; 3]> {
    let wide = (1..).find(|w| 2 * w * w >= triangles).expect("a square is large enough");
    let triangle = |i: usize| {
        let cell = i / 2;
        let low = cell / wide * (wide + 1) + cell % wide;
        let high = low + wide + 1;
        let corners = if i.is_multiple_of(2) { [low, low + 1, high] } else { [low + 1, high + 1, high] };
        corners.map(|v| v as u16)
    };
    (0..triangles).map(triangle).collect()
}

/// The same with numbers up to the highest that there are: over three times as high as there are triangles.
fn far(triangles: &[[u16; 3]]) -> Vec<[u16; 3]> {
    let highest = triangles.iter().flatten().max().expect("there is a triangle");
    let apart = 0x7FFF / highest;
    triangles.iter().map(|v| v.map(|v| v * apart)).collect()
}

/// All around one edge.
fn fan(triangles: usize) -> Vec<[u16; 3]> {
    (0..triangles).map(|i| [0, 1, i as u16 + 2]).collect()
}

fn triangle(v: [u16; 3]) -> Polygon {
    Polygon::Triangle { material: 0, area: 1.0, v, edges: [-1; 3] }
}

/// A triangle of any vertices.
fn corners(tame: &mut Tame) -> Polygon {
    triangle([0; 3].map(|_| tame.0.below(VERTICES) as u16))
}

/// Of any kind, of any vertices.
fn mixed(tame: &mut Tame) -> Polygon {
    let parts = parts(tame);
    of_kind(tame.0.below(5), parts)
}

fn parts(tame: &mut Tame) -> ([u16; 4], f32) {
    ([0; 4].map(|_| tame.0.below(VERTICES) as u16), tame.float().abs())
}

fn of_kind(kind: usize, ([a, b, c, d], radius): ([u16; 4], f32)) -> Polygon {
    let material = 0;
    match kind {
        0 => triangle([a, b, c]),
        1 => Polygon::Sphere { material, index: a, radius },
        2 => Polygon::Capsule { material, i1: a, i2: b, radius },
        3 => Polygon::Box { material, i: [a, b, c, d].map(|i| i as i16) },
        _ => Polygon::Cylinder { material, i1: a, i2: b, radius },
    }
}

/// The reference's, by way of the record.
fn theirs(polygon: &Polygon) -> reference::Polygon {
    reference::read(&polygon.to_bytes()).expect("a record of a known kind")
}

fn both(ours: Pass, theirs: Pass, units: usize) -> Work {
    Work { passes: vec![(Side::Library, ours), (Side::Reference, theirs)], units, queries: None }
}

/// A call for each input, one after another.
fn each<T: Send + 'static, R>(inputs: Vec<T>, call: impl Fn(&T) -> R + Send + 'static) -> Pass {
    Box::new(move || {
        for input in &inputs {
            black_box(call(black_box(input)));
        }
    })
}

/// Links are stored where they were: a pass finds the last one's, which it does not read.
fn links(corners: &[[u16; 3]]) -> Work {
    let n = corners.len();
    let list: Vec<Polygon> = corners.iter().copied().map(triangle).collect();
    let mut records: Vec<u8> = list.iter().flat_map(Polygon::to_bytes).collect();
    let list: Vec<_> = list.iter().map(theirs).collect();
    let mut work = vec![0; edges_work_len(n)];
    update_edge_indices(&mut records, n, &mut work).expect("a list within the limits");
    let linked = reference::edges(&list).expect("a list within the limits");
    assert!(linked.into_iter().flat_map(reference::to_bytes).eq(records.iter().copied()), "the same links");
    let ours = move || {
        black_box(update_edge_indices(black_box(&mut records), n, &mut work)).expect("a list within the limits");
    };
    both(Box::new(ours), reference::linker(&list), n)
}

fn materials(n: usize, given: usize, seed: u64) -> Work {
    let mut random = Random::new(seed);
    let numbers: Vec<u8> = (0..n).map(|_| random.below(given) as u8).collect();
    let pairs: Vec<reference::Material> = (0..given as u32).map(|number| (number, random.u32())).collect();
    let own: Vec<_> = pairs.iter().map(|&(data1, data2)| BoundMaterial { data1, data2 }).collect();
    let (mut list, mut indices) = (vec![0; MATERIALS_LEN], vec![0; n]);
    let count = build_materials(&numbers, &own, &mut list, &mut indices).expect("a list within the limits");
    let built = reference::materials(&numbers, &pairs).expect("a list within the limits");
    assert_eq!((count, &indices), (built.list.len(), &built.indices), "the same materials");
    let mut theirs = reference::lister(&numbers, &pairs);
    let ours = move || {
        let built = build_materials(black_box(&numbers), &own, &mut list, black_box(&mut indices));
        black_box(built).expect("a list within the limits");
    };
    let theirs = move || {
        black_box(theirs());
    };
    both(Box::new(ours), Box::new(theirs), n)
}

/// Over vertices that are spread, as many as there may be.
fn boxes(polygons: &[Polygon], seed: u64) -> Work {
    let points: Vec<[f32; 3]> = inputs(VERTICES, seed, Tame::point);
    let vertices: Vec<Vec3> = points.iter().copied().map(vec3).collect();
    for p in &polygons[..100] {
        let b = reference::bbox(theirs(p), &points);
        assert_eq!(p.bbox(&vertices), (vec3(b.min), vec3(b.max)), "the same box");
    }
    let ours = each(polygons.to_vec(), move |p| p.bbox(black_box(&vertices)));
    let list: Vec<_> = polygons.iter().map(theirs).collect();
    both(ours, reference::boxer(&list, &points), polygons.len())
}

/// The boxes of a list as the items of a build, over the same vertices.
fn items(polygons: &[Polygon], seed: u64) -> Work {
    let n = polygons.len();
    let points: Vec<[f32; 3]> = inputs(VERTICES, seed, Tame::point);
    let vertices: Vec<Vec3> = points.iter().copied().map(vec3).collect();
    let records: Vec<u8> = polygons.iter().flat_map(Polygon::to_bytes).collect();
    let mut items = vec![BvhItem::ABSENT; n];
    polygon_items(&records, n, &vertices, &mut items).expect("a list within the limits");
    let list: Vec<_> = polygons.iter().map(theirs).collect();
    for (p, item) in list.iter().zip(&items).take(100) {
        let b = reference::bbox(*p, &points);
        assert_eq!((item.min, item.max), (vec3(b.min), vec3(b.max)), "the same box");
    }
    let ours = move || {
        let answer = polygon_items(black_box(&records), n, &vertices, black_box(&mut items));
        black_box(answer).expect("a list within the limits");
    };
    both(Box::new(ours), reference::itemizer(&list, &points), n)
}

fn records(polygons: &[Polygon]) -> Vec<[u8; 16]> {
    polygons.iter().map(Polygon::to_bytes).collect()
}

fn reads(polygons: &[Polygon]) -> Work {
    let ours = each(records(polygons), |record| Polygon::read(record));
    both(ours, each(records(polygons), |record| reference::read(record)), polygons.len())
}

fn writes(polygons: &[Polygon]) -> Work {
    let list: Vec<_> = polygons.iter().map(theirs).collect();
    let written: Vec<_> = list.iter().copied().map(reference::to_bytes).collect();
    assert_eq!(records(polygons), written, "the same records");
    let ours = each(polygons.to_vec(), Polygon::to_bytes);
    both(ours, each(list, |&p| reference::to_bytes(p)), polygons.len())
}

#[cfg(test)]
mod tests {
    use super::*;
    use std::collections::HashMap;

    /// By how many triangles each edge is shared.
    fn shared(triangles: &[[u16; 3]]) -> HashMap<(u16, u16), usize> {
        let mut edges = HashMap::new();
        for v in triangles {
            for (a, b) in [(v[0], v[1]), (v[1], v[2]), (v[2], v[0])] {
                *edges.entry((a.min(b), a.max(b))).or_default() += 1;
            }
        }
        edges
    }

    #[test]
    fn a_grid_has_the_edges_of_a_grid() {
        for (triangles, edges, inner) in [(2, 5, 1), (8, 16, 8), (32, 56, 40)] {
            let shared = shared(&grid(triangles));
            assert_eq!((shared.len(), shared.values().filter(|&&n| n == 2).count()), (edges, inner));
        }
        assert!(GRIDS.iter().all(|&n| shared(&grid(n)).values().all(|&n| n <= 2)));
        assert!(grid(32_000).iter().flatten().all(|&v| v < 0x8000), "bit 15 is no part of a vertex");
    }

    #[test]
    fn all_triangles_of_a_fan_share_one_edge() {
        let shared = shared(&fan(1_000));
        assert_eq!((shared[&(0, 1)], shared.len()), (1_000, 2_001));
    }

    #[test]
    fn every_kind_is_in_the_mix() {
        let list = inputs(1_000, 1, mixed);
        let mut kinds: Vec<u8> = list.iter().map(|p| p.to_bytes()[0] % 8).collect();
        kinds.sort();
        kinds.dedup();
        assert_eq!(kinds, [0, 1, 2, 3, 4]);
    }
}
