//! What the tests of the crate cannot reach: each part of each lent buffer by itself, and a polygon's bytes.

use super::*;

/// What `corners` is to find, by the fields of each kind.
fn fields(polygon: Polygon) -> ([u16; 4], u32, u32) {
    let grown = |numbers, radius: f32| (numbers, radius.to_bits(), radius.to_bits());
    let plain = |numbers| (numbers, 0.0_f32.to_bits(), (-0.0_f32).to_bits());
    match polygon {
        Polygon::Triangle { v: [a, b, c], .. } => plain([a, b, c, c]),
        Polygon::Sphere { index, radius, .. } => grown([index; 4], radius),
        Polygon::Capsule { i1, i2, radius, .. } | Polygon::Cylinder { i1, i2, radius, .. } => {
            grown([i1, i1, i1, i2], radius)
        }
        Polygon::Box { i, .. } => plain(i.map(|i| i as u16)),
    }
}

#[test]
fn corners_are_the_fields_of_each_kind() {
    let (material, i1, i2) = (0xAB, 0x1234, 0xFEDC);
    for radius in [0.0, -0.0, 1.5, -1.5, f32::INFINITY, f32::NAN, f32::from_bits(0xFF81_2345), f32::from_bits(1)] {
        for polygon in [
            Polygon::Triangle { material, v: [i1, i2, 0x5678], area: radius, edges: [-1, 2, -3] },
            Polygon::Sphere { material, index: i2, radius },
            Polygon::Capsule { material, i1, i2, radius },
            Polygon::Box { material, i: [0x0102, -0x0304, 0x0506, -0x0708] },
            Polygon::Cylinder { material, i1, i2, radius },
        ] {
            let (numbers, low, high) = corners(&polygon);
            assert_eq!((numbers, low.to_bits(), high.to_bits()), fields(polygon), "{polygon:?}");
        }
    }
}

/// Each buffer by its place, with the lengths in which it is one longer and one shorter.
fn varied<const N: usize>(lengths: [usize; N]) -> impl Iterator<Item = (usize, [usize; N], [usize; N])> {
    (0..N).map(move |at| {
        let (mut longer, mut shorter) = (lengths, lengths);
        longer[at] += 1;
        shorter[at] -= 1;
        (at, longer, shorter)
    })
}

const ENTRIES: usize = 3;
/// Entries, places, temp, stack, rows, centres.
const PARTS: [usize; 6] = [7 * ENTRIES, ENTRIES, ENTRIES, ENTRIES, 8 * (2 * ENTRIES + 1), 4 * ENTRIES];

/// Boxes 2i to 2i + 1 on each axis; any mark but 0 says present.
fn items() -> [BvhItem; ENTRIES] {
    let corner = |x: f32| Vec3::new(x, x, x);
    [(1, 0.0), (0x8000_0000, 2.0), (u32::MAX, 4.0)].map(|(present, low)| BvhItem {
        present,
        min: corner(low),
        max: corner(low + 1.0),
    })
}

fn build(parts: [usize; 6]) -> (BuildAnswer, Vec<u8>) {
    let mut work = parts.map(|len| vec![0; len]);
    let work = work.each_mut().map(|part| &mut part[..]);
    let (mut nodes, mut trees, mut order) = (vec![7; 112], vec![7; 112], vec![7; ENTRIES]);
    let built = bounds_build_bvh(&items(), 1, &mut nodes, &mut trees, &mut order, work);
    (built, nodes)
}

#[test]
fn each_part_of_the_work_buffer_is_checked() {
    let (built, nodes) = build(PARTS);
    assert_eq!((built.refusal, built.nodes, built.capacity, built.present), (0, 5, 7, 3));
    for (part, longer, shorter) in varied(PARTS) {
        let (same, same_nodes) = build(longer);
        assert_eq!((same.refusal, &same_nodes), (0, &nodes), "part {part} longer");
        let (refused, untouched) = build(shorter);
        assert_eq!((refused.refusal, untouched), (2, vec![7; 112]), "part {part} shorter");
        assert_eq!((refused.nodes, refused.min.x), (0, 0), "a refusal has no values");
    }
    assert_eq!(PARTS.iter().sum::<usize>() as u64, bounds_work_len(ENTRIES as u32));
}

#[test]
fn premises_are_refused_where_entries_are_short_or_too_many() {
    let items = items();
    let entries = words(&items);
    let answer = |n, len| {
        let Premises { refusal, fault, place } = bounds_ordinary(n, &entries[..len]);
        (refusal, fault, place)
    };
    assert_eq!(answer(ENTRIES, 7 * ENTRIES), (0, 0, 0));
    assert_eq!(answer(ENTRIES, 7 * ENTRIES - 1), (2, 0, 0));
    assert_eq!(answer(ENTRIES - 1, 7 * ENTRIES - 1), (0, 0, 0));
    assert_eq!(answer(32_767, 7 * ENTRIES), (2, 0, 0));
    assert_eq!(answer(32_768, 7 * ENTRIES), (1, 0, 0));
    assert_eq!(answer(usize::MAX, 7 * ENTRIES), (1, 0, 0));
}

/// Vertices, lists, keys, rows, order, temp and marks of so many vertices.
fn octant_lengths(n: usize) -> [usize; 7] {
    [3 * n, 8 * n, 3 * n, 4 * n, n, n, n]
}

fn octants(n: usize, lengths: [usize; 7]) -> (OctantsAnswer, Vec<u32>) {
    let mut buffers = lengths.map(|len| vec![7; len]);
    let [vertices, lists, work @ ..] = buffers.each_mut().map(|part| &mut part[..]);
    (bounds_calculate_octants(n, vertices, lists, work), buffers[1].clone())
}

#[test]
fn each_buffer_of_octants_is_checked() {
    const VERTICES: usize = 3;
    let lengths = octant_lengths(VERTICES);
    let (answer, lists) = octants(VERTICES, lengths);
    assert_eq!((answer.refusal, answer.counts), (0, [1; 8]), "of equal vertices the first");
    for (at, longer, shorter) in varied(lengths) {
        let (same, same_lists) = octants(VERTICES, longer);
        assert_eq!((same.refusal, same.counts, &same_lists[..24]), (0, [1; 8], &lists[..]), "buffer {at} longer");
        assert!(same_lists[24..].iter().all(|&word| word == 7), "what lies behind stays");
        let (refused, untouched) = octants(VERTICES, shorter);
        assert_eq!((refused.refusal, refused.counts), (2, [0; 8]), "buffer {at} shorter");
        assert!(untouched.iter().all(|&word| word == 7), "buffer {at} shorter");
    }
    assert_eq!(lengths[2..].iter().sum::<usize>() as u64, bounds_octants_work_len(VERTICES as u32));
}

#[test]
fn octants_are_refused_by_their_number_first() {
    for n in [32_769, usize::MAX / 8, usize::MAX] {
        assert_eq!(octants(n, [0; 7]).0.refusal, 1, "{n}");
    }
    assert_eq!(octants(32_768, [0; 7]).0.refusal, 2);
    assert_eq!(octants(0, [0; 7]).0.refusal, 0);
}

const CHILDREN: usize = 6;
/// Children, nodes, trees, order, and the parts of the work buffer.
const COMPOSITE: [usize; 10] = [
    24 * CHILDREN,
    16 * (2 * CHILDREN + 1),
    16 * (2 * CHILDREN + 1),
    CHILDREN,
    7 * CHILDREN,
    CHILDREN,
    CHILDREN,
    CHILDREN,
    8 * (2 * CHILDREN + 1),
    4 * CHILDREN,
];

fn composite(n: usize, lengths: [usize; 10]) -> (BuildAnswer, [Vec<u8>; 2], Vec<u16>) {
    let [children, nodes, trees, order, work @ ..] = lengths;
    let (children, mut records) = (vec![1; children], [vec![7; nodes], vec![7; trees]]);
    let (mut order, mut work) = (vec![7; order], work.map(|len| vec![0; len]));
    let work = work.each_mut().map(|part| &mut part[..]);
    let [nodes, trees] = &mut records;
    let built = bounds_composite_tree(n, &children, nodes, trees, &mut order, work);
    (built, records, order)
}

fn untouched((_, records, order): &(BuildAnswer, [Vec<u8>; 2], Vec<u16>)) -> bool {
    records.iter().flatten().all(|&byte| byte == 7) && order.iter().all(|&place| place == 7)
}

#[test]
fn each_buffer_of_a_composite_is_checked_above_five_children() {
    let built = composite(CHILDREN, COMPOSITE);
    assert_eq!((built.0.refusal, built.0.nodes, built.0.capacity, built.0.present), (0, 11, 13, 6));
    for (at, longer, shorter) in varied(COMPOSITE) {
        assert_eq!(composite(CHILDREN, longer).0.refusal, 0, "buffer {at} longer");
        let refused = composite(CHILDREN, shorter);
        assert_eq!((refused.0.refusal, refused.0.nodes), (2, 0), "buffer {at} shorter");
        assert!(untouched(&refused), "buffer {at} shorter");
    }
    let none = composite(CHILDREN - 1, [3; 10]);
    assert_eq!((none.0.refusal, none.0.nodes, none.0.capacity, none.0.trees), (0, 0, 0, 0));
    assert!(untouched(&none));
    for (n, refusal) in [(0, 0), (5, 0), (6, 2), (32_767, 2), (32_768, 1), (usize::MAX, 1)] {
        assert_eq!(composite(n, [0; 10]).0.refusal, refusal, "{n} children");
    }
}

#[test]
fn children_are_read_only_where_they_are_whole() {
    let words = [1; 48];
    let boxes = |n, len, room| {
        let mut out = vec![7; room];
        let refusal = bounds_child_boxes(n, &words[..len], &mut out);
        assert!(refusal == 0 || out.iter().all(|&byte| byte == 7));
        refusal
    };
    assert_eq!((boxes(2, 48, 64), boxes(2, 47, 64), boxes(2, 48, 63)), (0, 2, 2));
    assert_eq!((boxes(0, 0, 0), boxes(32_767, 0, 0), boxes(32_768, 0, 0), boxes(usize::MAX, 48, 64)), (0, 2, 1, 1));
    let present = |len, k| bounds_computed_box(&words[..len], k).present;
    assert_eq!((present(48, 0), present(48, 1), present(47, 1), present(48, 2)), (1, 1, 0, 0));
    assert_eq!((present(0, 0), present(48, usize::MAX), present(48, usize::MAX / 24)), (0, 0, 0));
}

/// Polygons in bytes, vertices, points, and the eight parts of the work buffer.
fn shrink_lengths(p: usize, v: usize) -> [usize; 11] {
    [16 * p, 3 * v, 3 * v, 3 * p, 3 * p, 3 * p + v, 3 * p, 3 * p, 3 * p, 9 * p, 9 * p]
}

/// Triangles 0, 1, 2 of vertices at 7 and the word 7, which is next to 0, in a box of 4 about 0.
fn shrink(p: usize, v: usize, kind: u8, lengths: [usize; 11]) -> (ShrinkAnswer, Vec<u32>) {
    let [polygons, buffers @ ..] = lengths;
    let record = [kind, 0, 0, 0, 0, 0, 1, 0, 2, 0, 0, 0, 0, 0, 0, 0];
    let polygons: Vec<u8> = record.into_iter().cycle().take(polygons).collect();
    let mut buffers = buffers.map(|len| vec![7; len]);
    let [vertices, points, work @ ..] = buffers.each_mut().map(|part| &mut part[..]);
    let two = Vec3::new(2.0, 2.0, 2.0);
    let bound = ShrinkBound::new(-two, two, 1.0);
    (bounds_calculate_verts_shrunk(bound, p, &polygons, v, vertices, points, work), buffers[1].clone())
}

#[test]
fn each_buffer_of_shrinking_is_checked() {
    const POLYGONS: usize = 2;
    const VERTICES: usize = 3;
    let lengths = shrink_lengths(POLYGONS, VERTICES);
    let answers = |lengths| shrink(POLYGONS, VERTICES, 0, lengths);
    let (answer, points) = answers(lengths);
    assert_eq!((answer.refusal, answer.by, answer.margin), (0, 1, 1.0), "of equal vertices none moves");
    assert_eq!(points, [7; 9], "within the box");
    for (at, longer, shorter) in varied(lengths) {
        let (same, same_points) = answers(longer);
        assert_eq!((same.refusal, same.by, &same_points[..9]), (0, 1, &points[..]), "buffer {at} longer");
        assert!(same_points[9..].iter().all(|&word| word == 7), "what lies behind stays");
        let (refused, untouched) = answers(shorter);
        assert_eq!((refused.refusal, refused.by, refused.margin), (2, 0, 0.0), "buffer {at} shorter");
        assert!(untouched.iter().all(|&word| word == 7), "buffer {at} shorter");
    }
    let words = bounds_shrink_work_len(POLYGONS as u32, VERTICES as u32);
    assert_eq!(lengths[3..].iter().sum::<usize>() as u64, words);
}

#[test]
fn shrinking_is_refused_by_its_numbers_then_by_kinds() {
    let refusal = |p, v, kind, lengths| shrink(p, v, kind, lengths).0.refusal;
    for n in [32_769, usize::MAX / 16, usize::MAX] {
        assert_eq!((refusal(n, 0, 5, [0; 11]), refusal(0, n, 5, [0; 11])), (1, 1), "{n}");
    }
    assert_eq!((refusal(32_768, 0, 0, [0; 11]), refusal(0, 32_768, 0, [0; 11])), (1, 2));
    assert_eq!((refusal(32_767, 0, 0, [0; 11]), refusal(0, 0, 0, [0; 11])), (2, 0));
    let lengths = shrink_lengths(1, 1);
    assert_eq!([4, 5, 6, 7, 8].map(|kind| refusal(1, 1, kind, lengths)), [0, 6, 6, 6, 0]);
}

/// Inputs (polygons, numbers, materials, vertices), outputs as `Outputs` has them, and the ten parts of the work buffer;
/// bytes, halves or words. In the work buffer the part `sorted` is words, of which a quarter is enough.
fn prepare_lengths(p: usize, v: usize, m: usize) -> [usize; 25] {
    let records = 16 * (2 * p + 1);
    let outputs = [2048, p, 16 * p, 6 * v, 3 * v, 6 * v, 3 * v, 8 * v, records, records, p];
    let work = [7 * p + 4 * v, 3 * p + 3 * v, 3 * p + v, 3 * p + v, 16 * p + 8 + v, 3 * v, p / 4, 4 * p, 9 * p, 9 * p];
    let mut all = [0; 25];
    all[..4].copy_from_slice(&[16 * p, p, 2 * m, 3 * v]);
    all[4..15].copy_from_slice(&outputs);
    all[15..].copy_from_slice(&work);
    all
}

/// Triangles of the first three of vertices that are all the same; every cell of an output is 7.
fn prepared(kind: u32, p: usize, v: usize, m: usize, lengths: [usize; 25]) -> (PrepareAnswer, bool) {
    let record = [0, 0, 0, 0, 0, 0, 1, 0, 2, 0, 0, 0, 0, 0, 0, 0];
    let polygons: Vec<u8> = record.into_iter().cycle().take(lengths[0]).collect();
    let (numbers, materials, vertices) = (vec![0; lengths[1]], vec![5; lengths[2]], vec![7; lengths[3]]);
    let from = Inputs { polygons: &polygons, numbers: &numbers, materials: &materials, vertices: &vertices };
    let bytes = |at: usize| vec![7u8; lengths[at]];
    let words = |at: usize| vec![7u32; lengths[at]];
    let (mut list, mut indices, mut records) = (bytes(4), bytes(5), bytes(6));
    let (mut stored, mut floats, mut shrunk, mut shrunk_floats) = (bytes(7), words(8), bytes(9), words(10));
    let (mut octants, mut nodes, mut trees, mut order) = (words(11), bytes(12), bytes(13), vec![7u16; lengths[14]]);
    let to = Outputs {
        materials: &mut list,
        indices: &mut indices,
        polygons: &mut records,
        vertices: &mut stored,
        floats: &mut floats,
        shrunk: &mut shrunk,
        shrunk_floats: &mut shrunk_floats,
        octants: &mut octants,
        node_bytes: &mut nodes,
        tree_bytes: &mut trees,
        order: &mut order,
    };
    let mut work: [Vec<u32>; 10] = std::array::from_fn(|part| vec![7; lengths[15 + part]]);
    let work = work.each_mut().map(|part| &mut part[..]);
    let two = Vec3::new(2.0, 2.0, 2.0);
    let bound = Bound { kind, box_min: -two, box_max: two, margin: 1.0, ..Bound::default() };
    let answer = prepare(bound, Counts { polygons: p, vertices: v, materials: m }, from, to, work);
    let bytes = [list, indices, records, stored, shrunk, nodes, trees].concat();
    let words = [floats, shrunk_floats, octants].concat();
    let untouched = bytes.iter().all(|&b| b == 7) && words.iter().all(|&w| w == 7) && order.iter().all(|&o| o == 7);
    (answer, untouched)
}

#[test]
fn each_buffer_of_prepare_is_checked_for_both_kinds() {
    const COUNTS: (usize, usize, usize) = (8, 3, 2);
    let (p, v, m) = COUNTS;
    let lengths = prepare_lengths(p, v, m);
    for kind in [4, 8] {
        let (answer, untouched) = prepared(kind, p, v, m, lengths);
        assert_eq!((answer.refusal, answer.materials, untouched), (0, 1, false), "kind {kind}");
        assert_eq!((answer.octants.counts[0], answer.tree.nodes), if kind == 4 { (1, 0) } else { (0, 3) });
        for (at, longer, shorter) in varied(lengths) {
            assert_eq!(prepared(kind, p, v, m, longer).0.refusal, 0, "kind {kind}, buffer {at} longer");
            let (refused, untouched) = prepared(kind, p, v, m, shorter);
            assert_eq!((refused.refusal, untouched), (2, true), "kind {kind}, buffer {at} shorter");
            assert_eq!((refused.materials, refused.tree.nodes, refused.frame), (0, 0, Frame::default()));
        }
    }
    let words: usize = lengths[15..].iter().sum::<usize>() + p - p / 4;
    assert_eq!(words as u64, bounds_prepare_work_len(p as u32, v as u32));
}

#[test]
fn prepare_is_refused_by_its_kind_then_by_its_numbers() {
    let refusal = |kind, p, v, m| prepared(kind, p, v, m, [0; 25]).0.refusal;
    for kind in [0, 3, 5, 7, 9, 12, 260, u32::MAX] {
        assert_eq!((refusal(kind, 0, 0, 0), refusal(kind, usize::MAX, 0, 0)), (6, 6), "{kind}");
    }
    for kind in [4, 8] {
        for n in [32_769, usize::MAX / 16, usize::MAX] {
            assert_eq!([refusal(kind, n, 0, 0), refusal(kind, 0, n, 0), refusal(kind, 0, 0, n)], [1; 3], "{n}");
        }
        assert_eq!([refusal(kind, 32_768, 0, 0), refusal(kind, 0, 32_768, 0), refusal(kind, 0, 0, 257)], [1, 2, 1]);
        assert_eq!([refusal(kind, 32_767, 0, 0), refusal(kind, 0, 0, 256), refusal(kind, 0, 0, 0)], [2; 3]);
        assert_eq!(prepared(kind, 0, 0, 0, prepare_lengths(0, 0, 0)).0.refusal, 0);
    }
}
