//! Composites: the children's boxes, and the tree over them through their transforms.

use crate::lists::{inputs, Tame};
use crate::subjects::{agreeing, vec3, Kind, Subject, Work};
use bounds::bvh::{records_len, work_len};
use bounds::composite::{child_boxes, child_boxes_len, composite_tree, Child};
use bounds::Mat4;
use oracle::composite as reference;
use oracle::Aabb;
use std::hint::black_box;

pub fn all() -> Vec<Subject> {
    // At threshold 1 more children would make too many nodes.
    let sizes = &[6, 1_000, 16_384];
    vec![Subject { kind: Kind::Composite, name: "composite", sizes, counted: &[6, 1_000], work: composite }]
}

/// A box that is turned about z, and placed within 400.
fn child(tame: &mut Tame) -> reference::Child {
    let size = |x: f32| 1.0 + x.abs() / 40000.0 * 9.0;
    let max = tame.point().map(size);
    let (sin, cos) = (tame.float() / 40000.0 * std::f32::consts::PI).sin_cos();
    let [x, y, z] = tame.point().map(|x| x / 200.0);
    let transform = [cos, sin, 0.0, 0.0, -sin, cos, 0.0, 0.0, 0.0, 0.0, 1.0, 0.0, x, y, z, 1.0];
    reference::Child { aabb: Aabb { min: [0.0; 3], max }, margin: 0.04, transform }
}

/// Ours into buffers that are lent again and again; theirs without turning its records into bytes.
fn composite(n: usize, seed: u64) -> Work {
    let list = inputs(n, seed, child);
    let own = |c: &reference::Child| Child::new(vec3(c.aabb.min), vec3(c.aabb.max), c.margin, Mat4(c.transform));
    let children: Vec<Child> = list.iter().map(own).collect();
    let (mut boxes, mut nodes, mut trees) =
        (vec![0; child_boxes_len(n)], vec![0; records_len(n)], vec![0; records_len(n)]);
    let (mut order, mut work) = (vec![0; n], vec![0; work_len(n)]);
    let ours = move || {
        let children = black_box(&children);
        child_boxes(children, black_box(&mut boxes)).expect("within the limits");
        let tree = composite_tree(children, &mut nodes, &mut trees, &mut order, &mut work).expect("within the limits");
        tree.map_or(0, |tree| tree.nodes_count as usize)
    };
    agreeing(ours, reference::preparer(&list.into_iter().map(Some).collect::<Vec<_>>()), n)
}
