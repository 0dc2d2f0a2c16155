//! From boxes to the items that a query meets: builds a tree, writes its header, walks over the records, goes from
//! positions to items by `order`, and compares the boxes as floats.
use bounds::bvh::{build_bvh, records_len, tree_header, work_len, BvhItem, HEADER};
use bounds::walk::{walk, Records};
use bounds::Vec3;
use std::error::Error;

const THRESHOLD: u32 = 4;

/// A row of boxes along x, each 2 wide, 3 apart; every tenth entry is absent.
fn item(i: usize) -> BvhItem {
    let x = 3.0 * i as f32;
    (i % 10 != 9).then(|| [Vec3::new(x, -1.0, -1.0), Vec3::new(x + 2.0, 1.0, 1.0)]).into()
}

fn meets(a: &BvhItem, b: &BvhItem) -> bool {
    a.min.x <= b.max.x
        && b.min.x <= a.max.x
        && a.min.y <= b.max.y
        && b.min.y <= a.max.y
        && a.min.z <= b.max.z
        && b.min.z <= a.max.z
}

fn main() -> Result<(), Box<dyn Error>> {
    let items: Vec<BvhItem> = (0..100).map(item).collect();
    let n = items.len();
    let (mut nodes, mut trees) = (vec![0; records_len(n)], vec![0; records_len(n)]);
    let (mut order, mut work) = (vec![0; n], vec![0; work_len(n)]);
    let built = build_bvh(&items, THRESHOLD, &mut nodes, &mut trees, &mut order, &mut work)?;

    let mut header = [0; HEADER];
    tree_header(&mut header, &built.bvh(0x5000_0080, 0x5000_0080 + 16 * built.nodes_capacity as u64))?;

    // Counts without padding; the item count is that of the list at threshold 1, else that of the present items.
    let items_count = if THRESHOLD == 1 { n } else { built.items_count as usize };
    let (nodes_count, trees_count) = (built.nodes_count as usize, built.trees_count as usize);
    let records = Records { node_bytes: &nodes, nodes_count, tree_bytes: &trees, trees_count, items_count };
    let query = BvhItem::new(Vec3::new(50.0, 0.0, 0.0), Vec3::new(80.0, 0.0, 0.0));
    let mut out = vec![0; items_count];
    let counts = walk(query.min, query.max, built.bb_center, built.quantum_inverse, &records, &mut out)?;

    let place = |position: u16| if THRESHOLD == 1 { position as usize } else { order[position as usize] as usize };
    let handed = out[..counts.handed].iter().map(|&position| place(position));
    let met_at = |&place: &usize| items[place].present != 0 && meets(&items[place], &query);
    let mut met: Vec<usize> = handed.filter(met_at).collect();
    met.sort();
    println!("{met:?}, {} read, {} handed out", counts.reads, counts.handed);
    assert!(met.into_iter().eq((0..n).filter(met_at)), "not what comparing all boxes gives");
    Ok(())
}
