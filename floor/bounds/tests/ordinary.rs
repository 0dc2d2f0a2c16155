//! The premises of the walk's promise: the library's answer against a plain check, on every special float at every place
//! of a box and on random lists.

use bounds::premises::{ordinary, Axis, Broken, Corner};
use bounds::{BvhItem, Vec3};

const AXES: [Axis; 3] = [Axis::X, Axis::Y, Axis::Z];

/// Edges of the premises and of the format, with both signs.
fn special() -> Vec<f32> {
    let words = [
        0x0000_0000, // 0
        0x0000_0001, // the least subnormal
        0x007F_FFFF, // the greatest
        0x0080_0000, // the least normal
        0x0D00_0000, // 2^-101
        0x0D7F_FFFF, // below 2^-100
        0x0D80_0000, // 2^-100
        0x0D80_0001, // above it
        0x0E00_0000, // 2^-99
        0x3F80_0000, // 1
        0x717F_FFFF, // below 2^100
        0x7180_0000, // 2^100
        0x7180_0001, // above it
        0x7F7F_FFFF, // the greatest
        0x7F80_0000, // infinity
        0x7F80_0001, // a signalling NaN
        0x7FC0_0000, // a quiet one
        0x7FFF_FFFF,
    ];
    words.iter().flat_map(|&w| [w, w | 0x8000_0000]).map(f32::from_bits).collect()
}

fn item(c: [f32; 6]) -> BvhItem {
    BvhItem::new(Vec3::new(c[0], c[1], c[2]), Vec3::new(c[3], c[4], c[5]))
}

fn corners(item: &BvhItem) -> [f32; 6] {
    [item.min.x, item.min.y, item.min.z, item.max.x, item.max.y, item.max.z]
}

/// The premises as one would write them in Rust, in doubles where the source's floats do not matter.
fn plain(items: &[BvhItem]) -> Result<(), Broken> {
    let present =
        || items.iter().enumerate().filter(|(_, item)| item.present != 0).map(|(place, item)| (place, corners(item)));
    for (place, c) in present() {
        for (at, &v) in c.iter().enumerate() {
            if !v.is_finite() || (v as f64).abs() > 100f64.exp2() {
                let corner = if at < 3 { Corner::Min } else { Corner::Max };
                return Err(Broken::Size { place, corner, axis: AXES[at % 3] });
            }
        }
        for axis in 0..3 {
            if c[axis] > c[axis + 3] {
                return Err(Broken::Order { place, axis: AXES[axis] });
            }
        }
    }
    if present().next().is_none() {
        return Ok(());
    }
    for axis in 0..3 {
        let low = present().map(|(_, c)| c[axis]).fold(f32::INFINITY, f32::min);
        let high = present().map(|(_, c)| c[axis + 3]).fold(f32::NEG_INFINITY, f32::max);
        let cen = (low + high) * 0.5;
        let q = (low - cen).abs().max((high - cen).abs());
        if q != 0.0 && (q as f64) < (-100f64).exp2() {
            return Err(Broken::Extent { axis: AXES[axis] });
        }
    }
    Ok(())
}

fn same(items: &[BvhItem]) -> Result<(), Broken> {
    let found = ordinary(items);
    assert_eq!(found, plain(items), "{items:?}");
    found
}

#[test]
fn every_special_float_at_every_place_of_a_box() {
    let good = item([0.0, 0.0, 0.0, 1.0, 1.0, 1.0]);
    let mut found = [0; 2];
    for a in special() {
        for b in special() {
            for axis in 0..3 {
                let mut c = [0.0; 6];
                (c[axis], c[axis + 3]) = (a, b);
                for items in [
                    &[item(c)][..],
                    &[BvhItem::ABSENT, good, item(c)],
                    &[item(c), good],
                    &[good, item(c), item([a; 6])],
                ] {
                    found[same(items).is_ok() as usize] += 1;
                }
            }
        }
    }
    assert!(found.iter().all(|&n| n > 1_000), "{found:?}");
}

#[test]
fn half_extents_by_two_points() {
    for a in special() {
        for b in special() {
            let _ = same(&[item([0.0, a, 0.0, 0.0, a, 0.0]), BvhItem::ABSENT, item([0.0, b, 0.0, 0.0, b, 0.0])]);
        }
    }
}

#[test]
fn without_present_entries_they_hold() {
    for n in [0, 1, 5, 32_767] {
        assert_eq!(same(&vec![BvhItem::ABSENT; n]), Ok(()));
    }
}

#[test]
fn random_lists() {
    let mut state = 1u64;
    let mut random = move |n: u64| {
        state = state.wrapping_mul(6_364_136_223_846_793_005).wrapping_add(1_442_695_040_888_963_407);
        (state >> 33) % n
    };
    let special = special();
    let mut found = [0; 2];
    for _ in 0..20_000 {
        let scale = (random(230) as f32 - 125.0).exp2();
        let hostile = random(3) == 0;
        let n = random(12);
        let items: Vec<_> = (0..n)
            .map(|_| {
                let mut c: [f32; 6] = std::array::from_fn(|_| (random(2_001) as f32 - 1_000.0) * scale);
                for axis in 0..3 {
                    if c[axis] > c[axis + 3] {
                        c.swap(axis, axis + 3);
                    }
                }
                if hostile && random(4) == 0 {
                    c[random(6) as usize] = special[random(special.len() as u64) as usize];
                }
                if random(5) != 0 {
                    item(c)
                } else {
                    BvhItem::ABSENT
                }
            })
            .collect();
        found[same(&items).is_ok() as usize] += 1;
    }
    assert!(found.iter().all(|&n| n > 1_000), "{found:?}");
}
