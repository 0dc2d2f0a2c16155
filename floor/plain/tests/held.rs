//! Single steps held to the library's; whole builds, prepares and walks are held to it by the tests of tool and compare.

mod common;

use bounds::float;
use plain::{fold, split, vertex, walk};

const VALUES: [f32; 16] = [
    f32::NAN,
    -f32::NAN,
    f32::NEG_INFINITY,
    f32::MIN,
    -32_768.0,
    -32_767.5,
    -1.5,
    -0.0,
    0.0,
    1e-40,
    0.75,
    2.5,
    32_766.9,
    32_767.5,
    1e9,
    f32::INFINITY,
];

#[test]
fn the_order_and_the_least_are_the_librarys() {
    use bounds::premises::Corner::{Max, Min};
    for a in VALUES {
        for b in VALUES {
            assert_eq!(split::compare(a, b), float::cmp_f32(a, b), "{a} {b}");
            let (x, y) = (a.to_bits(), b.to_bits());
            assert_eq!(fold::pick(Min, x, y), float::vmin_word(x, y), "{a} {b}");
            assert_eq!(fold::pick(Max, x, y), float::vmax_word(x, y), "{a} {b}");
        }
    }
}

/// A query's corner is cut as a vertex is, by rules of their own.
#[test]
fn values_are_the_librarys() {
    for x in VALUES {
        assert_eq!(vertex::vertex_value(x), float::vertex_value(x), "{x}");
        assert_eq!(walk::query_value(x), float::vertex_value(x), "{x}");
    }
}

/// Without this the look of tests/independent.rs could be one that finds nothing.
#[test]
fn what_is_called_is_found() {
    assert_eq!(float::cmp_f32(1.0, 2.0), std::cmp::Ordering::Less);
    let linked = common::linked();
    assert!(linked.iter().any(|name| name == "bounds_cmp_f32"), "{linked:?}");
}
