//! A world over the limits of one mesh as an .obj: hills and valleys of 2,000 by 1,500 metres with two roads across, 120,000 triangles
//! and several hundred materials, each where it belongs. Only sums, products and quotients, so that it is the same on every machine.

use std::fmt::Write;

/// Cells along x and y, and the metres of each.
const ACROSS: usize = 300;
const UP: usize = 200;
const CELL: (f64, f64) = (2000.0 / 300.0, 1500.0 / 200.0);

/// Where it begins: so far from the origin that centring rounds.
const FROM: (f64, f64) = (-1347.3, 2210.7);

/// Fields, each with materials of its own.
const FIELDS: (usize, usize) = (36, 26);

/// Hills and hollows: middle, width and height.
const HILLS: [(f64, f64, f64, f64); 7] = [
    (310.0, 420.0, 260.0, 95.0),
    (1450.0, 1130.0, 380.0, 140.0),
    (1010.0, 240.0, 180.0, -45.0),
    (1720.0, 380.0, 210.0, 70.0),
    (420.0, 1210.0, 300.0, 60.0),
    (960.0, 820.0, 150.0, -30.0),
    (60.0, 60.0, 400.0, 35.0),
];

/// Polygons of the world.
pub const POLYGONS: usize = 2 * ACROSS * UP;

/// How high the ground is, some metres from where it begins.
pub fn height(x: f64, y: f64) -> f64 {
    let hill = |&(a, b, width, high): &(f64, f64, f64, f64)| {
        let far = ((x - a) * (x - a) + (y - b) * (y - b)) / (width * width);
        high / (1.0 + far * far)
    };
    HILLS.iter().map(hill).sum::<f64>() + 0.01 * x
}

/// The road's name, where a cell lies on one.
fn road(column: usize, row: usize) -> Option<&'static str> {
    let bend = (row as f64 - 100.0) / 100.0;
    let middle = 150.0 + 60.0 * bend * bend * bend - 40.0 * bend;
    match () {
        () if row.abs_diff(71) < 2 => Some("asphalt"),
        () if (column as f64 - middle).abs() < 1.5 => Some("concrete"),
        () => None,
    }
}

/// The text of the .obj.
pub fn obj() -> String {
    let mut text = String::from("# a world of 2,000 by 1,500 metres\no world\n");
    for row in 0..=UP {
        for column in 0..=ACROSS {
            let (x, y) = (CELL.0 * column as f64, CELL.1 * row as f64);
            let _ = writeln!(text, "v {:.3} {:.3} {:.3}", FROM.0 + x, FROM.1 + y, height(x, y));
        }
    }
    let corner = |column: usize, row: usize| 1 + column + (ACROSS + 1) * row;
    let mut last = String::new();
    for row in 0..UP {
        for column in 0..ACROSS {
            let of = material(column, row);
            if of != last {
                let _ = writeln!(text, "usemtl {of}");
                last = of;
            }
            let (a, b) = (corner(column, row), corner(column, row + 1));
            let _ = writeln!(text, "f {a} {} {} {b}", a + 1, b + 1);
        }
    }
    text
}

/// A field's ground, rock or sand by its height, or the road across it: `field 40 grass`.
fn material(column: usize, row: usize) -> String {
    let field = column * FIELDS.0 / ACROSS + FIELDS.0 * (row * FIELDS.1 / UP);
    let (x, y) = (CELL.0 * (column as f64 + 0.5), CELL.1 * (row as f64 + 0.5));
    let ground = match height(x, y) {
        high if high < 8.0 => "sand",
        high if high < 60.0 => "grass",
        _ => "rock",
    };
    format!("field {field} {}", road(column, row).unwrap_or(ground))
}

/// A wheel's box about a place on the ground, by a number: 0.7 metres wide and high, as far into the ground as above it.
pub fn wheel(number: u64) -> ([f32; 3], [f32; 3]) {
    let share = |step: u64| {
        let z = (number + step).wrapping_mul(0x9E37_79B9_7F4A_7C15);
        let z = (z ^ (z >> 30)).wrapping_mul(0xBF58_476D_1CE4_E5B9);
        let z = (z ^ (z >> 27)).wrapping_mul(0x94D0_49BB_1331_11EB);
        ((z ^ (z >> 31)) >> 11) as f64 / (1u64 << 53) as f64
    };
    let (x, y) = (share(0) * CELL.0 * ACROSS as f64, share(1 << 32) * CELL.1 * UP as f64);
    let at = [FROM.0 + x, FROM.1 + y, height(x, y)];
    (at.map(|c| (c - 0.35) as f32), at.map(|c| (c + 0.35) as f32))
}
