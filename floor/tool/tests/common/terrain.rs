//! A hilly terrain as an .obj, with three materials: 1,599 vertices and 1,520 faces of four corners, 3,040 triangles. Only sums,
//! products and quotients, so that it is the same on every machine.

/// Cells along x and y, and the metres of each.
const ACROSS: usize = 40;
const UP: usize = 38;
const CELL: f64 = 2.5;

/// Where it begins: far enough from the origin that the vertices have to be put about a centre.
const FROM: (f64, f64) = (100.0, -200.0);

/// Hills and hollows: middle, width and height.
const HILLS: [(f64, f64, f64, f64); 5] = [
    (18.0, 22.0, 14.0, 16.0),
    (71.0, 64.0, 21.0, 24.0),
    (55.0, 12.0, 9.0, -7.0),
    (88.0, 20.0, 12.0, 9.0),
    (22.0, 78.0, 16.0, 11.0),
];

fn height(x: f64, y: f64) -> f64 {
    let hill = |&(a, b, width, high): &(f64, f64, f64, f64)| {
        let far = ((x - a) * (x - a) + (y - b) * (y - b)) / (width * width);
        high / (1.0 + far * far)
    };
    HILLS.iter().map(hill).sum::<f64>() + 0.02 * x
}

/// The text of the .obj.
pub fn obj() -> String {
    let mut text = String::from("# a terrain of 100 by 95 metres\no terrain\n");
    for row in 0..=UP {
        for column in 0..=ACROSS {
            let (x, y) = (CELL * column as f64, CELL * row as f64);
            text += &format!("v {:.1} {:.1} {:.3}\n", FROM.0 + x, FROM.1 + y, height(x, y));
        }
    }
    let corner = |column: usize, row: usize| 1 + column + (ACROSS + 1) * row;
    let mut last = "";
    for row in 0..UP {
        for column in 0..ACROSS {
            let (x, y) = (CELL * (column as f64 + 0.5), CELL * (row as f64 + 0.5));
            let of = match height(x, y) {
                high if high < 1.0 => "sand",
                high if high < 12.0 => "grass",
                _ => "rock",
            };
            if of != last {
                text += &format!("usemtl {of}\n");
                last = of;
            }
            let (a, b) = (corner(column, row), corner(column, row + 1));
            text += &format!("f {a} {} {} {b}\n", a + 1, b + 1);
        }
    }
    text
}
