//! Meshes as strangers send them: not finite, beyond what floats or records hold, degenerate, doubled, empty, badly encoded, or
//! over a limit. Each is made here, so that a person can see what is wrong with it and on which line.

/// A pyramid over a square: vertices on lines 1 to 5, faces on lines 6 to 10.
const PYRAMID: &str =
    "v -1 -1 0\nv 1 -1 0\nv 1 1 0\nv -1 1 0\nv 0 0 1\nf 4 3 2 1\nf 1 2 5\nf 2 3 5\nf 3 4 5\nf 4 1 5\n";

/// Our own text: three vertices on lines 2 to 4.
const THREE: &str = "bounds mesh 1\nvertex 0 0 0\nvertex 4 0 0\nvertex 0 4 1\n";

/// A mesh by its name: the bytes of the file, and the options that go with it.
pub fn mesh(name: &str) -> (Vec<u8>, &'static str) {
    let options = match name {
        "thin.obj" => " --margin 0.25",
        "up_y.obj" => " --up y",
        "margin_nan.obj" => " --margin nan",
        "margin_negative.obj" => " --margin -0.5",
        "margin_infinite.obj" => " --margin inf",
        _ => "",
    };
    let text = match name.ends_with(".obj") {
        true => obj(name),
        false => own(name),
    };
    (text.unwrap_or_else(|| panic!("{name} is not made here")), options)
}

/// The pyramid with more lines behind it, from line 11 on.
fn and(lines: &str) -> String {
    format!("{PYRAMID}{lines}\n")
}

/// A text with another line in the place of one, counted from 1.
fn with(text: &str, line: usize, instead: &str) -> String {
    let other = |(k, said): (usize, &str)| format!("{}\n", if k + 1 == line { instead } else { said });
    text.lines().enumerate().map(other).collect()
}

fn obj(name: &str) -> Option<Vec<u8>> {
    let text = match name {
        "nan_first.obj" => with(PYRAMID, 1, "v nan -1 0"),
        "nan_last.obj" => with(PYRAMID, 5, "v 0 0 nan"),
        "nan_unused.obj" => and("v 0 nan 0"),
        "nan_wiped.obj" => "v nan 0 0\nv 4 0 0\nv 0 4 1\nf 1 2 3\n".into(),
        "nan_word.obj" => with(PYRAMID, 3, "v 1 0xFFA12345 0"),
        "nan_three.obj" => and("# three more\nv 0 0 -inf\nv nan 0 0\nv 0 inf inf"),
        "inf_1234.obj" => with(&field(), 1234, "v 1 inf 0"),
        "crlf.obj" => with(PYRAMID, 3, "v nan 1 0").replace('\n', "\r\n"),
        "bom.obj" => format!("\u{FEFF}{}", with(PYRAMID, 1, "v inf -1 0")),
        "up_y.obj" => with(PYRAMID, 5, "v 0 0 nan"),
        "latin1.obj" => return Some([b"usemtl caf\xE9\n", PYRAMID.as_bytes()].concat()),
        "far.obj" => "v 3e38 0 0\nv 3.2e38 0 0\nv 3e38 1 0\nf 1 2 3\n".into(),
        "large.obj" => with(PYRAMID, 3, "v 2e30 1 0"),
        "tiny.obj" => "v 0 0 0\nv 1e-35 0 0\nv 0 1e-35 0\nf 1 2 3\n".into(),
        "degenerate.obj" => and("f 1 1 2\nv 2 2 0\nf 1 3 6"),
        "doubled.obj" => and("f 5 2 1"),
        "places.obj" => and("v -1 -1 0\nv 1 -1 0\nv 0 0 1\nf 6 7 8"),
        "fin.obj" => and("v 0 0 -1\nf 2 4 6"),
        "huge.obj" => huge(),
        "empty.obj" => String::new(),
        "comments.obj" => "# no mesh\n\n# at all\n".into(),
        "vertices.obj" => PYRAMID.lines().take(5).map(|line| format!("{line}\n")).collect(),
        "plate.obj" => "v 0 0 0\nv 4 0 0\nv 4 4 0\nv 0 4 0\nf 1 2 3 4\n".into(),
        "cube.obj" | "margin_nan.obj" | "margin_negative.obj" | "margin_infinite.obj" => cube(1.0, 1.0),
        "thin.obj" => cube(1.0, 0.01),
        "materials.obj" => materials(257),
        "used.obj" => materials(256),
        "used255.obj" => materials(255),
        "past.obj" => and("f 1 2 9"),
        "zero.obj" => and("f 0 1 2"),
        "two.obj" => and("v 1 2"),
        "above.obj" => with(PYRAMID, 3, "v 1e39 1 0"),
        "noise.obj" => "# a mesh\nno mesh at all\n".into(),
        _ => return None,
    };
    Some(text.into_bytes())
}

/// Our own texts: what they say behind the three vertices, from line 5 on.
fn own(name: &str) -> Option<Vec<u8>> {
    let repeated = |line: &str, n: usize| format!("{line}\n").repeat(n);
    let triangle = "triangle 0 0 1 2\n";
    let lines = match name {
        "inf.txt" | "transform.txt" => "transform 1e30 0 0 0 0 1 0 0 0 0 1 0 0 0 0 1\ntriangle 0 0 1 2\n".into(),
        "nan_centre.txt" => format!("center_geom 0 nan 0\n{triangle}"),
        "past.txt" => format!("{triangle}triangle 0 0 1 7\n"),
        "negative.txt" => "sphere 0 2 -1\n".into(),
        "nan_radius.txt" => "sphere 0 2 nan\n".into(),
        "inside_out.txt" => format!("box_min 5 5 5\nbox_max 0 0 0\n{triangle}"),
        "polygons.txt" => repeated("triangle 0 0 1 2", 32_768),
        "vertices.txt" => repeated("vertex 1 2 3", 32_766),
        "materials.txt" => repeated("material 1 2", 257),
        "margin.txt" => format!("margin inf\nbox_max inf nan nan\n{triangle}"),
        "split.txt" => {
            let path = concat!(env!("CARGO_MANIFEST_DIR"), "/tests/inputs/split.txt");
            return Some(std::fs::read(path).expect("an input"));
        }
        _ => return None,
    };
    let text = format!("{THREE}{lines}");
    Some(match name {
        "inf.txt" => with(&text, 3, "vertex 4 -inf 0").replace("1e30", "1").into_bytes(),
        "transform.txt" => with(&text, 3, "vertex 1e20 0 0").into_bytes(),
        _ => text.into_bytes(),
    })
}

/// Squares between points in rows of `wide`: four corners each, counted from 1.
fn squares(wide: usize) -> String {
    let cells = (0..wide * (wide - 1)).filter(|k| k % wide + 1 < wide);
    cells.map(|k| format!("f {} {} {} {}\n", k + 1, k + 2, k + 2 + wide, k + 1 + wide)).collect()
}

/// A field of 40 by 40 points behind two lines that are no vertices: vertex k stands on line k + 2.
fn field() -> String {
    let height = |x: usize, y: usize| (x * x + 3 * y) % 7;
    let points: String = (0..1600).map(|k| format!("v {} {} {}\n", k % 40, k / 40, height(k % 40, k / 40))).collect();
    format!("# hills\no field\n{points}{}", squares(40))
}

/// A plate of 10 by 10 points, its squares on lines 101 to 181, and on line 182 a triangle from one end to the other.
fn huge() -> String {
    let points: String = (0..100).map(|k| format!("v {} {} 0\n", k % 10, k / 10)).collect();
    format!("{points}{}f 1 10 11\n", squares(10))
}

/// A cube of this half side, or a plate where the height is another; counter-clockwise from outside.
fn cube(half: f32, height: f32) -> String {
    let side = |bit: usize, half: f32| if bit & 1 == 1 { half } else { -half };
    let point = |k: usize| format!("v {} {} {}\n", side(k, half), side(k >> 1, half), side(k >> 2, height));
    let sides = ["1 3 4 2", "5 6 8 7", "1 2 6 5", "3 7 8 4", "1 5 7 3", "2 4 8 6"].map(|side| format!("f {side}\n"));
    (0..8).map(point).collect::<String>() + &sides.concat()
}

/// So many materials, each with a triangle of its own.
fn materials(n: usize) -> String {
    let triangles: String = (0..n).map(|k| format!("usemtl m{k}\nf 1 2 3\n")).collect();
    format!("v 0 0 0\nv 1 0 0\nv 0 1 0\n{triangles}")
}
