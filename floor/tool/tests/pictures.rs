//! Pictures: red is what a query misses and nothing else, materials have their names and keep their colours.

mod common;

use common::command::Folder;

/// What a query misses.
const RED: &str = "#d62728";

fn drawn(folder: &Folder, line: &str) -> String {
    folder.said(&format!("draw {line}"))
}

/// Every colour of a picture.
fn colours(svg: &str) -> Vec<&str> {
    svg.match_indices('#').filter_map(|(at, _)| svg.get(at..at + 7)).filter(|colour| is_colour(colour)).collect()
}

fn is_colour(text: &str) -> bool {
    text.len() == 7 && text[1..].chars().all(|c| c.is_ascii_hexdigit())
}

/// Whether an eye takes it for a red: little green and blue beside much red.
fn is_red(colour: &str) -> bool {
    let part = |at: usize| u32::from_str_radix(&colour[at..at + 2], 16).expect("two digits") as f64;
    let (red, green, blue) = (part(1), part(3), part(5));
    red > 100.0 && green < 0.7 * red && blue < 0.7 * red
}

/// Of the shapes and words that are red, those that are.
fn red(svg: &str) -> Vec<&str> {
    svg.lines().filter(|line| colours(line).iter().any(|colour| is_red(colour))).collect()
}

#[test]
fn red_is_what_a_query_misses_and_nothing_else() {
    let folder = Folder::with_inputs("red");
    folder.run("prepare kinds.txt --out kinds");
    let hole = folder.read_text("terrain.obj");
    folder.write("hole.obj", hole.replacen("v 110.0 -200.0", "v nan -200.0", 1).as_bytes());
    // Where nothing is asked, or all is found: records that differ, are inside out or nowhere are not red.
    for line in [
        "b.bin",
        "a.bin --query 6,0,0 7,1,1",
        "six.txt --threshold 2",
        "kinds",
        "kinds.txt --kind 4",
        "terrain.obj",
        "terrain.obj --query 110,-190,-50 113,-187,50",
        "terrain.obj --kind 4",
        "hole.obj --kind 4",
    ] {
        let svg = drawn(&folder, line);
        assert_eq!(red(&svg), [""; 0], "{line}");
        assert!(colours(&svg).len() > 10, "{line}");
    }
    let missed = drawn(&folder, "b.bin --query 6,0,0 7,1,1");
    let reds = red(&missed);
    assert!(reds.iter().all(|line| colours(line).iter().all(|colour| !is_red(colour) || *colour == RED)));
    let words: Vec<&str> = reds.iter().filter(|line| line.starts_with("<text")).copied().collect();
    assert_eq!(words.len(), 2, "{words:?}");
    assert!(words[0].contains(">1 box MISSED by the query<") && words[1].contains(">leaf 5: box 3, not read, MISSED<"));
    // Its row on three axes, its outline from above, and the legend's patch.
    assert_eq!(reds.len() - words.len(), 5, "{reds:?}");
}

#[test]
fn a_red_is_found_by_its_parts() {
    assert!(["#d62728", "#ff0000", "#a02020", "#e6550d"].iter().all(|colour| is_red(colour)));
    assert!(["#6a3d9a", "#222222", "#f2c879", "#b8985f", "#1f77b4", "#ffffff"].iter().all(|colour| !is_red(colour)));
}

/// The colour of the patch before a legend's words.
fn patch<'a>(svg: &'a str, words: &str) -> &'a str {
    let lines: Vec<&str> = svg.lines().collect();
    let at = lines.iter().position(|line| line.contains(words)).unwrap_or_else(|| panic!("{words}"));
    colours(lines[at - 1])[0]
}

#[test]
fn a_material_has_its_name_and_the_same_colour_in_every_picture() {
    let folder = Folder::with_inputs("materials");
    folder.run("prepare terrain.obj --out eight");
    let four = drawn(&folder, "terrain.obj --kind 4");
    let eight = drawn(&folder, "eight --colour material");
    for words in [">grass, ", ">sand, ", ">rock, "] {
        assert_eq!(patch(&four, words), patch(&eight, words), "{words}");
    }
    let [grass, sand, rock] = [">grass, ", ">sand, ", ">rock, "].map(|words| patch(&four, words));
    assert!(grass != sand && sand != rock && rock != grass);
    assert!(four.lines().any(|line| line.starts_with("<path") && line.contains(grass)), "polygons have it");
    // The same materials, first seen in another order.
    let text = folder.read_text("terrain.obj");
    let turned = text.replace("usemtl grass", "usemtl x").replace("usemtl rock", "usemtl grass");
    folder.write("turned.obj", turned.replace("usemtl x", "usemtl rock").as_bytes());
    assert_eq!(patch(&drawn(&folder, "turned.obj --kind 4"), ">rock, "), rock);
    let ranges = drawn(&folder, "eight");
    assert!(ranges.contains("a colour a range") && ranges.contains(">grass, "), "their names are there all the same");
    let refused = folder.wrong("draw terrain.obj --kind 4 --colour range");
    assert!(refused.contains("has no tree, so no ranges: leave out --colour range"));
}

/// Steps of a stair, as our own text: along x, up z.
const STAIR: [[f32; 3]; 6] =
    [[0.0, 0.0, 0.0], [4.0, 0.0, 0.5], [4.0, 3.0, 0.5], [0.0, 3.0, 0.0], [9.0, 1.0, 2.5], [9.0, 2.5, 3.0]];

fn stair(of: impl Fn([f32; 3]) -> [f32; 3]) -> String {
    let vertices = STAIR.map(|v| format!("vertex {}\n", of(v).map(|x| x.to_string()).join(" ")));
    format!(
        "bounds mesh 1\n{}triangle 0 0 1 2\ntriangle 0 0 2 3\ntriangle 0 1 4 2\ntriangle 0 4 5 2\n",
        vertices.concat()
    )
}

/// The polygons of a picture, which stand where they stand on the paper.
fn shapes(svg: &str) -> Vec<&str> {
    svg.lines().filter(|line| line.starts_with("<path")).collect()
}

#[test]
fn a_space_with_y_up_is_seen_along_y() {
    let folder = Folder::with_inputs("up");
    folder.write("z.txt", stair(|v| v).as_bytes());
    folder.write("y.txt", stair(|[x, y, z]| [x, z, -y]).as_bytes());
    for kind in [4, 8] {
        for axis in ["y", "z"] {
            folder.run(&format!("prepare {axis}.txt --kind {kind} --out {axis}{kind}"));
        }
        let (up_z, up_y) = (drawn(&folder, &format!("z{kind}")), drawn(&folder, &format!("y{kind} --up y")));
        assert!(!shapes(&up_z).is_empty() && shapes(&up_z) == shapes(&up_y), "kind {kind}");
        assert!(shapes(&up_z) != shapes(&drawn(&folder, &format!("y{kind}"))), "kind {kind}, from the side");
        assert!(up_y.contains("from above, y being up: x to the right, z down"));
        assert!(up_z.contains("from above: x to the right, y up"));
    }
    // Of boxes too; the numbers beside the paper are those of z.
    let boxes = drawn(&folder, "a.bin --up y --query 6,0,0 7,1,1");
    assert!(boxes.contains("y being up"));
    assert_eq!(drawn(&folder, "a.bin --up z"), drawn(&folder, "a.bin"));
    assert!(folder.wrong("draw a.bin --up x").contains("--up 'x': expected y or z"));
}
