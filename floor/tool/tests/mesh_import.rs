//! How a mesh's file is read: a mark before its text, letters of Latin-1, which axis is up.

mod common;

use common::command::Folder;

/// Vertices of a house, z up, and its faces.
const VERTICES: [[f32; 3]; 6] =
    [[10.5, 4.0, 0.0], [13.0, 4.0, 0.25], [13.0, 8.0, 0.0], [10.5, 8.0, 0.0], [10.5, 6.0, 3.5], [13.0, 6.0, 3.5]];
const FACES: &str = "usemtl wall\nf 1 2 6 5\nf 3 4 5 6\nusemtl gable\nf 4 1 5\nf 2 3 6\n";

/// The house as an .obj, each vertex as `file` has it.
fn house(file: impl Fn([f32; 3]) -> [f32; 3]) -> String {
    let line = |&v: &[f32; 3]| format!("v {}\n", file(v).map(|x| x.to_string()).join(" "));
    VERTICES.iter().map(line).collect::<String>() + FACES
}

/// Every file of two folders that holds bytes has the same ones.
fn same_records(folder: &Folder, a: &str, b: &str) {
    let bytes = |of: &str, name: &str| folder.read(&format!("{of}/{name}"));
    let names = folder.names_in(a);
    assert_eq!(names, folder.names_in(b));
    let records: Vec<&String> = names.iter().filter(|name| name.ends_with(".bin")).collect();
    assert!(records.len() > 6, "{records:?}");
    records.iter().for_each(|name| assert!(bytes(a, name) == bytes(b, name), "{name} of {a} and {b}"));
}

/// Of a file with y up the same records are made as of one with z up, by every command that reads it.
#[test]
fn a_file_with_y_up_is_turned() {
    let folder = Folder::with_inputs("up");
    folder.write("z.obj", house(|v| v).as_bytes());
    folder.write("y.obj", house(|[x, y, z]| [x, z, -y]).as_bytes());
    for kind in ["4", "8"] {
        folder.said(&format!("prepare z.obj --kind {kind} --out z{kind}"));
        folder.said(&format!("prepare y.obj --up y --kind {kind} --out y{kind}"));
        same_records(&folder, &format!("z{kind}"), &format!("y{kind}"));
        let said = folder.said(&format!("diff z{kind} y{kind}"));
        assert!(said.contains("1 of what is up, 12 of vertices); no field differs"), "{said}");
    }
    let said = |line: &str| folder.said(line).replace("y.obj", "z.obj");
    for line in ["query FILE 11,5,0 12,7,1", "prepare FILE", "prepare FILE --json"] {
        let (z, y) = (line.replace("FILE", "z.obj --up z"), line.replace("FILE", "y.obj --up y"));
        assert_eq!(said(&z), said(&y), "{line}");
        assert_ne!(said(&z), said(&line.replace("FILE", "y.obj")), "{line}");
    }
}

#[test]
fn import() {
    let folder = Folder::with_inputs("import");
    let house = house(|v| v);
    folder.write("house.obj", house.as_bytes());
    folder.write("mark.obj", format!("\u{FEFF}{house}").as_bytes());
    folder.write("mark", format!("\u{FEFF}{house}").as_bytes());
    folder.write("boxes.txt", "\u{FEFF}0 0 0 1 1 1\n".as_bytes());
    let latin = house.replace("gable", "Stra\u{DF}e 7 1/2").replace('7', "\u{BD}");
    let latin: Vec<u8> =
        format!("# \u{80}\u{9F}\n{latin}").chars().map(|c| u8::try_from(c).expect("Latin-1")).collect();
    folder.write("latin.obj", &latin);
    folder.write("number.obj", b"v 1 2 \xB2\n");
    folder.write("nul.obj", &[house.as_bytes(), b"# \0\n"].concat());
    folder.write("bell.obj", &[&latin[..], b"# \x07\n"].concat());
    folder.write("wide.obj", &house.encode_utf16().flat_map(u16::to_le_bytes).collect::<Vec<u8>>());
    let marked: Vec<u8> = std::iter::once(0xFEFF).chain(house.encode_utf16()).flat_map(u16::to_be_bytes).collect();
    folder.write("marked.obj", &marked);
    folder.write("latin.txt", b"bounds mesh 1\nmaterial 1 2 # \xE4\nvertex 0 0 0\nsphere 0 0 1\n");
    let lines = [
        "prepare house.obj --out house",
        "prepare mark.obj --out marked",
        "check mark",
        "check boxes.txt",
        "prepare latin.obj --out latin",
        "check latin.obj",
        "check latin.obj --json",
        "check latin.txt",
        "prepare number.obj",
        "prepare nul.obj",
        "prepare bell.obj",
        "prepare wide.obj",
        "prepare marked.obj",
        "prepare house.obj --up x",
        "prepare house/mesh.txt --up y",
        "query house --up y 0,0,0 1,1,1",
        "check six.txt --up y",
        "build six.txt --up y",
    ];
    folder.expect_cut("import.log", &lines);
    same_records(&folder, "house", "marked");
    same_records(&folder, "house", "latin");
    let kept = folder.read_text("latin/mesh.txt");
    assert!(kept.contains("# Stra\u{DF}e \u{BD} 1/2\n"), "{kept}");
}
