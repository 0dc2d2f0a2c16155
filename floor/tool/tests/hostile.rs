//! Meshes as strangers send them: what `check` and `prepare` say of each, in both kinds, as text and as JSON, and by which exit
//! status. The table below says what must be answered, written by hand; tests/common/hostile.rs makes the meshes. The whole log
//! is kept in tests/expected/hostile.log; `BLESS=1 cargo test -p tool --test hostile` keeps a new one.

mod common;

use common::command::{expect, Folder};
use common::hostile::mesh;

/// A mesh, the kind, the verdict, the line that is named, how the check begins, and what else it says. `*` is both kinds, and `-`
/// no line. Verdicts:
///
/// - `within`: nothing stands against it, 0;
/// - `fails` and the reasons, as programs read them: a check has status 1, and it is prepared all the same;
/// - `refused` and the library's number: status 1;
/// - `unusable`: the file or the command line, 2.
const TABLE: &str = "
nan_first.obj  | 8 | fails not_finite premises | 1  | NOT FINITE: vertex 1 (nan_first.obj line 1) has x NaN (7FC00000); 1 of 5 vertices is not finite (F3) | OUTSIDE the premises (P4): polygon 1:
nan_first.obj  | 4 | fails not_finite          | 1  | NOT FINITE: vertex 1 (nan_first.obj line 1) has x NaN (7FC00000); 1 of 5 vertices is not finite (F3) | can be prepared as kind 4 (K4): 6 polygons, 5 vertices; without a tree no premises
nan_last.obj   | 8 | fails not_finite premises | 5  | NOT FINITE: vertex 5 (nan_last.obj line 5) has z NaN (7FC00000); 1 of 5 | OUTSIDE the premises (P4): polygon 2:
nan_last.obj   | 4 | fails not_finite          | 5  | NOT FINITE: vertex 5 (nan_last.obj line 5) has z NaN (7FC00000); 1 of 5
nan_unused.obj | 8 | fails not_finite          | 11 | NOT FINITE: vertex 6 (nan_unused.obj line 11) has y NaN (7FC00000); 1 of 6 | within the premises (P4): 6 polygons, 6 vertices
nan_unused.obj | 4 | fails not_finite          | 11 | NOT FINITE: vertex 6 (nan_unused.obj line 11) has y NaN (7FC00000); 1 of 6
nan_wiped.obj  | 8 | fails not_finite          | 1  | NOT FINITE: vertex 1 (nan_wiped.obj line 1) has x NaN (7FC00000); 1 of 3 | within the premises (P4): 1 polygon, 3 vertices
nan_wiped.obj  | 4 | fails not_finite          | 1  | NOT FINITE: vertex 1 (nan_wiped.obj line 1) has x NaN (7FC00000); 1 of 3
nan_word.obj   | 8 | fails not_finite          | 3  | NOT FINITE: vertex 3 (nan_word.obj line 3) has y NaN (FFA12345); 1 of 5 | within the premises (P4): 6 polygons, 5 vertices
nan_word.obj   | 4 | fails not_finite          | 3  | NOT FINITE: vertex 3 (nan_word.obj line 3) has y NaN (FFA12345); 1 of 5
nan_three.obj  | * | fails not_finite          | 12 | NOT FINITE: vertex 6 (nan_three.obj line 12) has z -inf (FF800000); 3 of 8 vertices are not finite (F3)
inf_1234.obj   | 8 | fails not_finite premises | 1234 | NOT FINITE: vertex 1232 (inf_1234.obj line 1234) has y inf (7F800000); 1 of 1600 vertices is not finite (F3) | OUTSIDE the premises (P4): polygon
inf_1234.obj   | 4 | fails not_finite          | 1234 | NOT FINITE: vertex 1232 (inf_1234.obj line 1234) has y inf (7F800000); 1 of 1600 vertices is not finite (F3)
inf.txt        | 8 | fails not_finite premises | 3  | NOT FINITE: vertex 1 (inf.txt line 3) has y -inf (FF800000); 1 of 3
inf.txt        | 4 | fails not_finite          | 3  | NOT FINITE: vertex 1 (inf.txt line 3) has y -inf (FF800000); 1 of 3
crlf.obj       | * | fails not_finite          | 3  | NOT FINITE: vertex 3 (crlf.obj line 3) has x NaN (7FC00000); 1 of 5
bom.obj        | 8 | fails not_finite premises | 1  | NOT FINITE: vertex 1 (bom.obj line 1) has x inf (7F800000); 1 of 5
bom.obj        | 4 | fails not_finite          | 1  | NOT FINITE: vertex 1 (bom.obj line 1) has x inf (7F800000); 1 of 5
up_y.obj       | 4 | fails not_finite          | 5  | NOT FINITE: vertex 5 (up_y.obj line 5) has z NaN (7FC00000); 1 of 5
latin1.obj     | 8 | within                    | -  | within the premises (P4), every vertex finite: 6 polygons, 5 vertices | NOTE latin1.obj is no UTF-8: it was read as Latin-1
latin1.obj     | 4 | within                    | -  | can be prepared as kind 4 (K4), every vertex finite: 6 polygons, 5 vertices | NOTE latin1.obj is no UTF-8: it was read as Latin-1
far.obj        | 8 | fails not_finite premises | 1  | NOT FINITE: vertex 1 (far.obj line 1), written 3e38,0.0,0.0, has x -inf (FF800000) about the centre (K1); 3 of 3 vertices are not finite (F3)
far.obj        | 4 | fails not_finite          | 1  | NOT FINITE: vertex 1 (far.obj line 1), written 3e38,0.0,0.0, has x -inf (FF800000) about the centre (K1); 3 of 3 vertices are not finite (F3)
nan_centre.txt | 8 | fails not_finite premises | 2  | NOT FINITE: vertex 0 (nan_centre.txt line 2), written 0.0,0.0,0.0, has y NaN (7FC00000) about the centre (K1); 3 of 3
nan_centre.txt | 4 | fails not_finite          | 2  | NOT FINITE: vertex 0 (nan_centre.txt line 2), written 0.0,0.0,0.0, has y NaN (7FC00000) about the centre (K1); 3 of 3
transform.txt  | 8 | fails not_finite premises | 3  | NOT FINITE: vertex 1 (transform.txt line 3), written 1e20,0.0,0.0, stands at x inf (7F800000) by the transform (K1); 1 of 3
transform.txt  | 4 | fails not_finite          | 3  | NOT FINITE: vertex 1 (transform.txt line 3), written 1e20,0.0,0.0, stands at x inf (7F800000) by the transform (K1); 1 of 3
large.obj      | 8 | fails premises            | 6  | OUTSIDE the premises (P4): polygon 0: max x is not finite, or above 2^100 in size (large.obj line 6, by vertex 3 (large.obj line 3), which stands at x 2e30 | 6 polygons, 5 vertices, every vertex finite;
large.obj      | 4 | within                    | -  | can be prepared as kind 4 (K4), every vertex finite: 6 polygons, 5 vertices; without a tree no premises
tiny.obj       | 8 | fails premises            | -  | OUTSIDE the premises (P4): the box around all: its half extent on x is neither 0 nor at least 2^-100 | 1 polygon, 3 vertices, every vertex finite; none breaks them by itself
tiny.obj       | 4 | within                    | -  | can be prepared as kind 4 (K4), every vertex finite:
degenerate.obj | * | within                    | 11 | | 2  degenerate triangles: a corner twice, or the cross product of two sides is 0 in f64 (S2); the first is polygon 6, line 11
doubled.obj    | * | within                    | 11 | | 1  doubled triangle: | ; the first is polygon 6, again polygon 2, line 11 | 3  non-manifold edges:
places.obj     | * | within                    | 14 | | 1  doubled triangle: | ; the first is polygon 6, again polygon 2, line 14 | 3  doubled vertices: | ; the first is vertex 6, again vertex 1, line 11
fin.obj        | * | within                    | 12 | | 1  non-manifold edge: | ; the first is vertices 2 and 4, whose third side is polygon 6's, line 12
past.txt       | * | within                    | 6  | | 1  polygon with a vertex past the vertices, which is zero (G8); the first is polygon 1, line 6
huge.obj       | * | within                    | 182 | | 1  polygon whose box is longer than half the box about all, on some axis (G9); the first is polygon 162, line 182
negative.txt   | 8 | fails premises            | 5  | OUTSIDE the premises (P4): polygon 0: min x is above max x (negative.txt line 5) | 1  polygon with a radius that is negative or not finite (G9); the first is polygon 0, line 5
negative.txt   | 4 | within                    | 5  | | 1  polygon with a radius that is negative or not finite (G9); the first is polygon 0, line 5
nan_radius.txt | 8 | fails premises            | 5  | OUTSIDE the premises (P4): polygon 0: min x is not finite, or above 2^100 in size (nan_radius.txt line 5) | 1  polygon with a radius that is negative or not finite
nan_radius.txt | 4 | within                    | 5  | | 1  polygon with a radius that is negative or not finite (G9); the first is polygon 0, line 5
inside_out.txt | 8 | within                    | -  | within the premises (P4), every vertex finite: 1 polygon, 3 vertices | 0  sides of the given box inside out
inside_out.txt | 4 | within                    | 5  | | 3  sides of the given box inside out or not finite (Q1, S1); the first is along x, line 5
empty.obj      | 8 | within                    | -  | can be prepared as kind 8 (K4), every vertex finite: 0 polygons, 0 vertices; without a tree no premises | 2  empty lists (K4); the first is no polygon and no vertex
empty.obj      | 4 | within                    | -  | can be prepared as kind 4 (K4), every vertex finite: 0 polygons, 0 vertices; without a tree no premises | 2  empty lists (K4); the first is no polygon and no vertex
comments.obj   | * | within                    | -  | | 2  empty lists (K4); the first is no polygon and no vertex
vertices.obj   | * | within                    | -  | | 0 polygons, 5 vertices; without a tree no premises | 1  empty list (K4); the first is no polygon
plate.obj      | 8 | within                    | -  | within the premises (P4), every vertex finite: 2 polygons, 4 vertices
plate.obj      | 4 | within                    | -  | | vertices are shrunk by normals, since no margin is above 1e-6: by 0.04 the other way, outwards where triangles are counter-clockwise from outside (S9)
split.txt      | 8 | within                    | 16 | within the premises (P4), every vertex finite: 8 polygons, 11 vertices | 1  doubled vertex: | ; the first is vertex 10, again vertex 2, line 16
split.txt      | 4 | within                    | 16 | | vertices are shrunk by normals, since none of 16 margins passed: by 0.04 the other way, outwards
cube.obj       | 4 | within                    | -  | | vertices are shrunk by the given margin 0.04 (S7)
thin.obj       | 4 | within                    | -  | | vertices are shrunk by margin 0.005, after 1 halving of 0.01 (S7); 0.25 is given
polygons.txt   | * | refused 1                 | -  | bounds: refused 1: | 32768 polygons, 3 vertices, 0 materials; 1 polygons too many
vertices.txt   | * | refused 1                 | -  | bounds: refused 1: | 0 polygons, 32769 vertices, 0 materials; 1 vertices too many
materials.txt  | * | refused 1                 | -  | bounds: refused 1: | 257 materials; 1 materials too many
materials.obj  | * | refused 1                 | -  | bounds: refused 1: | 257 materials; 1 materials too many
used.obj       | * | refused 8                 | -  | bounds: refused 8: | 256 materials; its polygons use 256, 1 too many
used255.obj    | * | within                    | -  | | 255 polygons, 3 vertices
margin.txt     | 8 | within                    | -  | within the premises (P4), every vertex finite: 1 polygon, 3 vertices
margin.txt     | 4 | refused 7                 | -  | bounds: refused 7: | ; margin inf
past.obj       | * | unusable                  | 11 | bounds: past.obj, line 11: vertex 9 of 5; expected 1 to 5
zero.obj       | * | unusable                  | 11 | bounds: zero.obj, line 11: corner '0'; expected a vertex's number
two.obj        | * | unusable                  | 11 | bounds: two.obj, line 11: 2 numbers behind v; expected three: x y z
above.obj      | * | unusable                  | 3  | bounds: above.obj, line 3: '1e39' is above every f32
noise.obj      | * | unusable                  | 2  | bounds: noise.obj, line 2: 'no'; expected v, f
margin_nan.obj | * | unusable                  | -  | bounds: --margin 'nan': expected a finite number, 0 or more
margin_negative.obj | * | unusable             | -  | bounds: --margin '-0.5': expected a finite number, 0 or more
margin_infinite.obj | * | unusable             | -  | bounds: --margin 'inf': expected a finite number, 0 or more
";

/// What is answered of a mesh.
#[derive(Clone, PartialEq, Debug)]
enum Verdict {
    Within,
    Fails(Vec<&'static str>),
    Refused(u32),
    Unusable,
}

use Verdict::{Fails, Refused, Unusable, Within};

/// A row of the table, of one kind.
struct Case {
    name: &'static str,
    kind: u8,
    verdict: Verdict,
    line: Option<usize>,
    begins: &'static str,
    says: Vec<&'static str>,
}

fn cases() -> Vec<Case> {
    let case = |row: &'static str, kind: u8| {
        let cells: Vec<&str> = row.split('|').map(str::trim).collect();
        let [name, _, verdict, line, begins, ref says @ ..] = cells[..] else { panic!("{row}: five cells") };
        let verdict = match verdict.split(' ').collect::<Vec<_>>()[..] {
            ["within"] => Within,
            ["fails", ref reasons @ ..] => Fails(reasons.to_vec()),
            ["refused", number] => Refused(number.parse().expect("a number")),
            ["unusable"] => Unusable,
            _ => panic!("{row}: no verdict"),
        };
        Case { name, kind, verdict, line: line.parse().ok(), begins, says: says.to_vec() }
    };
    let of = |row: &'static str| match row.split('|').nth(1).map(str::trim) {
        Some("8") => vec![case(row, 8)],
        Some("4") => vec![case(row, 4)],
        _ => vec![case(row, 8), case(row, 4)],
    };
    TABLE.lines().filter(|row| !row.is_empty()).flat_map(of).collect()
}

impl Verdict {
    /// The exit status of a check, and of preparing.
    fn statuses(&self) -> (i32, i32) {
        match self {
            Within => (0, 0),
            Fails(_) => (1, 0),
            Refused(_) => (1, 1),
            Unusable => (2, 2),
        }
    }

    /// What programs read of a check.
    fn json(&self) -> Vec<String> {
        match self {
            Within => vec!["\"within\": true, \"reasons\": []".into(), "\"not_finite\": null".into()],
            Fails(reasons) => vec![format!("\"within\": false, \"reasons\": [\"{}\"]", reasons.join("\", \""))],
            Refused(number) => vec!["\"status\": 1".into(), format!("\"refusal\": {number}")],
            Unusable => vec!["\"status\": 2, \"refusal\": null".into()],
        }
    }
}

/// The folder in which the commands run, and what was not as it should be.
struct Trial {
    folder: Folder,
    faults: Vec<String>,
}

impl Trial {
    /// What a command says, with this status.
    fn said(&mut self, line: &str, status: i32) -> String {
        let output = self.folder.run(line);
        let text = String::from_utf8_lossy(&output.stdout).into_owned() + &String::from_utf8_lossy(&output.stderr);
        self.hold(output.status.code() == Some(status), || format!("`bounds {line}` has no status {status}:\n{text}"));
        text
    }

    fn says(&mut self, line: &str, text: &str, words: &str) {
        self.hold(text.contains(words), || format!("`bounds {line}` does not say '{words}':\n{text}"));
    }

    fn hold(&mut self, holds: bool, fault: impl Fn() -> String) {
        if !holds {
            self.faults.push(fault());
        }
    }

    fn check(&mut self, case: &Case) {
        let (status, line) = (case.verdict.statuses().0, case.command("check", ""));
        let text = self.said(&line, status);
        self.hold(text.starts_with(case.begins), || format!("`bounds {line}` begins otherwise:\n{text}"));
        case.says.iter().for_each(|words| self.says(&line, &text, words));
        let json_line = case.command("check", " --json");
        let json = self.said(&json_line, status);
        case.verdict.json().iter().for_each(|words| self.says(&json_line, &json, words));
        if let (Some(words), Some(line)) = (case.begins.strip_prefix("NOT FINITE: vertex "), case.line) {
            let number: String = words.chars().take_while(char::is_ascii_digit).collect();
            self.says(&json_line, &json, &format!("\"vertex\": {number}, \"line\": {line}, "));
        }
        if let Some(number) = case.line {
            // An error of the file and a polygon that breaks the premises are named within the words.
            let named =
                [format!("line {number}: "), format!("{} line {number}", case.name), format!("\"line\": {number}")];
            self.says(&line, &text, &format!("line {number}"));
            let found = named.iter().any(|words| json.contains(words));
            self.hold(found, || format!("`bounds {json_line}` does not name line {number}:\n{json}"));
        }
    }

    fn prepare(&mut self, case: &Case) {
        let out = format!("{}_{}", case.name, case.kind);
        let (status, line) = (case.verdict.statuses().1, case.command("prepare", &format!(" --out {out}")));
        let text = self.said(&line, status);
        let written = self.folder.names().contains(&out);
        self.hold(written == (status == 0), || format!("`bounds {line}` writes a folder, or nothing"));
        let json_line = case.command("prepare", " --json");
        let json = self.said(&json_line, status);
        match case.begins.strip_prefix("NOT FINITE: ") {
            Some(words) => {
                self.says(&line, &text, &format!("\nNOT FINITE {words}"));
                self.says(&json_line, &json, "\"not_finite\": {\"count\": ");
            }
            None => {
                let found = text.contains("NOT FINITE") || json.contains("\"not_finite\": {");
                self.hold(!found, || format!("`bounds {line}` says that a vertex is not finite:\n{text}"));
            }
        }
        if let Some(how) = case.says.iter().find_map(|words| words.strip_prefix("vertices are shrunk ")) {
            self.says(&line, &text, &format!(" vertices moved: {how}"));
            let by = if how.starts_with("by normals") { "normals" } else { "margin" };
            self.says(&json_line, &json, &format!("\"shrunk_by\": {{\"by\": \"{by}\""));
        }
    }
}

impl Case {
    /// A command line over the mesh.
    fn command(&self, command: &str, more: &str) -> String {
        format!("{command} {}{} --kind {}{more}", self.name, mesh(self.name).1, self.kind)
    }
}

#[test]
fn meshes_of_strangers() {
    let mut trial = Trial { folder: Folder::with_inputs("hostile"), faults: Vec::new() };
    let cases = cases();
    let mut log = String::new();
    for case in &cases {
        trial.folder.write(case.name, &mesh(case.name).0);
        trial.check(case);
        trial.prepare(case);
        log += &trial.folder.log(&case.command("check", ""));
        log += &trial.folder.log(&case.command("prepare", &format!(" --out {}_{}_again", case.name, case.kind)));
    }
    assert!(trial.faults.is_empty(), "{}", trial.faults.join("\n"));
    let mut names: Vec<&str> = cases.iter().map(|case| case.name).collect();
    names.dedup();
    assert!(names.len() >= 40, "{} meshes", names.len());
    expect("hostile.log", &log);
}
