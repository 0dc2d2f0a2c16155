//! Each rule that the tool names is a rule of docs/RULES.md, and the rules of a field are those of the page's tables.

use std::collections::BTreeSet;
use std::path::Path;
use tool::field::mesh::{InPolygon, MeshField};
use tool::field::{Field, InHeader, InRecord, Recorded};
use tool::mesh::{place_of, rules_of, Given, Mesh, MeshFolder};
use tool::rules::Rule;

fn page() -> String {
    let path = Path::new(env!("CARGO_MANIFEST_DIR")).join("../../docs/RULES.md");
    std::fs::read_to_string(path).expect("docs/RULES.md")
}

/// A rule's name: a capital and a number.
fn is_rule(word: &str) -> bool {
    let mut chars = word.chars();
    chars.next().is_some_and(|c| c.is_ascii_uppercase())
        && chars.clone().count() > 0
        && chars.all(|c| c.is_ascii_digit())
}

fn rules_in(text: &str) -> BTreeSet<String> {
    text.split(|c: char| !c.is_ascii_alphanumeric()).filter(|word| is_rule(word)).map(String::from).collect()
}

/// The first cells of the tables: where a rule is said.
fn said(page: &str) -> BTreeSet<String> {
    let cell = |line: &str| line.strip_prefix('|')?.split('|').next().map(rules_in);
    page.lines().filter_map(cell).flatten().collect()
}

#[test]
fn every_rule_named_is_on_the_page() {
    let said = said(&page());
    assert!(said.len() > 90, "{said:?}");
    for rule in Rule::ALL {
        assert!(said.contains(rule.name()), "{rule} is not on the page");
    }
}

/// A row of a table of fields: ranges of bytes, and the rules of the last cell.
type Row = (Vec<(usize, usize)>, BTreeSet<String>);

/// The rows of a table of fields.
fn rows(page: &str, heading: &str) -> Vec<Row> {
    let from = page.find(heading).expect("the table");
    let table = page[from..].lines().skip_while(|line| !line.starts_with('|')).take_while(|line| line.starts_with('|'));
    let row = |line: &str| {
        let cells: Vec<&str> = line.trim_matches('|').split('|').collect();
        let range = |part: &str| {
            let (first, last) = part.trim().split_once('–')?;
            Some((first.parse().ok()?, last.parse().ok()?))
        };
        let ranges: Vec<(usize, usize)> = cells[0].split(',').filter_map(range).collect();
        (!ranges.is_empty()).then(|| (ranges, rules_in(cells[cells.len() - 1])))
    };
    table.filter_map(row).collect()
}

/// Each rule of a field stands in the page's row for its bytes.
fn held_to(heading: &str, fields: Vec<Field>) {
    let rows = rows(&page(), heading);
    assert!(rows.len() >= 3, "{heading}: {rows:?}");
    for field in fields {
        let bytes = field.bytes();
        let covers = |(first, last): &(usize, usize)| *first <= bytes.start && bytes.end <= last + 1;
        let row = rows.iter().find(|(ranges, _)| ranges.iter().any(covers)).expect("a row for the field");
        for rule in field.rules(usize::MAX) {
            assert!(row.1.contains(rule.name()), "{field}: {rule} is not in the row {row:?}");
        }
    }
}

#[test]
fn the_rules_of_a_field_are_the_tables() {
    held_to("### Fields of a node record", InRecord::all().into_iter().map(|f| Field::Node(0, f)).collect());
    held_to("### Fields of a tree record", InRecord::all().into_iter().map(|f| Field::Tree(0, f)).collect());
    held_to("### Fields of the header", InHeader::all().into_iter().map(Field::Header).collect());
}

/// A mesh of every kind of polygon, prepared.
fn kinds(kind: u8) -> MeshFolder {
    let path = Path::new(env!("CARGO_MANIFEST_DIR")).join("tests/inputs/kinds.txt");
    let mesh = Mesh::read(&path.to_string_lossy(), Given { kind: Some(kind), ..Given::default() }).expect("a mesh");
    MeshFolder::prepare("kinds", mesh).expect("it can be prepared")
}

/// What the polygons' table says of a polygon's bytes holds of each field's rules that are of records.
#[test]
fn the_rules_of_a_polygons_record_are_the_tables() {
    let rows = rows(&page(), "### Fields of a polygon record");
    let mut held = 0;
    for folder in [4, 8].map(kinds) {
        let derived = folder.derived();
        for field in MeshField::all(&derived) {
            let (MeshField::Polygon(_, at), Some(bytes)) = (field, place_of(field, &derived)) else { continue };
            if at == InPolygon::Kind {
                continue; // bits of a byte, which the table says in words
            }
            let covers = |(first, last): &(usize, usize)| *first < bytes.end && bytes.start <= *last;
            let said: BTreeSet<String> =
                rows.iter().filter(|(ranges, _)| ranges.iter().any(covers)).flat_map(|row| row.1.clone()).collect();
            let records = field.rules(&derived).iter().filter(|rule| rule.name().starts_with('G'));
            for rule in records {
                assert!(said.contains(rule.name()), "{field}: {rule} is not in the table's rows {said:?}");
                held += 1;
            }
        }
    }
    assert!(held > 100, "{held}");
}

/// Each field of a prepared mesh names a rule of its output's row, in the column of its kind.
#[test]
fn the_rules_of_an_output_are_the_tables() {
    let page = page();
    let from = page.find("| output | kind 4 |").expect("the table of outputs");
    let table: Vec<Vec<&str>> = page[from..]
        .lines()
        .take_while(|line| line.starts_with('|'))
        .map(|line| line.trim_matches('|').split('|').map(str::trim).collect())
        .collect();
    let row = |name: &str, column: usize| -> BTreeSet<String> {
        let row = table.iter().find(|cells| cells[0].starts_with(name)).expect(name);
        let same = row[column] == "the same" || row[column].starts_with("the same,");
        rules_in(if same { row[column - 1] } else { row[column] })
    };
    for (column, kind) in [(1, 4), (2, 8)] {
        let folder = kinds(kind);
        let derived = folder.derived();
        for field in MeshField::all(&derived) {
            let output = match field {
                MeshField::Polygon(..) | MeshField::PolygonBox(..) => "polygon bytes",
                MeshField::MaterialCount | MeshField::Material(_) => "materials",
                MeshField::MaterialIndex(_) => "indices",
                MeshField::Quantum(_) => "quantum",
                MeshField::Vertex(..) | MeshField::VertexFloat(..) => "vertices",
                MeshField::Shrunk(..) | MeshField::ShrunkFloat(..) => "shrunk",
                MeshField::Octant(..) | MeshField::OctantCount(_) => "octants",
                // Given words, or the tree's: the other tables have these.
                MeshField::Box(..) | MeshField::Centre(..) | MeshField::Radius | MeshField::Tree(_) => continue,
            };
            let (said, rules) = (row(output, column), rules_of(field, &derived));
            assert!(rules.iter().any(|rule| said.contains(rule.name())), "kind {kind}, {field}: {rules:?}, {said:?}");
        }
    }
}

/// Texts name rules through the type, so that the test above sees all of them: no string has one written out.
#[test]
fn no_text_names_a_rule_by_itself() {
    let mut folders = vec![Path::new(env!("CARGO_MANIFEST_DIR")).join("src")];
    let mut files = 0;
    while let Some(folder) = folders.pop() {
        for entry in std::fs::read_dir(folder).expect("the sources") {
            let path = entry.expect("an entry").path();
            if path.is_dir() {
                folders.push(path);
                continue;
            }
            files += 1;
            let source = std::fs::read_to_string(&path).expect("a source");
            for line in source.lines().filter(|line| !line.trim_start().starts_with("//")) {
                let strings: String = line.split('"').skip(1).step_by(2).collect::<Vec<_>>().join(" ");
                let outside: String =
                    strings.split('{').map(|part| part.split_once('}').map_or(part, |(_, rest)| rest)).collect();
                let named = rules_in(&outside);
                let known = named.iter().find(|name| Rule::ALL.iter().any(|rule| rule.name() == name.as_str()));
                assert_eq!(known, None, "{}: {line}", path.display());
            }
        }
    }
    assert!(files > 25, "{files} files");
}
