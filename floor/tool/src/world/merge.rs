//! Materials that are to be one: by a text that says `OLD = NEW` a line, and by equal names.

use crate::boxes::read_file;
use crate::failure::Failure;
use crate::json::Json;
use crate::mesh::parse::{shown, wrong};
use crate::mesh::{obj::Soup, Mesh};
use crate::number::counted;
use bounds::Polygon;
use std::collections::HashMap;

/// The word that stands for no text: equal names alone.
const NAMES: &str = "names";

/// Which names become which.
#[derive(Clone, Debug, Default)]
pub struct Merge {
    /// The text's file; empty for equal names alone.
    file: String,
    rules: Vec<Rule>,
}

/// A line of the text: a name, or the beginning of one before `*`, and what it becomes.
#[derive(Clone, Debug)]
struct Rule {
    line: usize,
    old: String,
    open: bool,
    new: String,
}

/// What merging came to.
#[derive(Clone, Debug, PartialEq, Eq)]
pub struct Merged {
    /// Materials before and after.
    pub before: usize,
    pub after: usize,
    /// Lines of the text that no material's name met.
    pub unmet: Vec<String>,
}

/// The numbers that materials get: of each its new one, and of each new one the first that it was and its name.
struct Renumbering {
    numbers: Vec<usize>,
    kept: Vec<(usize, String)>,
}

impl Merge {
    /// What `--merge-materials` is given: a file, or `names`.
    pub fn read(word: &str) -> Result<Merge, Failure> {
        match word {
            NAMES => Ok(Merge::default()),
            path => Merge::of_bytes(path, &read_file(path)?),
        }
    }

    fn of_bytes(path: &str, bytes: &[u8]) -> Result<Merge, Failure> {
        let text = String::from_utf8_lossy(bytes);
        let said = |(at, line): (usize, &str)| {
            let said = line.split_once('#').map_or(line, |(said, _)| said).trim();
            (!said.is_empty()).then(|| Rule::of(at + 1, said).map_err(|words| wrong(path, at + 1, words)))
        };
        let rules = text.lines().enumerate().filter_map(said).collect::<Result<_, _>>()?;
        Ok(Merge { file: path.into(), rules })
    }

    /// Merges what an .obj says. Its materials are numbered anew.
    pub fn soup(&self, soup: &mut Soup) -> Merged {
        let names: Vec<&str> = soup.materials.iter().map(|(name, _)| name.as_str()).collect();
        let (Renumbering { numbers, kept }, merged) = self.renumbered(&names);
        soup.triangles.iter_mut().for_each(|triangle| triangle.material = numbers[triangle.material]);
        soup.materials = kept.into_iter().map(|(first, name)| (name, soup.materials[first].1)).collect();
        merged
    }

    /// Merges a mesh of our own text. Each material has the words of the first that it was.
    pub fn mesh(&self, mesh: &mut Mesh) -> Merged {
        let names: Vec<&str> = mesh.names.iter().map(String::as_str).collect();
        let (Renumbering { numbers, kept }, merged) = self.renumbered(&names);
        let materials = &mesh.geometry.materials;
        mesh.geometry.polygons.iter_mut().for_each(|polygon| {
            let old = polygon.material() as usize;
            // One that is not there stays so: the number of materials only falls.
            put_material(polygon, numbers.get(old).map_or(old, |&number| number) as u8);
        });
        mesh.origin.materials = kept.iter().map(|&(first, _)| mesh.origin.materials[first]).collect();
        mesh.geometry.materials = kept.iter().map(|&(first, _)| materials[first]).collect();
        mesh.names = kept.into_iter().map(|(_, name)| name).collect();
        merged
    }

    /// Materials without a name stay apart.
    fn renumbered(&self, names: &[&str]) -> (Renumbering, Merged) {
        let exact: HashMap<&str, usize> = self
            .rules
            .iter()
            .enumerate()
            .rev()
            .filter(|(_, rule)| !rule.open)
            .map(|(k, rule)| (rule.old.as_str(), k))
            .collect();
        let mut met = vec![false; self.rules.len()];
        let mut known: HashMap<String, usize> = HashMap::new();
        let mut kept: Vec<(usize, String)> = Vec::new();
        let mut numbers = Vec::with_capacity(names.len());
        for (first, &name) in names.iter().enumerate() {
            let open = || self.rules.iter().position(|rule| rule.open && name.starts_with(&rule.old));
            let rule = exact.get(name).copied().or_else(open).filter(|_| !name.is_empty());
            rule.into_iter().for_each(|k| met[k] = true);
            let new = rule.map_or(name, |k| &self.rules[k].new).to_string();
            let next = kept.len();
            let number = if new.is_empty() { next } else { *known.entry(new.clone()).or_insert(next) };
            if number == next {
                kept.push((first, new));
            }
            numbers.push(number);
        }
        let unmet =
            self.rules.iter().zip(met).filter(|(_, met)| !met).map(|(rule, _)| rule.words(&self.file)).collect();
        let merged = Merged { before: names.len(), after: kept.len(), unmet };
        (Renumbering { numbers, kept }, merged)
    }
}

impl Rule {
    fn of(line: usize, said: &str) -> Result<Rule, String> {
        let expected = || format!("'{}'; expected OLD = NEW, or BEGINNING* = NEW", shown(said));
        let (old, new) = said.split_once('=').ok_or_else(expected)?;
        let (old, new) = (old.trim(), new.trim());
        if old.is_empty() || new.is_empty() {
            return Err(expected());
        }
        let (old, open) = old.strip_suffix('*').map_or((old, false), |old| (old, true));
        Ok(Rule { line, old: old.into(), open, new: new.into() })
    }

    /// `grass* (map.txt line 4)`.
    fn words(&self, file: &str) -> String {
        format!("{}{} ({file} line {})", shown(&self.old), if self.open { "*" } else { "" }, self.line)
    }
}

impl Merged {
    /// `300 materials became 12`, and what of the text met none.
    pub fn words(&self) -> String {
        let unmet = match &self.unmet[..] {
            [] => String::new(),
            [one] => format!("; no material is named {one}"),
            [first, ..] => format!("; {} name no material, the first {first}", counted(self.unmet.len(), "line")),
        };
        format!("{} became {}{unmet}", counted(self.before, "material"), self.after)
    }

    pub fn json(&self) -> Json {
        let unmet = Json::list(self.unmet.iter().map(String::as_str));
        Json::Object(vec![("before", self.before.into()), ("after", self.after.into()), ("unmet", unmet)])
    }
}

fn put_material(polygon: &mut Polygon, number: u8) {
    match polygon {
        Polygon::Triangle { material, .. }
        | Polygon::Sphere { material, .. }
        | Polygon::Capsule { material, .. }
        | Polygon::Box { material, .. }
        | Polygon::Cylinder { material, .. } => *material = number,
    }
}

#[cfg(test)]
mod tests {
    use super::*;
    use crate::mesh::Given;
    use crate::world::source::Source;

    fn merge(text: &str) -> Merge {
        Merge::of_bytes("map.txt", text.as_bytes()).expect("a map")
    }

    fn merged(path: &str, text: &str, merge: &Merge) -> (Mesh, Merged) {
        let (source, merged) = Source::of_bytes(path, text.as_bytes(), Some(merge)).expect("a mesh");
        (source.mesh(path, Given::default()).expect("a mesh"), merged.expect("merged"))
    }

    const OBJ: &str =
        "v 0 0 0\nv 1 0 0\nv 0 1 0\nusemtl grass.001\nf 1 2 3\nusemtl rock\nf 1 2 3\nusemtl grass.002\nf 1 2 3\n\
                       usemtl stone\nf 1 2 3\n";

    #[test]
    fn a_map_makes_one_of_several() {
        let map = merge("# ours\ngrass* = grass  # all of them\n\nstone = rock\nice = snow\ngrass.002 = meadow\n");
        let (mesh, merged) = merged("a.obj", OBJ, &map);
        assert_eq!(mesh.names, ["grass", "rock", "meadow"]); // a whole name goes before a beginning
        assert_eq!(mesh.geometry.polygons.iter().map(Polygon::material).collect::<Vec<_>>(), [0, 1, 2, 1]);
        assert_eq!(mesh.geometry.materials.iter().map(|m| m.data1).collect::<Vec<_>>(), [1, 2, 3]);
        assert_eq!(mesh.origin.materials, [5, 7, 9]);
        assert_eq!(merged.words(), "4 materials became 3; no material is named ice (map.txt line 5)");
    }

    #[test]
    fn equal_names_are_one_and_none_stays_apart() {
        let text =
            "bounds mesh 1\nmaterial 7 1 # rock\nmaterial 8 2\nmaterial 9 3 # rock\nmaterial 5 5\nvertex 0 0 0\n\
                    sphere 0 0 1\nsphere 1 0 1\nsphere 2 0 1\nsphere 3 0 1\nsphere 200 0 1\n";
        let (mesh, merged) = merged("a.txt", text, &Merge::default());
        assert_eq!(
            (mesh.names, merged.words()),
            (vec!["rock".to_string(), String::new(), String::new()], "4 materials became 3".into())
        );
        assert_eq!(
            mesh.geometry.materials.iter().map(|m| (m.data1, m.data2)).collect::<Vec<_>>(),
            [(7, 1), (8, 2), (5, 5)]
        );
        assert_eq!(mesh.geometry.polygons.iter().map(Polygon::material).collect::<Vec<_>>(), [0, 1, 0, 2, 200]);
        assert_eq!(mesh.origin.materials, [2, 3, 5]);
    }

    #[test]
    fn a_line_that_is_none_is_told() {
        for (text, words) in
            [("a b\n", "line 1: 'a b'; expected OLD = NEW"), ("a = b\n = c\n", "line 2: '= c'"), ("a =", "line 1")]
        {
            let failure = Merge::of_bytes("map.txt", text.as_bytes()).expect_err("no map");
            assert!(failure.to_string().contains(words), "{failure}");
        }
    }
}
