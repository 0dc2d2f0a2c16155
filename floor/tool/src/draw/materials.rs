//! The materials of a mesh in a picture: their names, and a colour for each.

use super::COLOURS;
use crate::mesh::Mesh;
use crate::number::counted;
use std::collections::BTreeMap;

/// A material: its name, its colour, and how many polygons have it.
pub struct Material {
    pub name: String,
    pub colour: String,
    pub polygons: usize,
}

/// Materials by their names, in the order of the alphabet; and of each polygon of the input which it has.
pub struct Materials {
    pub all: Vec<Material>,
    pub of: Vec<usize>,
}

impl Materials {
    pub fn new(mesh: &Mesh) -> Materials {
        let polygons = &mesh.geometry.polygons;
        let mut counts: BTreeMap<String, usize> = BTreeMap::new();
        for polygon in polygons {
            *counts.entry(name(mesh, polygon.material() as usize)).or_default() += 1;
        }
        let names: Vec<&str> = counts.keys().map(String::as_str).collect();
        let at = |k: usize| names.binary_search(&name(mesh, k).as_str()).unwrap_or(0);
        let of = polygons.iter().map(|polygon| at(polygon.material() as usize)).collect();
        let colours = colours(&names);
        let each = counts.iter().zip(colours);
        let all = each.map(|((name, &polygons), colour)| Material { name: name.clone(), colour, polygons }).collect();
        Materials { all, of }
    }

    /// What a legend says of them, the most used first.
    pub fn entries(&self) -> Vec<(String, String)> {
        const MOST: usize = 40;
        let mut by_use: Vec<&Material> = self.all.iter().collect();
        by_use.sort_by_key(|material| std::cmp::Reverse(material.polygons));
        let patch = |material: &&Material| (format!("fill=\"{}\"", material.colour), material.words());
        let mut entries: Vec<(String, String)> = by_use.iter().take(MOST).map(patch).collect();
        if by_use.len() > MOST {
            let rest = by_use.len() - MOST;
            entries.push(("fill=\"none\"".into(), format!("and {}", counted(rest, "more material"))));
        }
        entries
    }
}

impl Material {
    /// `grass, 12 polygons`.
    fn words(&self) -> String {
        format!("{}, {}", self.name, counted(self.polygons, "polygon"))
    }
}

/// A material's name, or its number and words where it has none.
fn name(mesh: &Mesh, k: usize) -> String {
    match (mesh.names.get(k), mesh.geometry.materials.get(k)) {
        (Some(name), _) if !name.is_empty() => name.clone(),
        (_, Some(material)) => format!("material {k} ({:#x}, {:#x})", material.data1, material.data2),
        (_, None) => format!("material {k}, not there"),
    }
}

/// A colour for each name, which the name chooses: so a material looks the same in every picture, whatever stands beside it,
/// but where another of the same choice comes before it in the alphabet. Beyond the colours that there are they begin anew,
/// darker.
fn colours(names: &[&str]) -> Vec<String> {
    let wanted = |name: &str| name.bytes().fold(7u32, |sum, byte| sum.wrapping_mul(31).wrapping_add(byte as u32));
    let mut taken = [0u32; COLOURS.len()];
    let mut one = |name: &&str| {
        let least = taken.iter().copied().min().unwrap_or(0);
        let from = wanted(name) as usize % COLOURS.len();
        let free = (0..COLOURS.len()).map(|k| (from + k) % COLOURS.len()).find(|&k| taken[k] == least).unwrap_or(from);
        taken[free] += 1;
        darker(COLOURS[free], least)
    };
    names.iter().map(&mut one).collect()
}

/// A colour `#rrggbb`, a fifth darker each time.
fn darker(colour: &str, times: u32) -> String {
    let part = |at: usize| u32::from_str_radix(&colour[at..at + 2], 16).unwrap_or(0) as f64 * 0.8f64.powi(times as i32);
    format!("#{:02x}{:02x}{:02x}", part(1) as u32, part(3) as u32, part(5) as u32)
}

#[cfg(test)]
mod tests {
    use super::*;

    #[test]
    fn a_name_has_its_colour_whatever_stands_beside_it() {
        let few = colours(&["grass", "rock", "sand"]);
        assert_eq!(few[1], colours(&["rock"])[0], "{few:?}");
        assert_eq!(few[2], colours(&["rock", "sand"])[1], "{few:?}");
    }

    #[test]
    fn colours_differ_as_long_as_there_are_some() {
        let names: Vec<String> = (0..27).map(|k| format!("m{k:02}")).collect();
        let names: Vec<&str> = names.iter().map(String::as_str).collect();
        let mut all = colours(&names);
        assert!(all[..9].iter().all(|colour| COLOURS.contains(&colour.as_str())), "the first nine are the table's");
        all.sort();
        all.dedup();
        assert_eq!(all.len(), 27);
        assert_eq!((darker("#ff8000", 0), darker("#ff8000", 1)), ("#ff8000".into(), "#cc6600".into()));
    }
}
