//! Rules M1, M2 and M4 in words: the list of materials and the polygons' places in it.

use super::{MeshExplainer, Step};
use crate::field::Value;
use crate::number::{counted, some};
use crate::rules::Rule::*;
use bounds::BoundMaterial;

fn words(of: BoundMaterial) -> String {
    Value::Material(of.data1, of.data2).to_string()
}

impl MeshExplainer<'_> {
    pub fn material_count(&self) -> Vec<Step> {
        let materials = &self.trace.materials;
        let polygons = counted(materials.indices.len(), "polygon");
        let listed: Vec<String> = materials.list.iter().map(|&material| words(material)).collect();
        vec![Step::new(&[M1, M2], format!("{polygons} use {}: {}", listed.len(), some(&listed)))]
    }

    pub fn material(&self, k: usize) -> Vec<Step> {
        let materials = &self.trace.materials;
        let Some(&first) = materials.firsts.get(k) else {
            let text = format!(
                "{} used; the list is filled up to four with (0, 0)",
                counted(materials.list.len(), "material")
            );
            return vec![Step::new(&[M4], text)];
        };
        let before = match materials.firsts[..k] {
            [] => "no other appears before it".to_string(),
            ref firsts => format!("before it come those of polygon {}", some(firsts)),
        };
        let text = format!("{before}; this appears first at polygon {first}");
        vec![Step::new(&[M2], text), self.which(first), self.number(first)]
    }

    pub fn material_index(&self, k: usize) -> Vec<Step> {
        let materials = &self.trace.materials;
        let index = materials.indices[k] as usize;
        let text = match materials.firsts[index] {
            first if first == k => format!("it appears here first, as number {index}"),
            first => format!("it appears first at polygon {first}, as number {index}"),
        };
        vec![self.which(k), self.number(k), Step::new(&[M2], text).note(format!("material {index}"))]
    }

    /// The material that a polygon names.
    fn number(&self, k: usize) -> Step {
        let number = self.trace.polygon(k).material() as usize;
        let given = &self.trace.of.materials;
        match given.get(number) {
            Some(&material) => {
                let text = format!("polygon {k} names material {number}: {}", words(material));
                Step::new(&[M1], text).note(self.origin.material(number))
            }
            None => {
                let text =
                    format!("polygon {k} names material {number}, which is not given ({} are): (0, 0)", given.len());
                Step::new(&[M1], text)
            }
        }
    }
}
