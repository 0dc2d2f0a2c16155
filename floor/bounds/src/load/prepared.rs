//! All of a prepared mesh, from its folder.

use super::files::{float3, word, Folder};
use super::{mesh_counts, MeshCounts};
use crate::error::Damage;
use crate::prepare::{material, stored_vertices, Prepared, Quantised};
use crate::{Error, Octants, Polygon, Vec3};
use std::path::Path;

/// Bytes of frame.bin: 19 floats.
const FRAME: usize = 76;

impl Prepared {
    /// All that a prepared mesh's folder holds but for its input, as `bounds prepare MESH --out FOLDER` writes it.
    ///
    /// # Errors
    ///
    /// [`Error::Read`] and [`Error::Damage`].
    ///
    /// ```
    /// # use bounds::{BoundMaterial, Error, Prepared, Vec3};
    /// fn below(folder: &str, wheel: Vec3) -> Result<Vec<BoundMaterial>, Error> {
    ///     let prepared = Prepared::load(folder)?;
    ///     let places = prepared.bvh.as_ref().map_or(vec![], |tree| tree.query(wheel, wheel));
    ///     Ok(places.into_iter().filter_map(|place| prepared.material(place)).collect())
    /// }
    /// assert!(matches!(below("no/such/folder", Vec3::ZERO), Err(Error::Read { .. })));
    /// ```
    pub fn load(folder: impl AsRef<Path>) -> Result<Prepared, Error> {
        let folder = Folder(folder.as_ref());
        let counts = mesh_counts(&folder)?;
        let MeshCounts { bound, polygons: p, vertices: v, materials } = counts;
        let plain = match bound {
            4 => true,
            8 => false,
            _ => {
                let found = format!("bound {bound}");
                return Err(folder.damaged(Damage::whole("dump.txt", found, "bound 4 or bound 8").into()));
            }
        };
        let frame = folder.exactly("frame.bin", FRAME, 1, "frame")?;
        let filled = materials.max(4);
        let material_bytes = folder.exactly("materials.bin", 8, filled, "materials, filled up to four")?;
        Ok(Prepared {
            quantum: float3(&frame, 0),
            box_min: float3(&frame, 12),
            box_max: float3(&frame, 24),
            box_center: float3(&frame, 36),
            sphere_center: float3(&frame, 48),
            sphere_radius: f32::from_bits(word(&frame, 60)),
            center_geom: float3(&frame, 64),
            polygons: polygons(&folder, p)?,
            materials: material_bytes.chunks_exact(8).map(material).collect(),
            materials_count: materials,
            polygon_material_indices: indices(&folder, p, filled)?,
            vertices: quantised(&folder, ["vertices.bin", "floats.bin"], v)?,
            vertices_shrunk: (plain && v > 0)
                .then(|| quantised(&folder, ["shrunk.bin", "shrunk_floats.bin"], v))
                .transpose()?,
            octants: plain.then(|| octants(&folder, v)).transpose()?,
            bvh: (!plain && p > 0).then(|| folder.prepared_tree(p)).transpose()?,
        })
    }
}

/// Records that are all of a known kind.
fn polygons(folder: &Folder, count: usize) -> Result<Vec<u8>, Error> {
    let bytes = folder.exactly("polygons.bin", 16, count, "polygons, by dump.txt")?;
    match bytes.chunks_exact(16).position(|record| Polygon::read(record).is_err()) {
        Some(k) => {
            let damage = Damage::at("polygons.bin", 16 * k, format!("kind {}", bytes[16 * k] & 7), "0 to 4");
            Err(folder.damaged(damage.into()))
        }
        None => Ok(bytes),
    }
}

/// Places among the materials.
fn indices(folder: &Folder, count: usize, materials: usize) -> Result<Vec<u8>, Error> {
    let bytes = folder.exactly("indices.bin", 1, count, "polygons, by dump.txt")?;
    match bytes.iter().position(|&index| index as usize >= materials) {
        Some(k) => {
            let expected = format!("one below {materials}, the materials");
            let damage = Damage::at("indices.bin", k, format!("material {}", bytes[k]), expected);
            Err(folder.damaged(damage.into()))
        }
        None => Ok(bytes),
    }
}

fn quantised(folder: &Folder, [stored, floats]: [&str; 2], vertices: usize) -> Result<Quantised, Error> {
    let stored = folder.exactly(stored, 6, vertices, "vertices, by dump.txt")?;
    let floats = folder.exactly(floats, 12, vertices, "vertices, by dump.txt")?;
    let floats: Vec<Vec3> = floats.chunks_exact(12).map(|point| float3(point, 0)).collect();
    Ok(Quantised { stored: stored_vertices(&stored), floats })
}

/// Eight counts, then as many vertices, each below their number.
fn octants(folder: &Folder, vertices: usize) -> Result<Octants, Error> {
    const FILE: &str = "octants.bin";
    const COUNTS: usize = 32;
    let bytes = folder.bytes(FILE)?;
    let found = format!("{} bytes", bytes.len());
    let Some((counts, lists)) = bytes.split_at_checked(COUNTS) else {
        return Err(folder.damaged(Damage::whole(FILE, found, "32 at least: eight counts").into()));
    };
    let counts: [u64; 8] = std::array::from_fn(|k| word(counts, 4 * k) as u64);
    let all: u64 = counts.iter().sum();
    if lists.len() as u64 != 4 * all {
        let expected = format!("{}: {all} vertices by the counts in bytes 0-31", COUNTS as u64 + 4 * all);
        return Err(folder.damaged(Damage::whole(FILE, found, expected).into()));
    }
    let mut numbers = lists.chunks_exact(4).map(|number| word(number, 0));
    if let Some(k) = numbers.clone().position(|number| number as usize >= vertices) {
        let found = format!("vertex {}", word(lists, 4 * k));
        let damage = Damage::at(FILE, COUNTS + 4 * k, found, format!("one below {vertices}, the vertices"));
        return Err(folder.damaged(damage.into()));
    }
    Ok(Octants { items: counts.map(|count| numbers.by_ref().take(count as usize).collect()) })
}
