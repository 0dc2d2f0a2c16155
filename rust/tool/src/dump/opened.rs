//! Whatever a command is given: a folder of either kind, or a file of boxes or with a mesh.

use super::{kind_of, Dump, Kind, Loading};
use crate::boxes::{read_file, Boxes};
use crate::failure::Failure;
use crate::mesh::{form, Given, Mesh, MeshFolder};
use std::path::Path;

/// A dump of boxes or a prepared mesh.
pub enum Opened {
    Boxes(Box<Dump>),
    Mesh(Box<MeshFolder>),
}

impl Opened {
    /// A folder is read; boxes are built and a mesh is prepared.
    pub fn load(path: &str, loading: Loading) -> Result<Opened, Failure> {
        if Path::new(path).is_dir() {
            return Opened::folder(path, loading);
        }
        let bytes = read_file(path)?;
        if loading.form.is_none() && form(path, &bytes).is_some() {
            if loading.threshold.is_some() {
                return Err(Failure::Usage(format!("{path} is a mesh, whose leaves hold four: leave out --threshold")));
            }
            let mesh = Mesh::of_bytes(path, &bytes, loading.mesh)?;
            return Ok(Opened::Mesh(Box::new(MeshFolder::prepare(path, mesh)?)));
        }
        if loading.mesh != Given::default() {
            return Err(Failure::Usage(format!("{path} is no mesh: leave out --kind and --margin")));
        }
        let boxes = Boxes::of_bytes(path, &bytes, loading.form)?;
        Ok(Opened::Boxes(Box::new(Dump::build(path, boxes, loading.threshold.unwrap_or(1))?.0)))
    }

    fn folder(path: &str, loading: Loading) -> Result<Opened, Failure> {
        let extra = loading.threshold.is_some() || loading.form.is_some();
        match kind_of(path) {
            Some(Kind::Mesh) if extra || loading.mesh != Given::default() => {
                let words = format!("{path} is a prepared mesh and has its own kind and margin: leave the options out");
                Err(Failure::Usage(words))
            }
            Some(Kind::Mesh) => Ok(Opened::Mesh(Box::new(MeshFolder::read(path)?))),
            _ if loading.mesh != Given::default() => {
                Err(Failure::Usage(format!("{path} is no mesh: leave out --kind and --margin")))
            }
            _ => Ok(Opened::Boxes(Box::new(Dump::load(path, loading)?))),
        }
    }
}
