//! `bounds check` of a dump: whether its bytes are what its input gives, and whether that passes.

use super::{mesh, of_boxes, world, One};
use crate::account::account;
use crate::cli::Line;
use crate::dump::Opened;
use crate::failure::Failure;
use crate::json::Json;
use crate::mesh::account as mesh_account;
use crate::world::folder::is_world;

/// Why a dump does not pass whose bytes are another input's, or damaged.
pub const DAMAGED: &str = "bytes that are not what the input gives";

pub fn one(path: &str, line: &Line) -> Result<One, Failure> {
    if line.has("--split") || line.has("--merge-materials") {
        let words =
            format!("{path} is a folder: --split and --merge-materials are for a mesh that is not prepared yet");
        return Err(Failure::Usage(words));
    }
    if is_world(path) {
        return world::folder(path);
    }
    Ok(match Opened::load(path, line.loading()?)? {
        Opened::Boxes(dump) => {
            let warning = account(&dump)?.warning();
            of_boxes(dump.input()?, dump.threshold)?.held_to(warning)
        }
        Opened::Mesh(folder) => {
            let accounted = mesh_account(&folder)?;
            mesh::of(&accounted.rebuilt)?.held_to(accounted.warning())
        }
    })
}

impl One {
    /// A dump with other bytes than its input gives does not pass, whatever its input does.
    pub fn held_to(mut self, warning: Option<String>) -> One {
        let words = match &warning {
            Some(warning) => {
                self.failed = Some(DAMAGED.into());
                format!("DAMAGED: {warning}\n{}", self.text)
            }
            None => format!("{}every byte is what the input gives\n", self.text),
        };
        if let Json::Object(members) = &mut self.json {
            members.push(("damaged", warning.into()));
        }
        One { text: words, ..self }
    }
}
