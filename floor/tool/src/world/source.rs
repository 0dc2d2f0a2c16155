//! What a file says of a mesh, before it is made one: materials can still be merged, and numbers may be of any size.

use super::merge::{Merge, Merged};
use super::World;
use crate::boxes::read_world;
use crate::failure::Failure;
use crate::mesh::obj::{self, Soup};
use crate::mesh::{form, text, Form, Given, Mesh};

/// A file's mesh in either form.
pub enum Source {
    Obj(Soup),
    Text(Box<Mesh>),
}

impl Source {
    /// What a file says, or standard input for `-`, and what merging its materials came to.
    pub fn read(path: &str, merge: Option<&Merge>) -> Result<(Source, Option<Merged>), Failure> {
        Source::of_bytes(path, &read_world(path)?, merge)
    }

    /// What a file's bytes say.
    pub fn of_bytes(path: &str, bytes: &[u8], merge: Option<&Merge>) -> Result<(Source, Option<Merged>), Failure> {
        let mut source = match form(path, bytes).unwrap_or(Form::Text) {
            Form::Obj => Source::Obj(obj::read(path, bytes)?),
            Form::Text => Source::Text(Box::new(text::mesh(path, bytes)?)),
        };
        let merged = merge.map(|merge| match &mut source {
            Source::Obj(soup) => merge.soup(soup),
            Source::Text(mesh) => merge.mesh(mesh),
        });
        Ok((source, merged))
    }

    /// One mesh of it.
    pub fn mesh(self, path: &str, given: Given) -> Result<Mesh, Failure> {
        let up = given.up(path, self.form())?;
        let mut mesh = match self {
            Source::Obj(soup) => soup.mesh(path, up),
            Source::Text(mesh) => *mesh,
        };
        mesh.geometry.kind = given.kind.unwrap_or(mesh.geometry.kind);
        mesh.geometry.margin = given.margin.unwrap_or(mesh.geometry.margin);
        Ok(mesh)
    }

    /// A world of it, of any size.
    pub fn world(self, path: &str, given: Given) -> Result<World, Failure> {
        let up = given.up(path, self.form())?;
        let mut world = match self {
            Source::Obj(soup) => World::of_soup(path, soup, up),
            Source::Text(mesh) => World::of_mesh(*mesh),
        };
        world.kind = given.kind.unwrap_or(world.kind);
        world.margin = given.margin.unwrap_or(world.margin);
        Ok(world)
    }

    fn form(&self) -> Form {
        match self {
            Source::Obj(_) => Form::Obj,
            Source::Text(_) => Form::Text,
        }
    }
}
