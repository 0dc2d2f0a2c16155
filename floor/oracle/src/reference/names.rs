//! Stand-in: a table of names, XML only.

pub struct NameTable;

impl NameTable {
    pub fn get(&self, _hash: u32) -> Option<&str> {
        None
    }
}
