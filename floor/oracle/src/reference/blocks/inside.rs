//! Blocks as bytes, and their addresses, which page layout would otherwise give.

use super::{Block, BlockId, Graph, Writer};
use crate::reference::anyhow::Result;

pub fn place(g: &mut Graph, id: BlockId, address: u64) {
    g.positions[id.0 as usize] = address;
}

pub fn bytes_at(g: &Graph, block: &dyn Block, address: u64) -> Result<Vec<u8>> {
    let mut w = Writer::new(address, 0);
    block.write(&mut w, g)?;
    Ok(w.into_inner())
}

pub fn bytes(g: &Graph, id: BlockId) -> Vec<u8> {
    bytes_at(g, &*g.blocks[id.0 as usize], 0).expect("an array of records has no error")
}

/// How many blocks there are.
pub fn count(g: &Graph) -> usize {
    g.blocks.len()
}

/// Only the first so many blocks are kept.
pub fn forget(g: &mut Graph, count: usize) {
    g.blocks.truncate(count);
    g.positions.truncate(count);
}
