//! Stand-in: page layout is left out; the two readers of vectors are what their names say.

use super::anyhow::Result;
use super::math::{Vec3, Vec4};

pub const SYSTEM_BASE: u64 = 0x5000_0000;
pub const GRAPHICS_BASE: u64 = 0x6000_0000;

pub struct Layout {
    pub offsets: Vec<usize>,
    pub size: usize,
    pub flags: u32,
}

pub fn pack_pages(_sizes: &[usize], _system: bool, _pages: usize) -> Result<Layout> {
    unimplemented!("pages are not laid out here")
}
pub fn rsc7_page_count(_flags: u32) -> usize {
    unimplemented!("pages are not laid out here")
}
pub fn prepare_rsc7(_file: &[u8]) -> Result<(Vec<u8>, Vec<u8>)> {
    unimplemented!("files are not read here")
}
pub fn build_rsc7_with_flags(_version: u32, _sys_flags: u32, _sys: &[u8], _gfx_flags: u32, _gfx: &[u8]) -> Vec<u8> {
    unimplemented!("files are not written here")
}

fn f32_le(b: &[u8], at: usize) -> f32 {
    f32::from_le_bytes(b[at..at + 4].try_into().expect("four bytes"))
}
pub fn vec3_le(b: &[u8], at: usize) -> Vec3 {
    Vec3::new(f32_le(b, at), f32_le(b, at + 4), f32_le(b, at + 8))
}
pub fn vec4_le(b: &[u8], at: usize) -> Vec4 {
    Vec4::new(f32_le(b, at), f32_le(b, at + 4), f32_le(b, at + 8), f32_le(b, at + 12))
}
