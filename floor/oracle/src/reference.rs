//! The reference's modules as they stand in its crate, and stand-ins for what they name and is not here.
//! The sources come from the build script; the files named `inside` are ours and see what a module keeps private.
#![allow(dead_code, unused_imports, clippy::all)]

pub mod anyhow;
pub mod names;
pub mod resource;
pub mod roxmltree;
pub mod xml;

pub mod math {
    include!(concat!(env!("OUT_DIR"), "/math.rs"));
}

pub mod blocks {
    include!(concat!(env!("OUT_DIR"), "/mod.rs"));

    pub mod inside;

    pub mod base {
        include!(concat!(env!("OUT_DIR"), "/base.rs"));
    }
    pub mod xml {
        include!(concat!(env!("OUT_DIR"), "/xml.rs"));
    }
    pub mod bvh {
        include!(concat!(env!("OUT_DIR"), "/bvh.rs"));
        pub mod inside;
    }
    pub mod bounds {
        include!(concat!(env!("OUT_DIR"), "/bounds.rs"));
        pub mod inside;
    }
}

/// The hash of a name: XML only, which is left out.
pub fn rage_joaat(_name: &str) -> u32 {
    unimplemented!("names are not hashed here")
}
