//! A sum of the library's archives, which `bounds --version` shows: two commands of one sum have one library.

use std::{env, fs, path::Path};

/// FNV-1a, of 64 bits.
fn sum(bytes: impl Iterator<Item = u8>) -> u64 {
    bytes.fold(0xCBF2_9CE4_8422_2325, |sum, byte| (sum ^ byte as u64).wrapping_mul(0x100_0000_01B3))
}

fn main() {
    let folder = env::var("DEP_BOUNDS_FOLDER").expect("the package bounds says where its archives are");
    let archive = |name: &str| {
        let path = Path::new(&folder).join(name);
        println!("cargo::rerun-if-changed={}", path.display());
        fs::read(path).unwrap_or_default() // one that is missing is told by the package bounds
    };
    let bytes = [archive("libbounds.a"), archive("libbounds_prepare.a")].concat();
    println!("cargo::rustc-env=BOUNDS_SUM={:016X}", sum(bytes.into_iter()));
}
