//! Links the proved library: target/staticlib/libbounds.a and libbounds_prepare.a of the repository, or those in the folder
//! BOUNDS_LIB.

use std::{env, path::Path};

fn main() {
    println!("cargo::rerun-if-env-changed=BOUNDS_LIB");
    let manifest = env::var("CARGO_MANIFEST_DIR").expect("cargo sets it");
    let folder = env::var("BOUNDS_LIB").unwrap_or_else(|_| format!("{manifest}/../../target/staticlib"));
    println!("cargo::rustc-link-search=native={folder}");
    for name in ["bounds", "bounds_prepare"] {
        let archive = Path::new(&folder).join(format!("lib{name}.a"));
        println!("cargo::rerun-if-changed={}", archive.display());
        if !archive.is_file() {
            println!(
                "cargo::error={} is missing: rust/check makes it by `rt lib` in crates/{name}, or set BOUNDS_LIB to the folder that holds it",
                archive.display()
            );
        }
        println!("cargo::rustc-link-lib=static={name}");
    }
}
