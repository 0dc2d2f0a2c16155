//! Takes the reference's sources from the folder REFERENCE, edits what cannot stand here and leaves them in OUT_DIR.
//! Each edit must match an exact number of times, so that another version of a source stops the build instead of
//! being compiled into something else. Where the folder is missing, the oracle is built without its answers.

use std::{env, fs, path::Path, process::exit};

struct Edit {
    find: &'static str,
    put: &'static str,
    times: usize,
}

const fn edit(find: &'static str, put: &'static str, times: usize) -> Edit {
    Edit { find, put, times }
}

struct Source {
    path: &'static str,
    edits: &'static [Edit],
}

/// An inner comment may not stand in an included file; the crates and modules that are absent have stand-ins under
/// `crate::reference`.
const SOURCES: [Source; 6] = [
    Source { path: "src/math.rs", edits: &[edit("//!", "//", 5)] },
    Source {
        path: "src/blocks/mod.rs",
        edits: &[
            edit("//!", "//", 8),
            // The modules that are here are declared in reference.rs.
            edit("pub mod base;\n", "", 1),
            edit("pub mod bounds;\n", "", 1),
            edit("pub mod bvh;\n", "", 1),
            edit("pub mod drawable;\n", "", 1),
            edit("pub mod light;\n", "", 1),
            edit("pub mod shader;\n", "", 1),
            edit("pub mod skeleton;\n", "", 1),
            edit("pub mod texture;\n", "", 1),
            edit("pub mod vertex;\n", "", 1),
            edit("pub mod xml;\n", "", 1),
            edit("pub mod ybn;\n", "", 1),
            edit("pub mod ydr;\n", "", 1),
            edit("crate::", "crate::reference::", 4),
            edit("anyhow::", "crate::reference::anyhow::", 3),
        ],
    },
    Source { path: "src/blocks/base.rs", edits: &[] },
    Source {
        path: "src/blocks/xml.rs",
        edits: &[
            edit("//!", "//", 4),
            edit("crate::", "crate::reference::", 4),
            edit("roxmltree::", "crate::reference::roxmltree::", 1),
        ],
    },
    Source {
        path: "src/blocks/bvh.rs",
        edits: &[edit("//!", "//", 6), edit("anyhow::", "crate::reference::anyhow::", 1)],
    },
    Source {
        path: "src/blocks/bounds.rs",
        edits: &[
            edit("//!", "//", 16),
            edit("anyhow::", "crate::reference::anyhow::", 1),
            // Areas are left out: the two calls in `Geometry::prepare`, each known by the line that follows it.
            edit(
                "        self.update_triangle_areas();\n        if !self.keep_derived {\n",
                "        if !self.keep_derived {\n",
                1,
            ),
            edit(
                "            self.update_triangle_areas();\n        }\n\n        // The file holds the vertices on",
                "        }\n\n        // The file holds the vertices on",
                1,
            ),
        ],
    },
];

fn main() {
    println!("cargo::rustc-check-cfg=cfg(reference)");
    println!("cargo::rerun-if-env-changed=REFERENCE");
    let manifest = env::var("CARGO_MANIFEST_DIR").expect("cargo sets it");
    let folder = env::var("REFERENCE").unwrap_or_else(|_| format!("{manifest}/../../../shared/docs/src"));
    let out = env::var("OUT_DIR").expect("cargo sets it");
    for source in &SOURCES {
        println!("cargo::rerun-if-changed={folder}/{}", source.path);
    }
    if let Some(absent) = SOURCES.iter().map(|s| Path::new(&folder).join(s.path)).find(|p| !p.is_file()) {
        let why = format!(
            "the reference is not here: {} is missing. Set REFERENCE to the folder that holds src/math.rs and src/blocks",
            absent.display()
        );
        println!("cargo::warning={why}; the oracle is built without its answers");
        println!("cargo::rustc-env=ORACLE_MISSING={why}");
        return;
    }
    for source in &SOURCES {
        let path = Path::new(&folder).join(source.path);
        let text = fs::read_to_string(&path).unwrap_or_else(|e| stop(&format!("{}: {e}", path.display())));
        let name = path.file_name().expect("a file");
        fs::write(Path::new(&out).join(name), edited(source, text)).unwrap_or_else(|e| stop(&format!("{out}: {e}")));
    }
    println!("cargo::rustc-cfg=reference");
}

fn edited(source: &Source, mut text: String) -> String {
    for e in source.edits {
        let found = text.matches(e.find).count();
        if found != e.times {
            stop(&format!("{}: {:?} stands there {found} times, expected {}", source.path, e.find, e.times));
        }
        text = text.replace(e.find, e.put);
    }
    text
}

fn stop(why: &str) -> ! {
    println!("cargo::error=oracle: {why}");
    exit(1)
}
