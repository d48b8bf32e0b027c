//! Called by the build scripts of `hora` and `hora-as-is`: finds the Rust's files and writes, into
//! the build's own folder, a list of modules that names them where they are. The Rust's text stays
//! outside the repository and is compiled as it stands.
//!
//! One file is handed to the compiler as a copy: `pq_idx.rs` with one module declaration after its
//! last byte, because only a child module can read the private fields of an index.

use std::env;
use std::fs;
use std::path::{Path, PathBuf};

/// The files of `core`, without the order on neighbours.
const CORE: [&str; 6] = ["ann_index", "calc", "kmeans", "metrics", "node", "simd_metrics"];

/// Which order on neighbours a build has.
pub enum Neighbors {
    /// The Rust's own file.
    AsGiven,
    /// The stand-in with document 01's tie rules.
    TieRules,
}

/// Writes `modules.rs` for the crate being built.
pub fn write_modules(neighbors: Neighbors) {
    let source = source();
    let neighbor = match neighbors {
        Neighbors::AsGiven => source.join("core/neighbor.rs"),
        Neighbors::TieRules => oracle().join("hora/src/neighbor.rs"),
    };
    let mut text = String::from("#[allow(warnings)]\npub mod core {\n");
    for name in CORE {
        text += &module(name, watched(&source.join("core").join(name).with_extension("rs")));
    }
    text += &module("neighbor", watched(&neighbor));
    text += "}\n#[allow(warnings)]\npub mod index {\n";
    text += &module("pq_params", watched(&source.join("index/pq_params.rs")));
    text += &module("pq_idx", &with_reach(watched(&source.join("index/pq_idx.rs"))));
    text += "}\n";
    write(&out().join("modules.rs"), text.as_bytes());
}

/// The folder of the Rust's `core` and `index`: under HORA_SRC, else under the shared folder beside
/// the repository. A relative HORA_SRC counts from `oracle/`.
fn source() -> PathBuf {
    println!("cargo:rerun-if-env-changed=HORA_SRC");
    let given = env::var_os("HORA_SRC").unwrap_or_else(|| "../../shared/docs/src".into());
    let root = oracle().join(given);
    let source = root.join("src");
    source.canonicalize().unwrap_or_else(|_| {
        stop(format!(
            "no Rust at {}: set HORA_SRC to the folder that holds its src",
            root.display()
        ))
    })
}

/// Stops the build with one line.
fn stop(words: String) -> ! {
    println!("cargo::error={words}");
    std::process::exit(0)
}

/// The folder `oracle/`, parent of the crate being built.
fn oracle() -> PathBuf {
    let manifest = PathBuf::from(env::var_os("CARGO_MANIFEST_DIR").expect("set by cargo"));
    manifest.parent().expect("a member of the workspace").to_path_buf()
}

/// The build's own folder.
fn out() -> PathBuf {
    PathBuf::from(env::var_os("OUT_DIR").expect("set by cargo"))
}

/// A copy of a file, byte for byte, followed by the declaration of the child module `reach`.
fn with_reach(original: &Path) -> PathBuf {
    let mut bytes = fs::read(original).unwrap_or_else(|e| panic!("{}: {e}", original.display()));
    bytes.push(b'\n');
    bytes.extend(module("reach", watched(&oracle().join("hora/src/reach.rs"))).bytes());
    let copy = out().join("pq_idx.rs");
    write(&copy, &bytes);
    copy
}

/// The declaration of a module whose text is the file at `path`.
fn module(name: &str, path: &Path) -> String {
    format!("#[path = {:?}]\npub mod {name};\n", path.display().to_string())
}

/// A file that decides what is built: if it changes, the build script runs again.
fn watched(path: &Path) -> &Path {
    println!("cargo:rerun-if-changed={}", path.display());
    path
}

/// Writes a file of the build's own folder.
fn write(path: &Path, bytes: &[u8]) {
    fs::write(path, bytes).unwrap_or_else(|e| panic!("{}: {e}", path.display()));
}
