//! With the feature `library`, links the project's static library: the archive that an engine links,
//! which `oracle/library` makes and which is for x86-64.

use std::env;
use std::path::PathBuf;

fn main() {
    println!("cargo:rerun-if-changed=build.rs");
    if env::var_os("CARGO_FEATURE_LIBRARY").is_some() {
        link_library();
    }
}

/// Tells cargo where the archive is, or stops the build with one line if it is not there.
fn link_library() {
    if env::var("CARGO_CFG_TARGET_ARCH").expect("set by cargo") != "x86_64" {
        println!(
            "cargo::error=the archive, which the feature `library` links, is for x86-64 alone"
        );
        return;
    }
    let oracle = PathBuf::from(env::var_os("CARGO_MANIFEST_DIR").expect("set by cargo"));
    let root = oracle.parent().expect("the oracle is a folder of the repository");
    let folder = root.join("target/staticlib");
    let archive = folder.join("libbergrosk.a");
    println!("cargo:rerun-if-changed={}", archive.display());
    if !archive.exists() {
        let archive = archive.display();
        println!("cargo::error=there is no {archive}, which the feature `library` links: run oracle/library first");
        return;
    }
    println!("cargo:rustc-link-search=native={}", folder.display());
    println!("cargo:rustc-link-lib=static=bergrosk");
}
