//! Copies the page once for each slip, and plants it: every edit must find its text exactly once.

#[allow(dead_code)]
#[path = "src/list.rs"]
mod list;

use std::env;
use std::fs;
use std::path::{Path, PathBuf};

fn main() {
    println!("cargo:rerun-if-changed=src/list.rs");
    println!("cargo:rerun-if-changed=../page/src");
    let out = PathBuf::from(env::var_os("OUT_DIR").expect("set by cargo"));
    let mut modules = String::new();
    let mut voices = String::new();
    for (number, slip) in list::SLIPS.iter().enumerate() {
        let folder = out.join(format!("slip_{number}"));
        copy_with(slip, &folder);
        let file = folder.join("lib.rs").display().to_string();
        modules += &format!("#[allow(warnings)]\n#[path = {file:?}]\nmod slip_{number};\n");
        voices += &format!("    &slip_{number}::Page,\n");
    }
    let count = list::SLIPS.len();
    let text = format!("{modules}static VOICES: [&dyn Subject; {count}] = [\n{voices}];\n");
    fs::write(out.join("voices.rs"), text).expect("the build's own folder");
}

/// One copy of the page, with the slip planted.
fn copy_with(slip: &list::Slip, folder: &Path) {
    fs::create_dir_all(folder).expect("the build's own folder");
    for entry in fs::read_dir("../page/src").expect("the page") {
        let path = entry.expect("the page").path();
        let name = path.file_name().expect("a file").to_string_lossy().into_owned();
        let mut text = fs::read_to_string(&path).expect("the page");
        if name == slip.file {
            text = planted(slip, text);
        }
        fs::write(folder.join(name), text).expect("the build's own folder");
    }
}

/// The text with all edits of the slip made.
fn planted(slip: &list::Slip, mut text: String) -> String {
    for (from, to) in slip.edits {
        let times = text.matches(from).count();
        assert!(
            times == 1,
            "slip \"{}\": its text stands {times} times in {}: {from}",
            slip.says,
            slip.file
        );
        text = text.replace(from, to);
    }
    text
}
