//! Stand-in, not part of audiofp: writes `index.rs` once more, with what
//! `src/matching/content.rs` adds to it. Private fields can be reached from
//! the file alone that they stand in, and that file is to stay unchanged.

use std::{env, fs, path::Path};

fn main() {
    println!("cargo:rerun-if-changed=build.rs");
    let read = |name: &str| {
        let path = Path::new("src/matching").join(name);
        println!("cargo:rerun-if-changed={}", path.display());
        fs::read_to_string(&path).unwrap_or_else(|e| panic!("{}: {e}", path.display()))
    };
    let mut text = String::new();
    for line in read("index.rs").lines().chain(read("content.rs").lines()) {
        // A file that is included may have no documentation of its own.
        match line.strip_prefix("//!") {
            Some(rest) => text.push_str(&format!("//{rest}\n")),
            None => text.push_str(&format!("{line}\n")),
        }
    }
    let folder = env::var_os("OUT_DIR").expect("cargo sets OUT_DIR");
    fs::write(Path::new(&folder).join("index.rs"), text).expect("OUT_DIR takes a file");
}
