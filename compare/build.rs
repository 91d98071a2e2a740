//! Links the proved libraries, which `test` puts there.

use std::path::Path;

fn main() {
    let root = Path::new(env!("CARGO_MANIFEST_DIR")).parent();
    let folder = root
        .expect("compare/ has a parent")
        .join("target/staticlib");
    println!("cargo:rerun-if-changed=build.rs");
    println!("cargo:rustc-link-search=native={}", folder.display());
    for name in ["capi", "sheet_capi"] {
        let library = folder.join(format!("lib{name}.a"));
        println!("cargo:rerun-if-changed={}", library.display());
        assert!(
            library.exists(),
            "target/staticlib/lib{name}.a is not there: run `./test` first"
        );
        println!("cargo:rustc-link-lib=static={name}");
    }
}
