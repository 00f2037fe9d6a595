//! Links the proved static library, which `rt lib` in crates/drift_c writes to
//! its folder out; DRIFT_LIB names another folder.

use std::env;
use std::path::PathBuf;

fn main() {
    println!("cargo:rerun-if-env-changed=DRIFT_LIB");
    let folder = env::var("DRIFT_LIB")
        .map(PathBuf::from)
        .unwrap_or_else(|_| {
            let here = env::var("CARGO_MANIFEST_DIR").expect("cargo names the folder");
            PathBuf::from(here).join("../../crates/drift_c/out")
        });
    println!("cargo:rustc-link-search=native={}", folder.display());
    println!("cargo:rustc-link-lib=static=drift_c");
    println!("cargo:rerun-if-changed={}/libdrift_c.a", folder.display());
    // The tests compile C against the library.
    println!("cargo:rustc-env=DRIFT_FOLDER={}", folder.display());
}
