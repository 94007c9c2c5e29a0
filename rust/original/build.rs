//! Finds the original's source file for src/lib.rs to include.

use std::env;
use std::path::{Path, PathBuf};

/// Where the file is, seen from this crate, unless CONL_ORIGINAL gives its path.
const USUAL: &str = "../../../shared/docs/src/src/lib.rs";

fn main() {
    println!("cargo::rerun-if-env-changed=CONL_ORIGINAL");
    let here = PathBuf::from(env::var_os("CARGO_MANIFEST_DIR").expect("cargo runs this script"));
    let path = env::var_os("CONL_ORIGINAL").map_or(USUAL.into(), PathBuf::from);
    let file = here.join(&path);
    println!("cargo::rerun-if-changed={}", path.display());
    if file.is_file() {
        // Seen from src/, so that a copy of the tree looks at its own; a whole path stays what it is.
        let path = Path::new("..").join(path);
        println!("cargo::rustc-env=CONL_ORIGINAL_FILE={}", path.display());
    } else {
        println!(
            "cargo::error=the original's source file {} is missing: set CONL_ORIGINAL to its path",
            file.display()
        );
    }
}
