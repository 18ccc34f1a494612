//! Links the library, unless its sides are left out: `scripts/built exports_c` and `scripts/built measure` write it.

use std::env;
use std::path::PathBuf;

fn main() {
    if env::var_os("CARGO_FEATURE_ARCHIVE").is_none() {
        return;
    }
    let here = PathBuf::from(env::var("CARGO_MANIFEST_DIR").unwrap());
    let folder = here.join("../target/staticlib");
    println!("cargo:rustc-link-search=native={}", folder.display());
    for name in ["exports", "measure"] {
        let file = folder.join(format!("lib{name}.a"));
        println!("cargo:rerun-if-changed={}", file.display());
        println!("cargo:rustc-link-lib=static={name}");
    }
}
