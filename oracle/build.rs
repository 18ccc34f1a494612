//! Copies the Rust source unchanged, appends one line that declares a child module
//! (which so reaches what is private in the source), and sees that the text that is
//! compiled begins with the file, byte for byte.
//!
//! `ORACLE_SOURCE` may name another source file, and `ORACLE_GUARD` another guard, relative
//! to the repository's root.

use std::path::{Path, PathBuf};
use std::{env, fs};

const SOURCES: &str = "docs/src/rs-matter-dm/src/clusters/app";

fn main() {
    let here = PathBuf::from(env::var("CARGO_MANIFEST_DIR").unwrap());
    let root = here.parent().unwrap().to_path_buf();
    let out = PathBuf::from(env::var("OUT_DIR").unwrap());

    println!("cargo:rerun-if-changed=build.rs");

    let named = |variable: &str, file: PathBuf| {
        println!("cargo:rerun-if-env-changed={variable}");
        match env::var(variable) {
            Ok(name) if !name.is_empty() => root.join(name),
            _ => file,
        }
    };
    let source = named("ORACLE_SOURCE", root.join(SOURCES).join("color_control.rs"));
    let driver = here.join("src/driver.rs");
    let line = format!("#[path = {:?}] pub mod driver;\n", driver.to_str().unwrap());
    copy(&source, &out.join("color_control.rs"), &line);

    // Taken as it is, with nothing appended.
    copy(
        &root.join(SOURCES).join("deferred_persist.rs"),
        &out.join("deferred_persist.rs"),
        "",
    );

    let guard = named("ORACLE_GUARD", here.join("src/guard.rs"));
    copy(&guard, &out.join("guard.rs"), "");
    let path = out.join("guard.rs");
    let line = format!("#[path = {:?}] pub mod guard;\n", path.to_str().unwrap());
    fs::write(out.join("guard_mod.rs"), line).unwrap();

    let mut app = String::new();
    for name in ["color_control", "deferred_persist"] {
        let path = out.join(name).with_extension("rs");
        app += &format!("#[path = {:?}] pub mod {name};\n", path.to_str().unwrap());
    }
    fs::write(out.join("app.rs"), app).unwrap();
}

fn copy(from: &Path, to: &Path, appended: &str) {
    println!("cargo:rerun-if-changed={}", from.display());
    let text = fs::read(from).unwrap_or_else(|e| panic!("{}: {e}", from.display()));
    assert!(
        text.ends_with(b"\n"),
        "{}: no newline at the end",
        from.display()
    );
    let mut whole = text.clone();
    whole.extend_from_slice(appended.as_bytes());
    fs::write(to, &whole).unwrap();

    // What the compiler will read: the file, byte for byte, then at most one line.
    let written = fs::read(to).unwrap();
    assert!(written.starts_with(&fs::read(from).unwrap()));
    assert_eq!(&written[text.len()..], appended.as_bytes());
    assert!(appended.bytes().filter(|&b| b == b'\n').count() <= 1);
}
