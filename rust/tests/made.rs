//! `src/` is what `rust/make` writes from the proved source.

use std::process::Command;

#[test]
fn no_made_file_is_stale() {
    let make = concat!(env!("CARGO_MANIFEST_DIR"), "/make");
    let said = Command::new("python3")
        .args([make, "--check"])
        .output()
        .expect("python3");
    let text = String::from_utf8_lossy(&said.stderr);
    assert!(said.status.success(), "{text}");
}
