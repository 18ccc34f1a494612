//! The made files are their sources, word for word, but for what the README lists. Read here a second time and in another
//! way than by `rust/make`: by lines, as `rt fmt` lays them out.

use std::fs;
use std::path::{Path, PathBuf};

const MADE: &str = "// Made by rust/make from ";

/// The lines of a source without its clauses, its ghost items and its attributes for the prover.
fn without_clauses(source: &str) -> Vec<&str> {
    let erased = [
        "requires ",
        "ensures ",
        "ghost ",
        "impl Model for ",
        "#[tactic(",
        "#![tactic(",
        "#[cycle(",
    ];
    let mut depth = 0;
    let mut kept = Vec::new();
    for line in source.lines() {
        let words = line.trim_start();
        if depth > 0 || erased.iter().any(|e| words.starts_with(e)) {
            let of = |marks: [char; 2]| line.matches(marks).count() as i32;
            depth += of(['{', '[']) - of(['}', ']']);
        } else {
            kept.push(line);
        }
    }
    kept
}

/// Words and marks, without space.
fn tokens(text: &str) -> Vec<String> {
    let mut found: Vec<String> = Vec::new();
    let mut in_word = false;
    for c in text.chars() {
        let is_word = c.is_alphanumeric() || c == '_';
        match found.last_mut() {
            Some(last) if is_word && in_word => last.push(c),
            _ if !c.is_whitespace() => found.push(c.to_string()),
            _ => {}
        }
        in_word = is_word;
    }
    found
}

/// The imports of a `use` item, which may have one group at its end.
fn imports_of(item: &str) -> Vec<String> {
    let (visibility, path) = item.trim_end_matches(';').split_once("use ").unwrap();
    let (front, group) = match path.split_once('{') {
        Some((front, group)) => (front, group.trim_end_matches('}')),
        None => ("", path),
    };
    let names = group.split(',').map(str::trim).filter(|n| !n.is_empty());
    names
        .map(|n| format!("{visibility}use {front}{n};"))
        .collect()
}

/// Code in one form for both: no comments, imports apart, paths without the crate, core's sums, no comma at an end.
fn one_form(lines: &[&str], library: &str) -> (Vec<String>, Vec<String>) {
    let own = format!("crate::{library}::");
    let mut text = String::new();
    let mut imports = Vec::new();
    let mut item = String::new();
    for line in lines {
        let code = line.split("//").next().unwrap();
        let code = code.replace(&format!("pub(in crate::{library})"), "pub(crate)");
        let code = code.replace(&own, "").replace("crate::", "");
        if !item.is_empty() || code.starts_with("use ") || code.starts_with("pub use ") {
            item += code.trim();
            if item.ends_with(';') {
                imports.extend(imports_of(&item));
                item.clear();
            }
        } else if !code.starts_with("#[derive(") {
            text += &code;
            text.push('\n');
        }
    }
    for sum in ["wrapping_add", "wrapping_sub"] {
        for number in ["u8", "u16", "u32", "u64", "usize"] {
            for ours in [
                format!("std::num::{sum}_{number}"),
                format!("{sum}_{number}"),
            ] {
                text = text.replace(&ours, &format!("{number}::{sum}"));
            }
        }
    }
    let mut words = tokens(&text);
    let ends = |w: &[String], i: usize| w[i] == "," && w.get(i + 1).is_some_and(|n| n == ")");
    words = (0..words.len())
        .filter(|&i| !ends(&words, i))
        .map(|i| words[i].clone())
        .collect();
    (words, imports)
}

fn made_files(folder: &Path, found: &mut Vec<PathBuf>) {
    for entry in fs::read_dir(folder).unwrap() {
        let path = entry.unwrap().path();
        if path.is_dir() {
            made_files(&path, found);
        } else if fs::read_to_string(&path).unwrap().starts_with(MADE) {
            found.push(path);
        }
    }
}

#[test]
fn made_files_are_their_sources_without_the_contracts() {
    let here = Path::new(env!("CARGO_MANIFEST_DIR"));
    let mut files = Vec::new();
    made_files(&here.join("src"), &mut files);
    assert!(!files.is_empty());
    for file in files {
        let made = fs::read_to_string(&file).unwrap();
        let name = made[MADE.len()..].split(':').next().unwrap();
        let library = name.split('/').nth(1).unwrap();
        let source = fs::read_to_string(here.join("..").join(name)).unwrap();
        let (wanted, all) = one_form(&without_clauses(&source), library);
        let made: Vec<&str> = made.lines().collect();
        let (found, imports) = one_form(&made, library);
        let first = wanted.iter().zip(&found).position(|(a, b)| a != b);
        let around = first.map(|i| &found[i.saturating_sub(10)..found.len().min(i + 10)]);
        assert_eq!((around, found.len()), (None, wanted.len()), "{name}");
        assert!(imports.iter().all(|i| all.contains(i)), "{name}: imports");
        let mut passed_on = all.iter().filter(|i| i.starts_with("pub"));
        assert!(passed_on.all(|i| imports.contains(i)), "{name}: exports");
    }
}
