//! `check SCRIPT ORACLE REPLAY` reads a script and the two sides' answers to it, all three
//! from the beginning to the end, compares the answers byte by byte, and counts.

use std::collections::BTreeMap;
use std::fs::File;
use std::io::{BufRead, BufReader};

use oracle_lib::corners::Corners;

type Source = BufReader<File>;

fn open(name: &str) -> Source {
    match File::open(name) {
        Ok(file) => BufReader::with_capacity(1 << 18, file),
        Err(e) => {
            eprintln!("{name}: {e}");
            std::process::exit(2);
        }
    }
}

/// The next line with its newline; empty at the end.
fn next(source: &mut Source, line: &mut Vec<u8>) {
    line.clear();
    if let Err(e) = source.read_until(b'\n', line) {
        eprintln!("{e}");
        std::process::exit(2);
    }
}

fn shown(line: &[u8]) -> String {
    match line.strip_suffix(b"\n") {
        _ if line.is_empty() => "(no answer)".to_string(),
        Some(line) => line.escape_ascii().to_string(),
        None => format!("{} (no newline)", line.escape_ascii()),
    }
}

#[derive(Default)]
struct Counts {
    calls: BTreeMap<String, u64>,
    statuses: BTreeMap<String, u64>,
    notices: BTreeMap<usize, u64>,
    given: BTreeMap<String, u64>,
    passes: BTreeMap<String, u64>,
    lengths: BTreeMap<usize, u64>,
    row_calls: BTreeMap<String, u64>,
    turning: BTreeMap<String, u64>,
    bounds: BTreeMap<String, u64>,
}

fn add(map: &mut BTreeMap<String, u64>, key: &str) {
    match map.get_mut(key) {
        Some(n) => *n += 1,
        None => {
            map.insert(key.to_string(), 1);
        }
    }
}

fn table(title: &str, rows: impl Iterator<Item = (String, u64)>) {
    println!("{title}");
    for (name, n) in rows {
        println!("  {n:>12}  {name}");
    }
}

fn main() {
    let args: Vec<String> = std::env::args().skip(1).collect();
    let [script, oracle, replay] = args.as_slice() else {
        eprintln!("check SCRIPT ORACLE REPLAY");
        std::process::exit(2);
    };
    let (mut script, mut oracle, mut replay) = (open(script), open(oracle), open(replay));
    let (mut call, mut ours, mut theirs) = (Vec::new(), Vec::new(), Vec::new());
    let mut counts = Counts::default();
    let mut corners = Corners::new();
    let (mut line_number, mut compared, mut whole) = (0u64, 0u64, false);
    // What led here: the calls since the last lamp.
    let mut story: Vec<(u64, Vec<u8>)> = Vec::new();
    // Which task was given last, and which runs, as far as the answers tell.
    let (mut last, mut runs) = (String::new(), String::new());
    loop {
        next(&mut script, &mut call);
        if call.is_empty() {
            break;
        }
        line_number += 1;
        let text = call.strip_suffix(b"\n").unwrap_or(&call);
        if text.is_empty() || text[0] == b'#' {
            whole |= text == b"# end";
            continue;
        }
        next(&mut oracle, &mut ours);
        next(&mut replay, &mut theirs);
        let makes = [b"lamp ".as_slice(), b"new ", b"row "];
        if makes.iter().any(|word| text.starts_with(word)) {
            if ours.starts_with(b"ok") {
                story.clear();
            }
        }
        if story.len() == 200 {
            story.remove(1);
        }
        story.push((line_number, text[..text.len().min(300)].to_vec()));
        if ours != theirs || ours.is_empty() || ours.last() != Some(&b'\n') {
            println!("difference at line {line_number} of the script, after {compared} calls");
            for (n, line) in &story {
                println!("  {n}: {}", line.escape_ascii());
            }
            println!("oracle: {}", shown(&ours));
            println!("replay: {}", shown(&theirs));
            std::process::exit(1);
        }
        let answer = std::str::from_utf8(&ours[..ours.len() - 1]).unwrap_or("?");
        if answer == "uncomparable" || answer == "broken" {
            println!("line {line_number} of the script: the oracle says {answer}");
            std::process::exit(1);
        }
        compared += 1;
        let of_row = [b"row".as_slice(), b"at ", b"turning", b"leaf running"];
        if of_row.iter().any(|word| text.starts_with(word)) {
            count_of_row(&mut counts, text, answer);
        } else {
            count(&mut counts, text, answer, &mut last, &mut runs);
            corners.see(text, answer);
        }
    }
    next(&mut oracle, &mut ours);
    next(&mut replay, &mut theirs);
    if !ours.is_empty() || !theirs.is_empty() {
        println!("difference: answers past the end of the script");
        println!("oracle: {}", shown(&ours));
        println!("replay: {}", shown(&theirs));
        std::process::exit(1);
    }

    if !whole {
        println!("the script breaks off: no line `# end`");
        std::process::exit(1);
    }

    table("calls", counts.calls.into_iter());
    table("statuses", counts.statuses.into_iter());
    let notices = counts.notices.iter();
    table("notices", notices.map(|(i, n)| (format!("notice {i}"), *n)));
    let lengths = counts.lengths.iter();
    table(
        "lengths of notice lists",
        lengths.map(|(i, n)| (format!("{i} notices"), *n)),
    );
    table("tasks given", counts.given.into_iter());
    let stepped = !counts.passes.is_empty();
    table("starts and steps", counts.passes.into_iter());
    table("accepted row calls", counts.row_calls.into_iter());
    table("`turning`", counts.turning.into_iter());
    table("new bounds", counts.bounds.into_iter());
    print_corners(&corners, stepped);
    println!("{compared} calls compared, 0 differences");
}

/// The corners that were met, group by group; of a script with steps those that were not, too.
fn print_corners(corners: &Corners, all: bool) {
    let mut last = "";
    let mut missed = 0;
    for (group, name, n) in corners.rows() {
        if *n == 0 {
            missed += 1;
            if !all {
                continue;
            }
        }
        if *group != last {
            println!("corners: {group}");
            last = group;
        }
        println!("  {n:>12}  {name}");
    }
    if all {
        let whole = corners.rows().len();
        println!("{} of {whole} corners met", whole - missed);
    }
}

/// Sixteen bytes in hexadecimal with a first notice and zeros at the end, as no other bytes of a script are likely to be.
fn is_list(bytes: &[u8]) -> bool {
    bytes.len() == 32 && &bytes[..2] != b"00" && &bytes[28..] == b"0000"
}

/// A line of a row: its kind, and how it was answered.
fn count_of_row(counts: &mut Counts, text: &[u8], answer: &str) {
    let text = std::str::from_utf8(text).unwrap_or("?");
    let words: Vec<&str> = text.split(' ').collect();
    let kind = match words.as_slice() {
        _ if answer == "error" => "(unreadable, or too early)".to_string(),
        ["at", _, call, ..] => format!("at .. {call}"),
        ["leaf", leaf, ..] => format!("leaf {leaf}"),
        words => words[0].to_string(),
    };
    let status = match kind.as_str() {
        "turning" | "leaf running" => "numbers alone",
        _ => answer.split(" | ").next().unwrap_or(""),
    };
    let whose = if kind == "rowstep" { "row call " } else { "" };
    if kind == "at .. bounds" {
        count_of_bounds(counts, answer);
    }
    add(&mut counts.calls, &kind);
    add(&mut counts.statuses, &format!("{whose}{status}"));
    if kind == "turning" {
        let many = match answer.split(' ').next().and_then(|n| n.parse().ok()) {
            Some(0u8) => "none runs",
            Some(1) => "1 runs",
            Some(2..=9) => "2 to 9 run",
            Some(10..=30) => "10 to 30 run",
            _ => "31 or 32 run",
        };
        add(&mut counts.turning, many);
    }
    if kind == "rowstep" && status == "ok" {
        let wait = answer.split(" | ").nth(2).unwrap_or("");
        let slice = answer.split(" | ").nth(3).unwrap_or("");
        let reporting = slice.as_bytes().chunks(32).filter(|b| is_list(b)).count();
        let many = match reporting {
            0 => "no place reports",
            1 => "1 place reports",
            2..=9 => "2 to 9 places report",
            10..=30 => "10 to 30 places report",
            _ => "31 or 32 places report",
        };
        add(&mut counts.row_calls, many);
        let end = if wait == "0" {
            "nothing runs on"
        } else {
            "a lamp runs on"
        };
        add(&mut counts.row_calls, end);
    }
}

/// An answer to new bounds: the cause, or whether the mireds moved, and whether a task runs.
fn count_of_bounds(counts: &mut Counts, answer: &str) {
    let parts: Vec<&str> = answer.split(" | ").collect();
    let how = match parts.as_slice() {
        ["ok", _, "-", _, _, running, ..] => format!("the mireds stay, {running}"),
        ["ok", _, _, _, _, running, ..] => format!("the mireds move, {running}"),
        parts => parts.first().unwrap_or(&"").to_string(),
    };
    add(&mut counts.bounds, &how);
}

fn count(counts: &mut Counts, text: &[u8], answer: &str, last: &mut String, runs: &mut String) {
    let text = std::str::from_utf8(text).unwrap_or("?");
    if answer == "error" {
        add(&mut counts.calls, "(unreadable, or too early)");
        add(&mut counts.statuses, "error");
        return;
    }
    let mut words = text.split(' ');
    let first = words.next().unwrap_or("");
    let second = words.next().unwrap_or("");
    let kind = match first {
        "cmd" | "set" | "leaf" | "start" | "record" => &text[..first.len() + 1 + second.len()],
        _ => first,
    };
    add(&mut counts.calls, kind);
    if first == "leaf" {
        add(&mut counts.statuses, "numbers alone");
        return;
    }
    let mut parts = answer.split(" | ");
    let status = parts.next().unwrap_or("");
    add(&mut counts.statuses, status);
    let (_fields, notices) = (parts.next(), parts.next().unwrap_or("-"));
    let (given, _wait) = (parts.next().unwrap_or("-"), parts.next());
    let running = parts.next().unwrap_or("") == "running";
    let mut length = 0;
    if notices != "-" {
        for notice in notices.split(' ') {
            *counts
                .notices
                .entry(notice.parse().unwrap_or(999))
                .or_default() += 1;
            length += 1;
        }
    }
    *counts.lengths.entry(length).or_default() += 1;
    if given != "-" {
        *last = given.split(' ').next().unwrap_or("").to_string();
        add(&mut counts.given, last);
    }
    if first == "bounds" {
        count_of_bounds(counts, answer);
    }
    if status != "ok" {
        return;
    }
    match first {
        "lamp" | "new" => runs.clear(),
        "record" => *runs = second.to_string(),
        "start" => *runs = second.to_string(),
        "startlast" => runs.clone_from(last),
        _ => {}
    }
    if matches!(first, "start" | "startlast" | "step") {
        let start = if first == "step" { "step" } else { "start" };
        let end = if running { "goes on" } else { "done" };
        add(&mut counts.passes, &format!("{start} of {runs}, {end}"));
    }
}
