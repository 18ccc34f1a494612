//! The gate's sample, which the proved program answers, through the crate: the same line for each call.

mod protocol;

use std::fs;
use std::path::PathBuf;

fn sample(name: &str) -> Vec<u8> {
    let path = PathBuf::from(env!("CARGO_MANIFEST_DIR"))
        .join("../crates/replay")
        .join(name);
    fs::read(&path).unwrap_or_else(|e| panic!("{}: {e}", path.display()))
}

fn lines(text: &[u8]) -> impl Iterator<Item = &[u8]> {
    let text = text.strip_suffix(b"\n").unwrap_or(text);
    text.split(|b| *b == b'\n')
}

#[test]
fn the_crate_answers_the_sample_as_the_proved_program_does() {
    let (calls, answers) = (sample("stdin"), sample("stdout"));
    let mut wanted = lines(&answers);
    let mut player = protocol::Player::default();
    let mut compared = 0;
    for (i, call) in lines(&calls).enumerate() {
        let Some(answer) = player.answer(call) else {
            continue;
        };
        let shown = call[..call.len().min(200)].escape_ascii();
        let wanted = wanted.next().map(|w| w.escape_ascii().to_string());
        assert_eq!(Some(answer), wanted, "line {}: {shown}", i + 1);
        compared += 1;
    }
    assert_eq!(wanted.next(), None, "answers past the end of the calls");
    assert!(compared > 5000, "only {compared} calls");
}
