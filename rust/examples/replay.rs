//! `cargo run --example replay`: the replay protocol (docs/PROTOCOL.md) over the crate, line by line, for `oracle/compare`.

#[path = "../tests/protocol/mod.rs"]
mod protocol;

use std::io::{self, BufRead, BufWriter, Write};

fn main() -> io::Result<()> {
    let mut player = protocol::Player::default();
    let mut out = BufWriter::new(io::stdout().lock());
    for line in io::stdin().lock().split(b'\n') {
        if let Some(answer) = player.answer(&line?) {
            writeln!(out, "{answer}")?;
        }
    }
    out.flush()
}
