//! Reads calls on standard input, writes the Rust's answers on standard output.

use std::io::{self, BufRead, BufReader, Write};

use oracle_lib::protocol::Player;

const FULL: usize = 1 << 16;

fn main() -> io::Result<()> {
    match answer() {
        // The reader has gone.
        Err(e) if e.kind() == io::ErrorKind::BrokenPipe => Ok(()),
        result => result,
    }
}

fn answer() -> io::Result<()> {
    let mut input = BufReader::with_capacity(1 << 16, io::stdin().lock());
    let mut output = io::stdout().lock();
    let mut player = Player::new();
    let mut line = Vec::new();
    let mut answers = Vec::with_capacity(FULL + 4096);
    loop {
        line.clear();
        if input.read_until(b'\n', &mut line)? == 0 {
            break;
        }
        if line.last() == Some(&b'\n') {
            line.pop();
        }
        player.line(&line, &mut answers);
        if answers.len() >= FULL {
            output.write_all(&answers)?;
            answers.clear();
        }
    }
    output.write_all(&answers)?;
    output.flush()
}
