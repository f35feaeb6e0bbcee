//! Replays the script on standard input and writes the page of the state that it leads to, by docs/STATUS.md.

use independent::desk::state_after;
use independent::page::page;
use std::io::{self, Read, Write};

fn main() -> io::Result<()> {
    let mut script = Vec::new();
    io::stdin().lock().read_to_end(&mut script)?;
    io::stdout().lock().write_all(page(&state_after(&script)).as_bytes())
}
