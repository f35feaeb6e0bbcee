//! Replays the script on standard input and writes the image of the state that it leads to, by docs/IMAGE.md.

use independent::desk::state_after;
use independent::image::image;
use std::io::{self, Read, Write};

fn main() -> io::Result<()> {
    let mut script = Vec::new();
    io::stdin().lock().read_to_end(&mut script)?;
    io::stdout().lock().write_all(&image(&state_after(&script)))
}
