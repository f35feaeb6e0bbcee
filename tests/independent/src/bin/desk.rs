//! The replay desk as a program: script on standard input, answers on standard output.

use std::io::{self, BufReader, BufWriter, Write};

fn main() -> io::Result<()> {
    let mut output = BufWriter::new(io::stdout().lock());
    independent::desk::replay(&mut BufReader::new(io::stdin().lock()), &mut output)?;
    output.flush()
}
