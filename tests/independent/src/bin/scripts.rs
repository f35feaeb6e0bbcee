//! Random scripts: `scripts SEED LINES` writes one; `scripts --coverage LINES SEED...` shows what those of some seeds reach.

use independent::coverage::Coverage;
use independent::scripts::write_script;
use std::io::{self, BufWriter, Write};
use std::process::ExitCode;

fn main() -> ExitCode {
    let arguments: Vec<String> = std::env::args().skip(1).collect();
    let (coverage, numbers) = match arguments.split_first() {
        Some((first, rest)) if first == "--coverage" => (true, rest),
        _ => (false, &arguments[..]),
    };
    let numbers: Option<Vec<u64>> = numbers.iter().map(|number| number.parse().ok()).collect();
    match numbers.as_deref() {
        Some([lines, seeds @ ..]) if coverage && !seeds.is_empty() => show_coverage(*lines, seeds),
        Some([seed, lines]) if !coverage => {
            let mut output = BufWriter::new(io::stdout().lock());
            match write_script(*seed, *lines, &mut output).and_then(|()| output.flush()) {
                Ok(()) => ExitCode::SUCCESS,
                Err(error) => {
                    eprintln!("scripts: {error}");
                    ExitCode::FAILURE
                }
            }
        }
        _ => {
            eprintln!("usage: scripts SEED LINES\n       scripts --coverage LINES SEED...");
            ExitCode::from(2)
        }
    }
}

fn show_coverage(lines: u64, seeds: &[u64]) -> ExitCode {
    let mut all = Coverage::default();
    for &seed in seeds {
        let mut one = Coverage::default();
        one.add(seed, lines);
        println!("seed {seed}, {one}");
        all.add(seed, lines);
    }
    println!("all: {all}");
    for what in all.missing() {
        println!("missing: {what}");
    }
    if all.missing().is_empty() {
        ExitCode::SUCCESS
    } else {
        ExitCode::FAILURE
    }
}
