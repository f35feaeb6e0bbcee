//! Compares a replay desk with the one of this package over random scripts, byte for byte.
//! Prints the first line that differs of each script with a difference, and at the end `N passed, M failed`.

use independent::compare::{first_difference, run, Delivery};
use independent::desk::replayed;
use independent::scripts::script;
use std::path::PathBuf;
use std::process::ExitCode;
use std::sync::atomic::{AtomicU64, Ordering};
use std::thread;
use std::time::Duration;

const USAGE: &str = "usage: compare --replay PROGRAM [ARGS...] --scripts N --lines L --seed-from S [--save DIR] [--pieces] [--seconds LIMIT]
  PROGRAM reads a script on standard input and writes the answers to standard output
  --scripts N      so many scripts, of the seeds S, S + 1, ...
  --lines L        so many lines each, after those that name a slice, and questions between them; a few scripts have more, to
                   drive a count to its limit, to have names return, to fill mailboxes, or to fill the store with pages
  --save DIR       saves the script of a failure there, up to the line that differs
  --pieces         hands some scripts over byte by byte, and some in pieces of odd sizes
  --seconds LIMIT  stops a program that takes longer for one script; 600 if not given";

/// Scripts that run at the same time.
const WORKERS: usize = 2;

struct Options {
    program: Vec<String>,
    scripts: u64,
    lines: u64,
    seed_from: u64,
    save: Option<PathBuf>,
    pieces: bool,
    limit: Duration,
}

/// None if the arguments are not as the usage says.
fn options(arguments: &[String]) -> Option<Options> {
    let (mut program, mut scripts, mut lines, mut seed_from) = (Vec::new(), None, None, None);
    let (mut save, mut pieces, mut seconds) = (None, false, 600);
    let mut left = arguments.iter().peekable();
    while let Some(option) = left.next() {
        let ours = |word: &str| ["--replay", "--scripts", "--lines", "--seed-from", "--save", "--pieces", "--seconds"].contains(&word);
        match option.as_str() {
            "--replay" => {
                while let Some(word) = left.next_if(|word| !ours(word)) {
                    program.push(word.clone());
                }
            }
            "--scripts" => scripts = Some(left.next()?.parse().ok()?),
            "--lines" => lines = Some(left.next()?.parse().ok()?),
            "--seed-from" => seed_from = Some(left.next()?.parse().ok()?),
            "--save" => save = Some(PathBuf::from(left.next()?)),
            "--pieces" => pieces = true,
            "--seconds" => seconds = left.next()?.parse().ok()?,
            _ => return None,
        }
    }
    if program.is_empty() {
        return None;
    }
    let limit = Duration::from_secs(seconds);
    Some(Options { program, scripts: scripts?, lines: lines?, seed_from: seed_from?, save, pieces, limit })
}

fn main() -> ExitCode {
    let arguments: Vec<String> = std::env::args().skip(1).collect();
    let Some(options) = options(&arguments) else {
        eprintln!("{USAGE}");
        return ExitCode::from(2);
    };
    let (next, failed) = (AtomicU64::new(0), AtomicU64::new(0));
    thread::scope(|scope| {
        for _ in 0..WORKERS {
            scope.spawn(|| loop {
                let turn = next.fetch_add(1, Ordering::Relaxed);
                if turn >= options.scripts {
                    return;
                }
                let seed = options.seed_from + turn;
                if let Err(report) = check(&options, seed) {
                    failed.fetch_add(1, Ordering::Relaxed);
                    println!("seed {seed}: {report}");
                }
            });
        }
    });
    let failed = failed.into_inner();
    println!("{} passed, {failed} failed", options.scripts - failed);
    if failed == 0 {
        ExitCode::SUCCESS
    } else {
        ExitCode::FAILURE
    }
}

/// Compares over the script of one seed; an error says what differs.
fn check(options: &Options, seed: u64) -> Result<(), String> {
    let script = script(seed, options.lines);
    let expected = replayed(&script);
    let delivery = match seed % 3 {
        1 if options.pieces => Delivery::Bytes,
        2 if options.pieces => Delivery::Pieces,
        _ => Delivery::Whole,
    };
    let run = run(&options.program, &script, expected.len(), delivery, options.limit)?;
    let difference = first_difference(&script, &expected, &run.output);
    let mut report: Vec<String> = Vec::new();
    report.extend(run.complaint);
    report.extend(difference.as_ref().map(|difference| difference.describe()));
    if report.is_empty() {
        return Ok(());
    }
    if let Some(folder) = &options.save {
        let end = difference.map_or(script.len(), |difference| difference.script_bytes);
        let file = folder.join(format!("seed-{seed}.script"));
        let saved = std::fs::create_dir_all(folder).and_then(|()| std::fs::write(&file, &script[..end]));
        report.push(match saved {
            Ok(()) => format!("saved in {}", file.display()),
            Err(error) => format!("not saved in {}: {error}", file.display()),
        });
    }
    Err(report.join("\n"))
}
