//! Runs a replay desk on a script through pipes and finds the first line in which its output differs from the expected one.

use crate::random::Random;
use std::io::{Read, Write};
use std::process::{Child, Command, Stdio};
use std::sync::mpsc;
use std::thread;
use std::time::{Duration, Instant};

/// How a script is handed to the program.
#[derive(Clone, Copy, Debug, PartialEq, Eq)]
pub enum Delivery {
    /// In one write.
    Whole,
    /// The first bytes one by one, later ones in pieces.
    Bytes,
    /// In pieces of odd sizes.
    Pieces,
}

/// So many bytes go one by one; more would only take longer.
const SINGLE_BYTES: usize = 50_000;
/// The longest piece.
const PIECE_BYTES: usize = 4_099;
/// Output beyond the expected one is read so far and no further.
const SURPLUS_BYTES: usize = 65_536;

impl Delivery {
    fn piece(self, given: usize, left: usize, random: &mut Random) -> usize {
        let piece = match self {
            Delivery::Whole => left,
            Delivery::Bytes if given < SINGLE_BYTES => 1,
            _ => random.between(1, PIECE_BYTES) | 1,
        };
        piece.min(left)
    }

    /// Hands over the script; a program that stops reading shows in its output.
    fn hand_over(self, script: &[u8], to: &mut impl Write) {
        let mut random = Random::new(script.len() as u64);
        let mut given = 0;
        while given < script.len() {
            let piece = self.piece(given, script.len() - given, &mut random);
            if to.write_all(&script[given..given + piece]).is_err() {
                return;
            }
            given += piece;
            thread::yield_now();
        }
    }
}

/// What a program wrote for a script, and what was wrong with how it ended, if anything was.
pub struct Run {
    pub output: Vec<u8>,
    pub complaint: Option<String>,
}

/// Runs a program and its arguments on a script. It is stopped when the time limit is over.
pub fn run(program: &[String], script: &[u8], expected_bytes: usize, delivery: Delivery, limit: Duration) -> Result<Run, String> {
    let deadline = Instant::now() + limit;
    let (name, arguments) = program.split_first().ok_or("no program")?;
    let mut child = Command::new(name)
        .args(arguments)
        .stdin(Stdio::piped())
        .stdout(Stdio::piped())
        .spawn()
        .map_err(|error| format!("{name}: {error}"))?;
    let mut stdin = child.stdin.take().ok_or("no pipe to the program")?;
    let stdout = child.stdout.take().ok_or("no pipe from the program")?;
    let mut output = Vec::new();
    let complaint = thread::scope(|scope| {
        let (done, is_done) = mpsc::channel();
        let output = &mut output;
        scope.spawn(move || {
            delivery.hand_over(script, &mut stdin);
        });
        scope.spawn(move || {
            let result = stdout.take((expected_bytes + SURPLUS_BYTES) as u64).read_to_end(output);
            // Nobody listens any more once the time is over.
            let _ = done.send(result);
        });
        let read = is_done.recv_timeout(limit);
        let ended = end_of(&mut child, deadline);
        match read {
            Ok(Err(error)) => Some(error.to_string()),
            _ => ended,
        }
    });
    Ok(Run { output, complaint })
}

/// Waits for a program until the deadline; a complaint unless it ended well in time.
fn end_of(child: &mut Child, deadline: Instant) -> Option<String> {
    loop {
        match child.try_wait() {
            Err(error) => return Some(error.to_string()),
            Ok(Some(status)) => return (!status.success()).then(|| status.to_string()),
            Ok(None) if Instant::now() < deadline => thread::sleep(Duration::from_millis(1)),
            Ok(None) => {
                let stopped = child.kill().and_then(|()| child.wait());
                return Some(format!("still running at the time limit; stopped: {stopped:?}"));
            }
        }
    }
}

/// The first line in which two outputs differ. An output that ended before it has None there.
#[derive(Clone, Debug, PartialEq, Eq)]
pub struct Difference {
    /// Counted from 1.
    pub line: usize,
    /// The script's line, None if the output goes on after the script's last.
    pub asked: Option<Vec<u8>>,
    pub expected: Option<Vec<u8>>,
    pub got: Option<Vec<u8>>,
    /// So many bytes of the script reach to the end of that line.
    pub script_bytes: usize,
}

/// Lines are compared with their newlines.
pub fn first_difference(script: &[u8], expected: &[u8], got: &[u8]) -> Option<Difference> {
    fn lines(bytes: &[u8]) -> impl Iterator<Item = &[u8]> {
        bytes.split_inclusive(|&byte| byte == b'\n')
    }
    let (mut asked, mut expected, mut got) = (lines(script), lines(expected), lines(got));
    let mut script_bytes = 0;
    for line in 1.. {
        let (asked, expected, got) = (asked.next(), expected.next(), got.next());
        script_bytes += asked.map_or(0, <[u8]>::len);
        if expected != got {
            let owned = |bytes: Option<&[u8]>| bytes.map(<[u8]>::to_vec);
            return Some(Difference { line, asked: owned(asked), expected: owned(expected), got: owned(got), script_bytes });
        }
        if expected.is_none() {
            break;
        }
    }
    None
}

impl Difference {
    pub fn describe(&self) -> String {
        format!(
            "line {}\n  script    {}\n  expected  {}\n  got       {}",
            self.line,
            shown(&self.asked),
            shown(&self.expected),
            shown(&self.got)
        )
    }
}

/// A line in a form that can be printed, a long one cut.
fn shown(line: &Option<Vec<u8>>) -> String {
    const SHOWN_BYTES: usize = 200;
    match line {
        None => "(nothing)".to_string(),
        Some(line) if line.len() > SHOWN_BYTES => format!("{}... ({} bytes)", line[..SHOWN_BYTES].escape_ascii(), line.len()),
        Some(line) => line.escape_ascii().to_string(),
    }
}

#[cfg(test)]
mod tests {
    use super::*;

    fn difference(script: &str, expected: &str, got: &str) -> Option<(usize, usize)> {
        let found = first_difference(script.as_bytes(), expected.as_bytes(), got.as_bytes())?;
        Some((found.line, found.script_bytes))
    }

    #[test]
    fn differences() {
        assert_eq!(difference("", "", ""), None);
        assert_eq!(difference("tick\ntick\n", "0 0 0\n0 0 0\n", "0 0 0\n0 0 0\n"), None);
        assert_eq!(difference("tick\ntick\n", "0 0 0\n0 0 0\n", "0 0 0\n0 0 1\n"), Some((2, 10)));
        assert_eq!(difference("tick\ntick", "0 0 0\n0 0 0\n", "0 0 0\n0 0 0"), Some((2, 9)));
        assert_eq!(difference("tick\ntick\n", "0 0 0\n0 0 0\n", "0 0 0\n"), Some((2, 10)));
        assert_eq!(difference("tick\n", "0 0 0\n", "0 0 0\n0 0 0\n"), Some((2, 5)));
        assert_eq!(difference("tick\ntick\n", "0 0 0\n0 0 0\n", ""), Some((1, 5)));
        assert_eq!(difference("tick\n", "0 0 0\n", "0 0 0 \n"), Some((1, 5)));
    }

    #[test]
    fn deliveries_hand_over_everything() {
        let script = Random::new(3).bytes(SINGLE_BYTES + 30_000);
        for delivery in [Delivery::Whole, Delivery::Bytes, Delivery::Pieces] {
            let mut arrived = Vec::new();
            delivery.hand_over(&script, &mut arrived);
            assert!(arrived == script, "{delivery:?}");
        }
    }
}
