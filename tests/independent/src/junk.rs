//! Lines that are bad, or nearly: what a desk may meet besides calls. A line made here may by chance be a call after all.

use crate::grammar::{LINE_BYTES, SENT_BYTES};
use crate::random::Random;

const NEAR_WORDS: [&str; 33] = [
    "", " ", "-", "frob", "bad", "listing", "listing 32", "Tick", "TICK", "tic", "ticks", "tick 1", "tick -", "end 0", "yield 0",
    "release 0", "create", "stop", "class", "receive", "read", "send", "signal", "wait", "send 0", "send 0 ", "creat 1", "creates 1",
    "receiv 0", "#", "slice", "slice 3", "slice 256",
];

/// Lines that name no slice, wherever they stand.
const NEAR_SLICES: [&str; 20] = [
    "slice", "slice ", "slice -", "slice 00", "slice 005", "slice -3", "slice +3", "slice 3 3", "slice 3 ", "slice  3", " slice 3",
    "slice\t3", "slice 3\r", "slice 65539", "slice 4294967299", "slice 3a", "Slice 3", "SLICE 3", "slices 3", "slice3",
];

/// Questions that are none.
const NEAR_QUESTIONS: [&str; 20] = [
    "why", "why ", "why -", "why 00", "why 01", "why 031", "why -1", "why +1", "why 1 2", "why 1 ", "why  1", " why 1", "why 65536",
    "why 4294967297", "why 1a", "Why 1", "WHY 1", "wh 1", "whys 1", "why1",
];

/// Settings of mailboxes that are none.
pub const NEAR_MAILBOXES: [&str; 32] = [
    "mailbox", "mailbox ", "mailbox 5", "mailbox 5 3", "mailbox 5 3 ", "mailbox 5 3 1 ", "mailbox 5 3 1 0", "mailbox 5 3 1 1",
    "mailbox  5 3 1", "mailbox 5  3 1", "mailbox 5 3  1", " mailbox 5 3 1", "mailbox\t5 3 1", "mailbox 5\t3 1", "mailbox 5 3 1\r",
    "mailbox 05 3 1", "mailbox 5 03 1", "mailbox 5 3 01", "mailbox 5 3 00", "mailbox 65541 3 1", "mailbox 5 65539 1", "mailbox 5 3 65537",
    "mailbox 5 -3 1", "mailbox 5 +3 1", "mailbox 5 3 -", "mailbox 5 3 drop", "mailbox - - -", "Mailbox 5 3 1", "MAILBOX 5 3 1",
    "mailboxes 5 3 1", "mailbox5 3 1", "mail 5 3 1",
];

/// They wrap to a small number in 8, 16, 32 or 64 bits, or are written in another way than document 01 has them.
const NEAR_NUMBERS: [&str; 24] = [
    "00", "01", "007", "0000", "65536", "65537", "65538", "99999", "100000", "131073", "655350", "4294967296", "4294967297",
    "18446744073709551616", "18446744073709551617", "-1", "-0", "+1", "1.0", "1e1", "0x1", "1a", "a", "١",
];

const NUMBER_WORDS: [&str; 9] = ["create", "stop", "class", "receive", "read", "signal", "wait", "send", "mailbox"];

const NEAR_BYTES: [&str; 14] = ["4", "414", "4G", "g4", "AB", "aB", "--", "-41", "41-", "0x41", "4 1", "41 ", "4:", "4`"];

/// A line without newline that a desk should call bad, or a call with some bytes changed.
pub fn junk_line(random: &mut Random, call: &str) -> Vec<u8> {
    let mut line = match random.below(10) {
        0 => {
            let length = random.below(40);
            random.bytes(length)
        }
        1 => random.pick(&NEAR_WORDS).unwrap_or("").as_bytes().to_vec(),
        2 => bad_number(random).into_bytes(),
        3 => bad_bytes(random).into_bytes(),
        4 => spaced(random, call).into_bytes(),
        5 if random.one_in(4) => long_line(random, call),
        6 => random.pick(&NEAR_MAILBOXES).unwrap_or("mailbox").as_bytes().to_vec(),
        _ => damaged(random, call.as_bytes()),
    };
    line.iter_mut().filter(|byte| **byte == b'\n').for_each(|byte| *byte = b'\r');
    line
}

/// The line of a question, damaged or nearly so.
pub fn junk_question(random: &mut Random, question: &str) -> Vec<u8> {
    match random.below(2) {
        0 => random.pick(&NEAR_QUESTIONS).unwrap_or("why").as_bytes().to_vec(),
        _ => junk_line(random, question),
    }
}

/// One of the lines that nearly name a slice, by a number of any size.
pub fn near_slice(number: u64) -> Vec<u8> {
    NEAR_SLICES[(number % NEAR_SLICES.len() as u64) as usize].as_bytes().to_vec()
}

fn bad_number(random: &mut Random) -> String {
    let word = random.pick(&NUMBER_WORDS).unwrap_or("stop");
    let number = random.pick(&NEAR_NUMBERS).unwrap_or("00");
    match word {
        "send" => format!("send {number} 41"),
        "mailbox" => match random.below(3) {
            0 => format!("mailbox {number} 3 1"),
            1 => format!("mailbox 5 {number} 1"),
            _ => format!("mailbox 5 3 {number}"),
        },
        "read" if random.one_in(4) => format!("read {}", random.between(4_098, 65_535)),
        "read" if random.one_in(2) => "read 4097".to_string(),
        _ => format!("{word} {number}"),
    }
}

fn bad_bytes(random: &mut Random) -> String {
    let mailbox = random.below(16);
    match random.below(4) {
        0 if random.one_in(4) => format!("send {mailbox} {}", "5a".repeat(random.between(SENT_BYTES + 1, SENT_BYTES + 90))),
        0 => format!("send {mailbox} {}", "5a".repeat(SENT_BYTES + 1)),
        1 if random.one_in(4) => format!("send {mailbox} {}5", "5a".repeat(random.between(0, SENT_BYTES))),
        1 => format!("send {mailbox} {}5", "5a".repeat(random.below(6))),
        _ => format!("send {mailbox} {}", random.pick(&NEAR_BYTES).unwrap_or("4")),
    }
}

/// Spaces, tabs, carriage returns and zero bytes where none belong.
fn spaced(random: &mut Random, call: &str) -> String {
    match random.below(10) {
        0 => format!(" {call}"),
        1 => format!("{call} "),
        2 => call.replacen(' ', "  ", 1) + " ",
        3 => call.replacen(' ', "  ", 1),
        4 => format!("{call}\t"),
        5 => call.replacen(' ', "\t", 1),
        6 => format!("{call}\0"),
        7 => format!("\r{call}"),
        _ => format!("{call}\r"),
    }
}

fn damaged(random: &mut Random, call: &[u8]) -> Vec<u8> {
    let mut line = call.to_vec();
    let place = random.below(line.len());
    match random.below(4) {
        0 => {
            line.remove(place);
        }
        1 => line.insert(place, random.next() as u8),
        2 => line[place] ^= 1 << random.below(8),
        _ => line.truncate(place),
    }
    line
}

/// A line about as long as the longest that is looked at, or somewhat longer.
/// A desk that cuts lines there would find a call in some of the tails.
fn long_line(random: &mut Random, call: &str) -> Vec<u8> {
    let length = match random.below(4) {
        0 => 2 * LINE_BYTES + random.below(4),
        _ => random.between(LINE_BYTES - 1, LINE_BYTES + 2),
    };
    filled(random, call, length)
}

/// A line of one to three megabytes.
pub fn giant_line(random: &mut Random, call: &str) -> Vec<u8> {
    let length = random.between(1_000_000, 3_000_000);
    filled(random, call, length)
}

/// So many bytes that look like a call, begin with one, are nothing at all, or (with its length more) end with one.
fn filled(random: &mut Random, call: &str, length: usize) -> Vec<u8> {
    let mut line = match random.below(6) {
        0 => random.bytes(length),
        1 => format!("send {} {}", random.below(16), "5a".repeat(length / 2)).into_bytes(),
        2 => format!("{call}{}", " ".repeat(length)).into_bytes(),
        3 => format!("create {}1", "0".repeat(length)).into_bytes(),
        4 => format!("{call} ").repeat(length / call.len() + 1).into_bytes(),
        _ => return format!("{}{call}", "x".repeat(length)).into_bytes(),
    };
    line.truncate(length);
    line.iter_mut().filter(|byte| **byte == b'\n').for_each(|byte| *byte = b'\r');
    line
}

#[cfg(test)]
mod tests {
    use super::*;
    use crate::grammar::{named_slice, parse};

    #[test]
    fn no_newlines_and_mostly_bad() {
        let mut random = Random::new(5);
        let lines: Vec<Vec<u8>> = (0..20_000).map(|_| junk_line(&mut random, "create 3")).collect();
        assert!(lines.iter().all(|line| !line.contains(&b'\n')));
        assert!(lines.iter().filter(|line| parse(line).is_none()).count() > 18_000);
        for length in 8_599..=8_602 {
            assert!(lines.iter().any(|line| line.len() == length), "{length} bytes");
        }
        let giant = giant_line(&mut random, "tick");
        assert!(giant.len() >= 1_000_000 && !giant.contains(&b'\n'));
    }

    #[test]
    fn slices_that_are_none() {
        assert!(NEAR_SLICES.iter().all(|line| named_slice(line.as_bytes()).is_none() && parse(line.as_bytes()).is_none()));
    }

    #[test]
    fn settings_that_are_none() {
        assert!(NEAR_MAILBOXES.iter().all(|line| parse(line.as_bytes()).is_none()));
    }

    #[test]
    fn questions_that_are_none() {
        assert!(NEAR_QUESTIONS.iter().all(|line| parse(line.as_bytes()).is_none()));
        let mut random = Random::new(6);
        let lines: Vec<Vec<u8>> = (0..20_000).map(|_| junk_question(&mut random, "why 3")).collect();
        assert!(lines.iter().all(|line| !line.contains(&b'\n')));
        assert!(lines.iter().filter(|line| parse(line).is_none()).count() > 18_000);
    }
}
