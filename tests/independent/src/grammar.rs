//! The lines of a script: which bytes are which call, and a call as its line.

use crate::call::Call;

/// A line with more bytes is bad whatever it says.
pub const LINE_BYTES: usize = 8_600;
const NUMBER_LIMIT: u32 = 65_535;
const ROOM_LIMIT: u32 = 4_096;
/// A send has no more bytes than that.
pub const SENT_BYTES: usize = 4_200;

/// The call that a line, without its newline, stands for; None if the line is bad.
pub fn parse(line: &[u8]) -> Option<Call> {
    if line.len() > LINE_BYTES {
        return None;
    }
    let words: Vec<&[u8]> = line.split(|&byte| byte == b' ').collect();
    Some(match words.as_slice() {
        [b"create", class] => Call::Create(number(class)?),
        [b"stop", name] => Call::Stop(number(name)?),
        [b"end"] => Call::End,
        [b"yield"] => Call::Yield,
        [b"class", class] => Call::Class(number(class)?),
        [b"tick"] => Call::Tick,
        [b"send", mailbox, hex] => Call::Send(number(mailbox)?, bytes(hex)?),
        [b"receive", mailbox] => Call::Receive(number(mailbox)?),
        [b"read", room] => Call::Read(number(room).filter(|&room| room <= ROOM_LIMIT)?),
        [b"release"] => Call::Release,
        [b"signal", semaphore] => Call::Signal(number(semaphore)?),
        [b"wait", semaphore] => Call::Wait(number(semaphore)?),
        [b"why", name] => Call::Why(number(name)?),
        [b"mailbox", mailbox, capacity, mode] => Call::Mailbox(number(mailbox)?, number(capacity)?, number(mode)?),
        _ => return None,
    })
}

/// The slice that a line, without its newline, names where it is the first of its script; None if it names none.
pub fn named_slice(line: &[u8]) -> Option<u32> {
    number(line.strip_prefix(b"slice ")?)
}

/// Decimal, 0 to 65,535, no leading zero.
fn number(word: &[u8]) -> Option<u32> {
    let leading_zero = word.len() > 1 && word[0] == b'0';
    if word.is_empty() || word.len() > 5 || leading_zero || !word.iter().all(u8::is_ascii_digit) {
        return None;
    }
    let value = word.iter().fold(0, |value, digit| 10 * value + u32::from(digit - b'0'));
    (value <= NUMBER_LIMIT).then_some(value)
}

/// Lowercase hex pairs, at most 4,200 of them, or `-` for no bytes.
fn bytes(word: &[u8]) -> Option<Vec<u8>> {
    if word == b"-" {
        return Some(Vec::new());
    }
    if word.is_empty() || word.len() % 2 == 1 || word.len() / 2 > SENT_BYTES {
        return None;
    }
    word.chunks(2).map(|pair| Some(16 * hex_digit(pair[0])? + hex_digit(pair[1])?)).collect()
}

fn hex_digit(digit: u8) -> Option<u8> {
    match digit {
        b'0'..=b'9' => Some(digit - b'0'),
        b'a'..=b'f' => Some(digit - b'a' + 10),
        _ => None,
    }
}

/// Bytes as a script and its answers write them.
pub fn hex(bytes: &[u8]) -> String {
    if bytes.is_empty() {
        return "-".to_string();
    }
    bytes.iter().map(|byte| format!("{byte:02x}")).collect()
}

/// The line of a call, without newline.
pub fn line_of(call: &Call) -> String {
    match call {
        Call::Create(class) => format!("create {class}"),
        Call::Stop(name) => format!("stop {name}"),
        Call::End => "end".to_string(),
        Call::Yield => "yield".to_string(),
        Call::Class(class) => format!("class {class}"),
        Call::Tick => "tick".to_string(),
        Call::Send(mailbox, bytes) => format!("send {mailbox} {}", hex(bytes)),
        Call::Receive(mailbox) => format!("receive {mailbox}"),
        Call::Read(room) => format!("read {room}"),
        Call::Release => "release".to_string(),
        Call::Signal(semaphore) => format!("signal {semaphore}"),
        Call::Wait(semaphore) => format!("wait {semaphore}"),
        Call::Why(name) => format!("why {name}"),
        Call::Mailbox(mailbox, capacity, mode) => format!("mailbox {mailbox} {capacity} {mode}"),
    }
}

#[cfg(test)]
mod tests {
    use super::*;

    fn bad(line: &[u8]) {
        assert_eq!(parse(line), None, "{}", line.escape_ascii());
    }

    #[test]
    fn words() {
        assert_eq!(parse(b"create 4"), Some(Call::Create(4)));
        assert_eq!(parse(b"stop 31"), Some(Call::Stop(31)));
        assert_eq!(parse(b"end"), Some(Call::End));
        assert_eq!(parse(b"yield"), Some(Call::Yield));
        assert_eq!(parse(b"class 0"), Some(Call::Class(0)));
        assert_eq!(parse(b"tick"), Some(Call::Tick));
        assert_eq!(parse(b"send 3 414243"), Some(Call::Send(3, b"ABC".to_vec())));
        assert_eq!(parse(b"receive 15"), Some(Call::Receive(15)));
        assert_eq!(parse(b"read 0"), Some(Call::Read(0)));
        assert_eq!(parse(b"release"), Some(Call::Release));
        assert_eq!(parse(b"signal 7"), Some(Call::Signal(7)));
        assert_eq!(parse(b"wait 8"), Some(Call::Wait(8)));
        for line in ["", "frob", "Tick", "TICK", "ticks", "tic", "listing", "create", "stop", "class", "receive", "read", "signal", "wait"] {
            bad(line.as_bytes());
        }
        for line in ["tick 1", "end 1", "yield 0", "release 0", "create 1 2", "send 3", "send 3 41 42", "receive 1 -", "bad"] {
            bad(line.as_bytes());
        }
    }

    #[test]
    fn numbers() {
        assert_eq!(parse(b"stop 0"), Some(Call::Stop(0)));
        assert_eq!(parse(b"stop 10"), Some(Call::Stop(10)));
        assert_eq!(parse(b"stop 65535"), Some(Call::Stop(65_535)));
        assert_eq!(parse(b"create 65535"), Some(Call::Create(65_535)));
        assert_eq!(parse(b"send 65535 -"), Some(Call::Send(65_535, vec![])));
        for number in ["00", "01", "000000", "007", "65536", "65537", "99999", "100000", "131073", "4294967297", "18446744073709551617"] {
            bad(format!("stop {number}").as_bytes());
            bad(format!("send {number} -").as_bytes());
        }
        for number in ["-1", "+1", "-0", "1.", "1e1", "0x1", "1_0", "1,0", "a", "-", "\u{0661}"] {
            bad(format!("stop {number}").as_bytes());
        }
    }

    #[test]
    fn room_sizes() {
        for room in [512, 513, 600, 4_095, 4_096] {
            assert_eq!(parse(format!("read {room}").as_bytes()), Some(Call::Read(room)));
        }
        bad(b"read 4097");
        bad(b"read 4200");
        bad(b"read 65535");
        bad(b"read 04096");
    }

    #[test]
    fn sent_bytes() {
        assert_eq!(parse(b"send 0 -"), Some(Call::Send(0, vec![])));
        assert_eq!(parse(b"send 0 00ff0a"), Some(Call::Send(0, vec![0, 255, 10])));
        for length in [600, 601, 4_096, 4_097, 4_199, 4_200] {
            assert_eq!(parse(format!("send 0 {}", "ab".repeat(length)).as_bytes()), Some(Call::Send(0, vec![0xab; length])));
        }
        bad(format!("send 0 {}", "ab".repeat(4_201)).as_bytes());
        bad(format!("send 0 {}a", "ab".repeat(600)).as_bytes());
        bad(format!("send 0 {}a", "ab".repeat(4_199)).as_bytes());
        bad(format!("send 0 {}a", "ab".repeat(4_200)).as_bytes());
        bad(format!("send 0 {}", "ab".repeat(4_296)).as_bytes());
        // 8,411 bytes, the longest line that is a call.
        assert_eq!(parse(format!("send 65535 {}", "ab".repeat(4_200)).as_bytes()), Some(Call::Send(65_535, vec![0xab; 4_200])));
        for hex in ["4", "414", "4G", "g4", "AB", "aB", "Ab", "--", "-41", "41-", "0x41", "4 1", "41 ", " 41", "4:", "4/", "4`", "4\u{0}"] {
            bad(format!("send 0 {hex}").as_bytes());
        }
        bad(b"send 0 ");
    }

    #[test]
    fn spaces_and_other_bytes() {
        for line in [" tick", "tick ", "create  1", " create 1", "create 1 ", "send  0 41", "send 0  41", "create\t1", "\ttick", "tick\t", "tick\r", "create 1\r", "\r", " ", "  "] {
            bad(line.as_bytes());
        }
        for line in [&b"\0"[..], b"tick\0", b"\0tick", b"ti\0ck", b"create\x001", b"create 1\0", b"\x80", b"tick\xff", b"\xfftick", b"create \xb1", b"\xf4ick", b"send 0 \xb41"] {
            bad(line);
        }
    }

    #[test]
    fn lines_of_calls() {
        for line in ["create 4", "stop 65535", "end", "yield", "class 0", "tick", "send 3 -", "send 3 00ff", "receive 15", "read 512", "release", "signal 7", "wait 8"] {
            assert_eq!(line_of(&parse(line.as_bytes()).unwrap()), line);
        }
    }

    #[test]
    fn the_word_slice() {
        for (line, slice) in [("slice 0", 0), ("slice 1", 1), ("slice 3", 3), ("slice 255", 255), ("slice 256", 256), ("slice 65535", 65_535)] {
            assert_eq!(named_slice(line.as_bytes()), Some(slice));
            bad(line.as_bytes());
        }
        for line in ["slice", "slice ", "slice 3 ", " slice 3", "slice  3", "slice 3 3", "slice\t3", "slice 3\r", "slice 03", "slice 00", "slice -"] {
            assert_eq!(named_slice(line.as_bytes()), None, "{line}");
        }
        for line in ["", "3", "slice 65536", "slice 4294967299", "slice 3a", "slice 0x3", "slice +3", "Slice 3", "slices 3", "slice3", "tick"] {
            assert_eq!(named_slice(line.as_bytes()), None, "{line}");
        }
    }

    #[test]
    fn the_word_mailbox() {
        for (line, call) in [
            ("mailbox 0 1 0", Call::Mailbox(0, 1, 0)),
            ("mailbox 15 32 1", Call::Mailbox(15, 32, 1)),
            ("mailbox 16 0 2", Call::Mailbox(16, 0, 2)),
            ("mailbox 65535 65535 65535", Call::Mailbox(65_535, 65_535, 65_535)),
        ] {
            assert_eq!(parse(line.as_bytes()), Some(call.clone()));
            assert_eq!(line_of(&call), line);
        }
        for line in ["mailbox", "mailbox ", "mailbox 0", "mailbox 0 8", "mailbox 0 8 ", "mailbox 0 8 0 ", "mailbox 0 8 0 0", "mailbox 0 8 0 -"] {
            bad(line.as_bytes());
        }
        for line in [" mailbox 0 8 0", "mailbox  0 8 0", "mailbox 0  8 0", "mailbox 0 8  0", "mailbox\t0 8 0", "mailbox 0 8\t0", "mailbox 0 8 0\r"] {
            bad(line.as_bytes());
        }
        for number in ["00", "01", "65536", "4294967297", "-", "-1", "+1", "1a", "0x1", ""] {
            bad(format!("mailbox {number} 8 0").as_bytes());
            bad(format!("mailbox 0 {number} 0").as_bytes());
            bad(format!("mailbox 0 8 {number}").as_bytes());
        }
        for line in ["Mailbox 0 8 0", "MAILBOX 0 8 0", "mailboxes 0 8 0", "mailbo 0 8 0", "mailbox0 8 0", "mailbox 0,8,0", "mailbox 0 8 drop"] {
            bad(line.as_bytes());
        }
    }

    #[test]
    fn the_word_why() {
        for (line, process) in [("why 0", 0), ("why 31", 31), ("why 32", 32), ("why 65535", 65_535)] {
            assert_eq!(parse(line.as_bytes()), Some(Call::Why(process)));
            assert_eq!(line_of(&Call::Why(process)), line);
        }
        for line in ["why", "why ", " why 1", "why 1 ", "why  1", "why\t1", "why 1\r", "why 1 2", "why 01", "why 00", "why -", "why -1", "why +1"] {
            bad(line.as_bytes());
        }
        for line in ["why 65536", "why 4294967297", "why 1a", "why 0x1", "Why 1", "WHY 1", "wh 1", "whys 1", "why1", "why?", "wait", "why 1?"] {
            bad(line.as_bytes());
        }
    }
}
