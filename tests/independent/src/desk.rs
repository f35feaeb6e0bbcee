//! The replay desk: a script in, one line out for each line of it.

use crate::answer::{Answer, DONE, NO_SUCH_SLICE};
use crate::call::Told;
use crate::grammar::{hex, named_slice, parse, LINE_BYTES};
use crate::kernel::Kernel;
use std::io::{self, BufRead, Read, Write};

/// A desk between two lines of a script.
pub struct Desk {
    kernel: Kernel,
    /// Whether a line was read. Only the first can name a slice, whatever it says.
    begun: bool,
}

impl Desk {
    pub fn fresh() -> Desk {
        Desk { kernel: Kernel::fresh(), begun: false }
    }

    pub fn kernel(&self) -> &Kernel {
        &self.kernel
    }

    pub fn has_begun(&self) -> bool {
        self.begun
    }

    /// Does what the next line asks, and gives the line that it is answered with; both without newline.
    pub fn answer(&mut self, line: &[u8]) -> String {
        let is_first = !std::mem::replace(&mut self.begun, true);
        match named_slice(line) {
            Some(slice) if is_first => numbers(&self.start(slice)),
            _ => self.call(line),
        }
    }

    /// The fresh start with a slice; where it is refused, that without one stands.
    fn start(&mut self, slice: u32) -> Answer {
        let code = match Kernel::fresh_slice(slice) {
            Some(kernel) => {
                self.kernel = kernel;
                DONE
            }
            None => NO_SUCH_SLICE,
        };
        Answer { code, number: 0, running: 0 }
    }

    fn call(&mut self, line: &[u8]) -> String {
        let Some(call) = parse(line) else {
            return "bad".to_string();
        };
        let (answer, told) = self.kernel.apply(&call);
        let numbers = numbers(&answer);
        match told {
            Some(Told::Message(bytes)) => format!("{numbers} {}", hex(&bytes)),
            Some(Told::Reason(reason)) => format!("{numbers} {reason}"),
            None => numbers,
        }
    }
}

fn numbers(answer: &Answer) -> String {
    format!("{} {} {}", answer.code, answer.number, answer.running)
}

/// Replays a script of any size, with lines of any length, in bounded memory.
pub fn replay(input: &mut impl BufRead, output: &mut impl Write) -> io::Result<()> {
    let mut desk = Desk::fresh();
    let mut line = Vec::new();
    loop {
        line.clear();
        let enough = LINE_BYTES as u64 + 1;
        if input.by_ref().take(enough).read_until(b'\n', &mut line)? == 0 {
            return Ok(());
        }
        if line.last() == Some(&b'\n') {
            line.pop();
        } else if line.len() > LINE_BYTES {
            input.skip_until(b'\n')?;
        }
        writeln!(output, "{}", desk.answer(&line))?;
    }
}

/// The whole output for a script in memory.
pub fn replayed(script: &[u8]) -> Vec<u8> {
    let mut output = Vec::new();
    replay(&mut &script[..], &mut output).expect("memory does not fail");
    output
}

/// The state that a script in memory leads to.
pub fn state_after(script: &[u8]) -> Kernel {
    let mut desk = Desk::fresh();
    for line in script.split(|&byte| byte == b'\n') {
        desk.answer(line);
    }
    desk.kernel
}

#[cfg(test)]
mod tests {
    use super::*;

    fn check(script: &str, expected: &str) {
        assert_eq!(String::from_utf8(replayed(script.as_bytes())).unwrap(), expected);
    }

    /// The same of a script that is tuned to the slice of document 01, which its first line names.
    fn check_at_3(script: &str, expected: &str) {
        check(&format!("slice 3\n{script}"), &format!("0 0 0\n{expected}"));
    }

    /// A list with commas as lines.
    fn lines(list: &str) -> String {
        list.split(", ").map(|line| format!("{line}\n")).collect()
    }

    /// Answers to a list of calls after the line `slice 3`, separated by commas on both sides.
    fn answers(script: &str, expected: &str) {
        check_at_3(&lines(script), &lines(expected));
    }

    #[test]
    fn sample() {
        check_at_3(
            "create 2\ncreate 2\ntick\nsend 3 414243\nreceive 3\nread 2\nread 512\nend\nfrob\n",
            "0 257 1\n0 258 1\n0 0 1\n0 0 1\n0 3 1\n9 3 1\n0 3 1 414243\n0 0 2\nbad\n",
        );
    }

    #[test]
    fn proved_edges() {
        answers("tick", "0 0 0");
        answers("create 2, create 2, tick, tick, tick", "0 257 1, 0 258 1, 0 0 1, 0 0 1, 0 0 2");
        answers(
            "create 2, create 2, tick, create 4, end, tick, tick",
            "0 257 1, 0 258 1, 0 0 1, 0 259 3, 0 0 1, 0 0 1, 0 0 2",
        );
        answers("create 4", "0 257 1");
        answers("create 5", "2 0 0");
        answers("create 1, receive 0, send 0 010203", "0 257 1, 32 0 0, 0 0 1");
        answers("create 3, create 3, yield, yield", "0 257 1, 0 258 1, 0 0 2, 0 0 1");
        answers("create 1, stop 257, create 1", "0 257 1, 0 0 0, 0 513 1");
        answers("create 0, class 0, class 4", "0 257 1, 0 0 1, 0 0 1");
        answers("stop 0, stop 32, yield", "1 0 0, 1 0 0, 5 0 0");
        // The last wait shows that the count is still 0.
        answers("create 1, wait 15, signal 15, wait 15", "0 257 1, 32 0 0, 0 0 1, 32 0 0");
    }

    #[test]
    fn process_numbers_run_out() {
        let mut expected: String = (257..=287).map(|name| format!("0 {name} 1\n")).collect();
        expected += "10 0 1\n2 0 1\n0 0 1\n0 519 1\n10 0 1\n";
        check_at_3(&("create 0\n".repeat(32) + "create 5\nstop 263\ncreate 0\ncreate 4\n"), &expected);
    }

    #[test]
    fn message_sizes() {
        for (length, answer) in [(512, "0 0 0"), (513, "0 0 0"), (4_096, "0 0 0"), (4_097, "6 0 0"), (4_200, "6 0 0"), (4_201, "bad")] {
            answers(&send(0, length), answer);
        }
        answers(&send(16, 4_096), "3 0 0");
        answers(&send(16, 4_097), "3 0 0");
        for length in [511, 512, 513, 1_024, 1_025, 4_095, 4_096] {
            answers(
                &format!("create 1, {}, receive 0, read {}, read {length}, read 4096", send(0, length), length - 1),
                &format!("0 257 1, 0 0 1, 0 {length} 1, 9 {length} 1, 0 {length} 1 {0}, 0 {length} 1 {0}", "5a".repeat(length)),
            );
        }
        // What is too long is not there.
        answers(
            &format!("create 1, {}, receive 0, read 4096, read 4097, {}, release, receive 0", send(0, 4_096), send(0, 4_097)),
            &format!("0 257 1, 0 0 1, 0 4096 1, 0 4096 1 {}, bad, 6 0 1, 0 0 1, 32 0 0", "5a".repeat(4_096)),
        );
    }

    /// Sends so many bytes; which ones doesn't matter.
    fn send(mailbox: u32, length: usize) -> String {
        format!("send {mailbox} {}", if length == 0 { "-".to_string() } else { "5a".repeat(length) })
    }

    /// Answers to sends to mailboxes, each with its code, while 0 runs.
    fn sends(before: &str, list: &[(u32, usize, u32)]) {
        let script: Vec<String> = list.iter().map(|&(mailbox, length, _)| send(mailbox, length)).collect();
        let expected: Vec<String> = list.iter().map(|(_, _, code)| format!("{code} 0 0")).collect();
        answers(&format!("{before}{}", script.join(", ")), &format!("{}{}", "0 0 0, ".repeat(before.matches(", ").count()), expected.join(", ")));
    }

    #[test]
    fn pages_take_as_many_buffers_as_they_need() {
        // 8, 8, 8 and 7; then one is left.
        let most = [(0, 4_096, 0), (0, 4_096, 0), (0, 4_096, 0), (0, 3_584, 0)];
        sends("", &[&most[..], &[(1, 513, 12), (1, 4_096, 12), (1, 512, 0), (1, 0, 12), (1, 1, 12)]].concat());
        sends("", &[&most[..], &[(1, 0, 0), (1, 0, 12)]].concat());
        // 11 comes before 12.
        sends("mailbox 0 4 0, ", &[&most[..], &[(0, 4_096, 11), (0, 0, 11), (1, 1_024, 12)]].concat());
        // 513 bytes need two: 16 of them fill the store.
        let of_two: Vec<(u32, usize, u32)> = (0..16).map(|number| (number, 513, 0)).collect();
        sends("", &[&of_two[..], &[(0, 0, 12)]].concat());
        let of_three: Vec<(u32, usize, u32)> = (0..10).map(|number| (number, 1_025, 0)).collect();
        sends("", &[&of_three[..], &[(10, 1_025, 12), (10, 1_024, 0), (11, 0, 12)]].concat());
    }

    #[test]
    fn pages_are_dropped_only_for_one_that_is_taken() {
        // Mailbox 5 has three buffers, and three are free: 7 are one too many, with the drop; 6 are not.
        let filled = [(5, 1_025, 0), (0, 4_096, 0), (0, 4_096, 0), (0, 4_096, 0), (0, 1_024, 0)];
        sends("mailbox 5 1 1, ", &[&filled[..], &[(5, 4_096, 12), (5, 3_073, 12), (5, 3_072, 0), (5, 3_073, 12), (5, 3_072, 0)]].concat());
        // After 12 the oldest is there, and whole.
        let script: Vec<String> = filled.iter().map(|&(mailbox, length, _)| send(mailbox, length)).collect();
        answers(
            &format!("mailbox 5 1 1, {}, {}, create 1, receive 5, read 4096, release, {}", script.join(", "), send(5, 3_073), send(5, 3_072)),
            &format!("{}12 0 0, 0 257 1, 0 1025 1, 0 1025 1 {}, 0 0 1, 0 0 1", "0 0 0, ".repeat(6), "5a".repeat(1_025)),
        );
        // One message is dropped and no more: of two of one buffer each, one does not make room for two.
        let ones = [(5, 1, 0), (5, 2, 0), (0, 4_096, 0), (0, 4_096, 0), (0, 4_096, 0), (0, 3_072, 0)];
        sends("mailbox 5 2 1, ", &[&ones[..], &[(5, 513, 12), (5, 512, 0), (5, 513, 12)]].concat());
        // A page is dropped for a short message, and what it gave back is free.
        sends("mailbox 5 1 1, ", &[(5, 4_096, 0), (0, 4_096, 0), (0, 4_096, 0), (0, 4_096, 0), (1, 0, 12), (5, 0, 0), (1, 3_584, 0), (1, 0, 12)]);
        // Where it is not full nothing is dropped, however few are free.
        sends("mailbox 5 2 1, ", &[(5, 4_096, 0), (0, 4_096, 0), (0, 4_096, 0), (0, 4_096, 0), (5, 1, 12), (5, 4_096, 12)]);
    }

    #[test]
    fn pages_are_given_back_whole() {
        let filled = [send(0, 4_096), send(1, 4_096), send(1, 4_096), send(1, 4_096)].join(", ");
        for (way, answered) in [("release", "0 0 1"), ("end", "0 0 0"), ("stop 257", "0 0 0")] {
            let running = &answered[4..];
            answers(
                &format!("create 1, {filled}, receive 0, {}, {way}, {}, {}", send(2, 0), send(2, 4_096), send(2, 0)),
                &format!("0 257 1, {}0 4096 1, 12 0 1, {answered}, 0 0 {running}, 12 0 {running}", "0 0 1, ".repeat(4)),
            );
        }
        // A waiter gets a page in hand; waiting at a semaphore it keeps it, until it is stopped.
        answers(
            &format!("create 1, receive 0, {filled}, read 4096, wait 3, {}, stop 257, {}, {}", send(2, 0), send(2, 4_096), send(2, 0)),
            &format!("0 257 1, 32 0 0, {}0 4096 1 {}, 32 0 0, 12 0 0, 0 0 0, 0 0 0, 12 0 0", "0 0 1, ".repeat(4), "5a".repeat(4_096)),
        );
    }

    /// A page lies where it can, and each of its bytes comes back in its place.
    #[test]
    fn pages_between_other_messages() {
        let bytes: Vec<u8> = (0..2_000).map(|i| (i % 251) as u8).collect();
        let script = format!("create 1, send 0 01, send 1 02, send 0 03, send 1 04, receive 0, release, receive 0, release, send 2 {}, \
                              receive 1, read 1, release, receive 1, read 1, release, receive 2, read 2000", hex(&bytes));
        let expected = format!("0 257 1, 0 0 1, 0 0 1, 0 0 1, 0 0 1, 0 1 1, 0 0 1, 0 1 1, 0 0 1, 0 0 1, \
                                0 1 1, 0 1 1 02, 0 0 1, 0 1 1, 0 1 1 04, 0 0 1, 0 2000 1, 0 2000 1 {}", hex(&bytes));
        answers(&script, &expected);
    }

    #[test]
    fn mailboxes_and_buffers_run_out() {
        check_at_3(&"send 0 -\n".repeat(9), &("0 0 0\n".repeat(8) + "11 0 0\n"));
        let fill: String = (0..4).map(|mailbox| format!("send {mailbox} 00\n").repeat(8)).collect();
        check_at_3(&(fill + "send 4 00\nsend 0 00\n"), &("0 0 0\n".repeat(32) + "12 0 0\n11 0 0\n"));
    }

    #[test]
    fn counts_run_out() {
        let script = "signal 3\n".repeat(65_536) + "create 0\nwait 3\nsignal 3\nsignal 3\nsignal 16\n";
        let expected = "0 0 0\n".repeat(65_535) + "13 0 0\n0 257 1\n0 0 1\n0 0 1\n13 0 1\n4 0 1\n";
        check_at_3(&script, &expected);
    }

    #[test]
    fn empty_messages() {
        answers(
            "create 1, send 2 -, receive 2, read 0, read 512, receive 2, release, read 0, release",
            "0 257 1, 0 0 1, 0 0 1, 0 0 1 -, 0 0 1 -, 7 0 1, 0 0 1, 8 0 1, 8 0 1",
        );
    }

    #[test]
    fn refusals_in_order() {
        answers("class 5, receive 16, wait 16, read 0, release, end", "5 0 0, 5 0 0, 5 0 0, 5 0 0, 5 0 0, 5 0 0");
        answers("create 1, send 0 -, receive 0, receive 16, receive 0, class 5, wait 16", "0 257 1, 0 0 1, 0 0 1, 3 0 1, 7 0 1, 2 0 1, 4 0 1");
    }

    #[test]
    fn waiters() {
        // A sent message goes to the first waiter and isn't queued; a higher waiter preempts.
        answers(
            "create 1, create 3, receive 5, receive 5, send 5 aa, read 1, send 5 bb, read 1, end, read 1",
            "0 257 1, 0 258 2, 32 0 1, 32 0 0, 0 0 2, 0 1 2 aa, 0 0 2, 0 1 2 aa, 0 0 1, 0 1 1 bb",
        );
        // A stopped waiter gets nothing; a stopped holder frees its buffer.
        answers("create 1, wait 0, stop 257, signal 0, create 1, wait 0", "0 257 1, 32 0 0, 0 0 0, 0 0 0, 0 513 1, 0 0 1");
        let holder = "create 0\n".to_string() + &"send 0 00\nsend 1 00\nsend 2 00\nsend 3 00\n".repeat(8);
        check_at_3(
            &(holder + "receive 0\nsend 4 00\nstop 257\nsend 4 00\nsend 4 00\n"),
            &("0 257 1\n".to_string() + &"0 0 1\n".repeat(32) + "0 1 1\n12 0 1\n0 0 0\n0 0 0\n12 0 0\n"),
        );
    }

    #[test]
    fn changing_class() {
        // Same class keeps the ticks; another gives a whole slice and the rear.
        answers("create 2, create 2, tick, tick, class 2, tick", "0 257 1, 0 258 1, 0 0 1, 0 0 1, 0 0 1, 0 0 2");
        answers(
            "create 2, create 3, class 2, tick, tick, tick, tick, tick, tick",
            "0 257 1, 0 258 2, 0 0 1, 0 0 1, 0 0 1, 0 0 2, 0 0 2, 0 0 2, 0 0 1",
        );
    }

    /// Two processes of one class take turns: who runs after each tick, where the script begins with these lines.
    fn turns(first_lines: &str, answered: &str, ticks: &[u32]) {
        let script = format!("{first_lines}create 2\ncreate 2\n{}", "tick\n".repeat(ticks.len()));
        let after: String = ticks.iter().map(|running| format!("0 0 {running}\n")).collect();
        check(&script, &format!("{answered}0 257 1\n0 258 1\n{after}"));
    }

    #[test]
    fn slices() {
        turns("", "", &[1, 1, 1, 1, 2, 2, 2, 2, 2, 1]);
        turns("slice 5\n", "0 0 0\n", &[1, 1, 1, 1, 2, 2, 2, 2, 2, 1]);
        turns("slice 3\n", "0 0 0\n", &[1, 1, 2, 2, 2, 1]);
        turns("slice 2\n", "0 0 0\n", &[1, 2, 2, 1, 1, 2]);
        turns("slice 1\n", "0 0 0\n", &[2, 1, 2, 1]);
        turns("slice 255\n", "0 0 0\n", &[&[1; 254][..], &[2; 255], &[1; 2]].concat());
    }

    #[test]
    fn refused_slices() {
        for slice in [0, 256, 257, 511, 65_535] {
            turns(&format!("slice {slice}\n"), "16 0 0\n", &[1, 1, 1, 1, 2]);
        }
    }

    #[test]
    fn only_the_first_line_names_a_slice() {
        turns("slice 3\nslice 2\n", "0 0 0\nbad\n", &[1, 1, 2]);
        turns("slice 2\nslice 2\nslice 0\n", "0 0 0\nbad\nbad\n", &[1, 2]);
        turns("slice 0\nslice 3\n", "16 0 0\nbad\n", &[1, 1, 1, 1, 2]);
        turns("tick\nslice 3\n", "0 0 0\nbad\n", &[1, 1, 1, 1, 2]);
        turns("why 0\nslice 3\n", "0 0 0 running\nbad\n", &[1, 1, 1, 1, 2]);
        turns("\nslice 3\n", "bad\nbad\n", &[1, 1, 1, 1, 2]);
        turns(&format!("{}\nslice 3\n", "x".repeat(30_000)), "bad\nbad\n", &[1, 1, 1, 1, 2]);
        for line in ["slice", "slice ", "slice 3 3", "slice 3 ", " slice 3", "slice  3", "slice 03", "slice 65536", "slice +3", "Slice 3", "slice 3\r"] {
            turns(&format!("{line}\n"), "bad\n", &[1, 1, 1, 1, 2]);
            turns(&format!("{line}\nslice 3\n"), "bad\nbad\n", &[1, 1, 1, 1, 2]);
        }
        check("slice 3", "0 0 0\n");
        check("slice 0", "16 0 0\n");
    }

    #[test]
    fn whole_slices() {
        let check_list = |script: &str, expected: &str| check(&lines(script), &lines(expected));
        // One that is preempted keeps the 4 of 5 ticks that it has left.
        check_list(
            "create 2, create 2, tick, create 4, end, tick, tick, tick, tick",
            "0 257 1, 0 258 1, 0 0 1, 0 259 3, 0 0 1, 0 0 1, 0 0 1, 0 0 1, 0 0 2",
        );
        // One that yields, that waited, or that comes from another class has a whole one.
        check_list("slice 2, create 1, create 1, tick, yield, yield, tick, tick", "0 0 0, 0 257 1, 0 258 1, 0 0 1, 0 0 2, 0 0 1, 0 0 1, 0 0 2");
        check_list(
            "slice 2, create 1, tick, wait 0, create 1, signal 0, yield, tick, tick",
            "0 0 0, 0 257 1, 0 0 1, 32 0 0, 0 258 2, 0 0 2, 0 0 1, 0 0 1, 0 0 2",
        );
        check_list(
            "slice 2, create 1, tick, receive 0, create 1, send 0 -, yield, tick, tick",
            "0 0 0, 0 257 1, 0 0 1, 32 0 0, 0 258 2, 0 0 2, 0 0 1, 0 0 1, 0 0 2",
        );
        check_list("slice 2, create 1, create 3, tick, class 1, yield, tick, tick", "0 0 0, 0 257 1, 0 258 2, 0 0 2, 0 0 1, 0 0 2, 0 0 2, 0 0 1");
    }

    #[test]
    fn sizes_of_mailboxes() {
        // One of 1 and one of 3 are full with as many; the others hold 8.
        answers("mailbox 0 1 0, send 0 aa, send 0 bb", "0 0 0, 0 0 0, 11 0 0");
        answers("mailbox 15 3 0, send 15 aa, send 15 bb, send 15 cc, send 15 dd", "0 0 0, 0 0 0, 0 0 0, 0 0 0, 11 0 0");
        check_at_3(&("mailbox 2 1 0\n".to_string() + &"send 1 -\n".repeat(9)), &("0 0 0\n".repeat(9) + "11 0 0\n"));
        check_at_3(&("mailbox 1 9 0\n".to_string() + &"send 1 -\n".repeat(10)), &("0 0 0\n".repeat(10) + "11 0 0\n"));
        // One of 32 takes all buffers; then 11 comes before 12.
        check_at_3(&("mailbox 7 32 0\n".to_string() + &"send 7 -\n".repeat(33) + "send 8 -\n"), &("0 0 0\n".repeat(33) + "11 0 0\n12 0 0\n"));
        // What is refused is not there, and what is received makes room.
        answers(
            "mailbox 4 2 0, create 1, send 4 01, send 4 02, send 4 03, receive 4, send 4 04, read 1, release, receive 4, read 1, release, \
             receive 4, read 1, release, receive 4",
            "0 0 0, 0 257 1, 0 0 1, 0 0 1, 11 0 1, 0 1 1, 0 0 1, 0 1 1 01, 0 0 1, 0 1 1, 0 1 1 02, 0 0 1, 0 1 1, 0 1 1 04, 0 0 1, 32 0 0",
        );
    }

    #[test]
    fn mailboxes_that_drop() {
        // Always the newest; of two, always the newest two, in order.
        answers(
            "mailbox 5 1 1, create 1, send 5 01, send 5 02, send 5 03, receive 5, read 1, release, receive 5",
            "0 0 0, 0 257 1, 0 0 1, 0 0 1, 0 0 1, 0 1 1, 0 1 1 03, 0 0 1, 32 0 0",
        );
        answers(
            "mailbox 5 2 1, create 1, send 5 01, send 5 0202, send 5 030303, send 5 04, receive 5, read 3, release, receive 5, read 3, release, \
             receive 5",
            "0 0 0, 0 257 1, 0 0 1, 0 0 1, 0 0 1, 0 0 1, 0 3 1, 0 3 1 030303, 0 0 1, 0 1 1, 0 1 1 04, 0 0 1, 32 0 0",
        );
        // A message that is too long pushes nothing out.
        answers(
            &format!("mailbox 5 1 1, create 1, send 5 01, send 5 {}, receive 5, read 1", "5a".repeat(4_097)),
            "0 0 0, 0 257 1, 0 0 1, 6 0 1, 0 1 1, 0 1 1 01",
        );
        // Where someone waits, the message goes into the hand.
        answers(
            "mailbox 5 1 1, create 1, receive 5, send 5 01, send 5 02, send 5 03, read 1, release, receive 5, read 1",
            "0 0 0, 0 257 1, 32 0 0, 0 0 1, 0 0 1, 0 0 1, 0 1 1 01, 0 0 1, 0 1 1, 0 1 1 03",
        );
    }

    /// Mailboxes 0 to 3 hold 8 each, of which 3 drops; 4 drops too, and has nothing.
    #[test]
    fn drops_with_all_buffers_in_use() {
        let fill: String = (0..4).map(|mailbox| (1..=8).map(|number| format!("send {mailbox} 0{number}\n")).collect::<String>()).collect();
        let script = "mailbox 3 8 1\nmailbox 4 8 1\n".to_string() + &fill;
        let filled = "0 0 0\n".repeat(34);
        check_at_3(
            &(script.clone() + "send 0 09\nsend 4 09\nsend 3 09\nsend 3 0a\nsend 4 0b\n"),
            &(filled.clone() + "11 0 0\n12 0 0\n0 0 0\n0 0 0\n12 0 0\n"),
        );
        // One message is in hand: 3 holds 7, and drops nothing for the one that finds no buffer.
        let emptied: String = (3..=9).map(|number| format!("0 1 1\n0 1 1 0{number}\n0 0 1\n")).collect();
        check_at_3(
            &(script + "send 3 09\ncreate 1\nreceive 3\nsend 3 0a\nread 1\nrelease\n" + &"receive 3\nread 1\nrelease\n".repeat(7) + "receive 3\n"),
            &(filled + "0 0 0\n0 257 1\n0 1 1\n12 0 1\n0 1 1 02\n0 0 1\n" + &emptied + "32 0 0\n"),
        );
    }

    #[test]
    fn refused_sizes() {
        // 3 before 17, 17 before 18.
        answers("mailbox 16 8 0, mailbox 16 0 0, mailbox 65535 8 2, mailbox 15 8 0", "3 0 0, 3 0 0, 3 0 0, 0 0 0");
        answers("mailbox 0 0 0, mailbox 0 33 1, mailbox 0 65535 0, mailbox 0 257 0", "17 0 0, 17 0 0, 17 0 0, 17 0 0");
        answers("mailbox 0 8 2, mailbox 0 1 65535, mailbox 0 8 256, mailbox 0 0 2", "17 0 0, 17 0 0, 17 0 0, 17 0 0");
        answers("mailbox 0 1 0, mailbox 0 1 1, mailbox 0 32 0, mailbox 0 32 1", "0 0 0, 0 0 0, 0 0 0, 0 0 0");
        // With messages, and with waiters, also where nothing would change.
        answers(
            "send 3 -, mailbox 3 9 0, mailbox 3 8 0, mailbox 3 8 1, mailbox 3 33 0, mailbox 3 8 2, mailbox 19 8 0, mailbox 4 9 0",
            "0 0 0, 18 0 0, 18 0 0, 18 0 0, 17 0 0, 17 0 0, 3 0 0, 0 0 0",
        );
        answers(
            "create 1, create 1, receive 3, mailbox 3 8 0, mailbox 3 1 1, mailbox 3 0 0, mailbox 2 1 1, end, mailbox 3 8 0, stop 257, mailbox 3 8 0",
            "0 257 1, 0 258 1, 32 0 2, 18 0 2, 18 0 2, 17 0 2, 0 0 2, 0 0 0, 18 0 0, 0 0 0, 0 0 0",
        );
        // What is refused is not set.
        answers(
            "mailbox 1 2 0, mailbox 1 0 1, mailbox 1 1 2, send 1 -, mailbox 1 1 1, send 1 -, send 1 -",
            "0 0 0, 17 0 0, 17 0 0, 0 0 0, 18 0 0, 0 0 0, 11 0 0",
        );
    }

    #[test]
    fn sizes_last() {
        // Emptied and filled again, it still holds 1 and drops; set again, it refuses.
        answers(
            "mailbox 6 1 1, create 1, send 6 01, send 6 02, receive 6, release, send 6 03, send 6 04, receive 6, read 1, release, \
             mailbox 6 1 0, send 6 05, send 6 06, end, send 6 07",
            "0 0 0, 0 257 1, 0 0 1, 0 0 1, 0 1 1, 0 0 1, 0 0 1, 0 0 1, 0 1 1, 0 1 1 04, 0 0 1, 0 0 1, 0 0 1, 11 0 1, 0 0 0, 11 0 0",
        );
        // A later line that names a slice is bad and starts nothing.
        check("mailbox 6 1 1\nslice 2\nsend 6 -\nsend 6 -\nmailbox 6 1 1\n", "0 0 0\nbad\n0 0 0\n0 0 0\n18 0 0\n");
    }

    #[test]
    fn questions() {
        answers("why 0, why 1, why 31, why 32, why 65535", "0 0 0 running, 0 0 0 unused, 0 0 0 unused, 1 0 0, 1 0 0");
        answers(
            "create 2, create 2, create 2, create 0, why 0, why 257, why 258, why 259, why 260, why 32",
            "0 257 1, 0 258 1, 0 259 1, 0 260 1, 0 0 1 behind 1, 0 0 1 running, 0 0 1 ready 1, 0 0 1 ready 2, 0 0 1 behind 1, 1 0 1",
        );
        answers(
            "create 1, receive 12, create 1, receive 12, create 1, wait 0, why 0, why 257, why 258, why 259",
            "0 257 1, 32 0 0, 0 258 2, 32 0 0, 0 259 3, 32 0 0, 0 0 0 running, 0 0 0 mailbox 12 0, 0 0 0 mailbox 12 1, 0 0 0 semaphore 0 0",
        );
        answers("why, why 1 2, why 01, Why 1, why 65536", "bad, bad, bad, bad, bad");
    }

    #[test]
    fn names_go_stale() {
        // A number that is in use again has another name, and the earlier one stops nobody.
        answers(
            "create 1, create 1, stop 258, create 1, stop 258, why 258, why 514, stop 514, stop 514, why 514, why 258",
            "0 257 1, 0 258 1, 0 0 1, 0 514 1, 1 0 1, 1 0 1, 0 0 1 ready 1, 0 0 1, 1 0 1, 0 0 1 unused, 1 0 1",
        );
        // A number alone is a name while its birth count is 0: before it is born.
        answers(
            "why 1, stop 1, create 1, why 1, stop 1, end, why 1, stop 1, why 257",
            "0 0 0 unused, 1 0 0, 0 257 1, 1 0 1, 1 0 1, 0 0 0, 1 0 0, 1 0 0, 0 0 0 unused",
        );
        // 0 has no birth count, and who ended has been born.
        answers("why 256, stop 256, create 1, end, create 1, why 256, why 0", "1 0 0, 1 0 0, 0 257 1, 0 0 0, 0 513 1, 1 0 1, 0 0 1 behind 1");
        // Another birth count is refused in the same place as another number.
        answers("create 1, stop 289, stop 513, stop 65535, stop 258", "0 257 1, 1 0 1, 1 0 1, 1 0 1, 1 0 1");
    }

    #[test]
    fn names_return() {
        let mut script = String::new();
        let mut expected = String::new();
        for birth in 1..=257 {
            let name = 1 + 256 * (birth % 256);
            script += &format!("create 1\nwhy {name}\nstop {name}\nstop {name}\nwhy {name}\n");
            expected += &format!("0 {name} 1\n0 0 1 running\n0 0 0\n1 0 0\n0 0 0 unused\n");
        }
        assert!(expected.contains("\n0 65281 1\n") && expected.contains("\n0 1 1\n"));
        check_at_3(&script, &expected);
        // Who kept the name of the first process 1 stops the one that was born 256 births later.
        check_at_3(&("create 1\nend\n".repeat(256) + "create 1\nstop 513\nstop 1\nstop 257\n"), &{
            let names = (1..=256).map(|birth| format!("0 {} 1\n0 0 0\n", 1 + 256 * (birth % 256)));
            names.collect::<String>() + "0 257 1\n1 0 1\n1 0 1\n0 0 0\n"
        });
    }

    #[test]
    fn questions_move_nothing() {
        let mut desk = Desk::fresh();
        for line in "slice 3, create 1, create 3, tick, send 4 aa, receive 4, create 3, wait 2".split(", ") {
            desk.answer(line.as_bytes());
            let before = desk.kernel.clone();
            for name in (0..40).chain(250..300).chain([513, 65_535]) {
                desk.answer(format!("why {name}").as_bytes());
                assert_eq!(desk.kernel, before);
            }
        }
    }

    #[test]
    fn states_after_scripts() {
        assert_eq!(state_after(b""), Kernel::fresh());
        assert_eq!(state_after(b"tick\nbad\n\n"), Kernel::fresh());
        let mut kernel = Kernel::fresh_slice(3).unwrap();
        kernel.create(2);
        kernel.receive(3);
        assert_eq!(state_after(b"slice 3\ncreate 2\nwhy 257\nreceive 3\nfrob\n"), kernel);
        assert_eq!(state_after(b"slice 3\ncreate 2\nreceive 3"), kernel);
    }

    #[test]
    fn line_ends() {
        check("", "");
        check("\n", "bad\n");
        check("\n\n", "bad\nbad\n");
        check("tick", "0 0 0\n");
        check("tick\n", "0 0 0\n");
        check("tick\n\n", "0 0 0\nbad\n");
        check("create 1\ntick", "0 257 1\n0 0 1\n");
        check("tick\r\ntick\n", "bad\n0 0 0\n");
        check(" ", "bad\n");
        assert_eq!(replayed(b"\0\n\xff\xfe\ntick\n"), b"bad\nbad\n0 0 0\n");
    }

    #[test]
    fn long_lines() {
        for length in [1_300, 1_301, 8_599, 8_600, 8_601, 8_602, 17_200, 17_201, 17_202, 3_000_000] {
            let long = "x".repeat(length);
            check(&format!("{long}\ntick\n"), "bad\n0 0 0\n");
            check(&format!("tick\n{long}"), "0 0 0\nbad\n");
            check(&format!("{long}tick\ntick\n"), "bad\n0 0 0\n");
            check(&format!("tick{}\ntick\n", " ".repeat(length - 4)), "bad\n0 0 0\n");
        }
    }

    #[test]
    fn input_in_pieces() {
        let script = format!("slice 3\ncreate 2\n{}\n\ncreate 2\ntick\n{}\nread 1", "x".repeat(8_600), "y".repeat(30_000));
        for size in [1, 2, 3, 7, 8_599, 8_600, 8_601, 8_602] {
            let mut output = Vec::new();
            replay(&mut io::BufReader::with_capacity(size, script.as_bytes()), &mut output).unwrap();
            assert_eq!(output, b"0 0 0\n0 257 1\nbad\nbad\n0 258 1\n0 0 1\nbad\n8 0 1\n", "pieces of {size}");
        }
    }
}
