//! What a call does with buffers: which ones a message takes, and which are given back, of a message of several ones above all,
//! which is called a page here. To tell which kinds of sends, receives, reads, releases, stops and ends came.

use crate::call::Call;
use crate::grammar::SENT_BYTES;
use crate::kernel::*;
use crate::kinds::{those, words, Kind};
use crate::lengths::edges;

fn is_page(message: &Message) -> bool {
    message.buffers.len() > 1
}

/// A send that is refused for too few buffers alone, if at all, and the state that it comes to.
struct Sending<'a> {
    kernel: &'a Kernel,
    mailbox: &'a Mailbox,
    length: usize,
    free: Vec<usize>,
    /// The buffers of the message that is dropped for it.
    dropped: &'a [usize],
    /// None where there are too few.
    taken: Option<Vec<usize>>,
}

impl Sending<'_> {
    fn new(kernel: &Kernel, number: u32, length: usize) -> Option<Sending<'_>> {
        let mailbox = kernel.mailboxes.get(number as usize)?;
        let oldest = mailbox.oldest_to_drop();
        if length > LONGEST_MESSAGE || mailbox.is_full() && oldest.is_none() {
            return None;
        }
        let taken = kernel.buffers_for(number, length);
        Some(Sending { kernel, mailbox, length, free: kernel.free_buffers(), dropped: oldest.map_or(&[], |oldest| &oldest.buffers), taken })
    }

    fn needed(&self) -> usize {
        buffers_needed(self.length)
    }

    /// How many are missing; 0 where there are enough.
    fn missing(&self) -> usize {
        self.needed().saturating_sub(self.free.len() + self.dropped.len())
    }

    /// A page is taken of whose buffers this holds.
    fn takes_page(&self, wanted: impl Fn(&[usize]) -> bool) -> bool {
        self.taken.as_ref().is_some_and(|taken| taken.len() > 1 && wanted(taken))
    }

    /// A message is dropped of whose buffers, and of those that are taken then, this holds.
    fn drops(&self, wanted: impl Fn(&[usize], &[usize]) -> bool) -> bool {
        !self.dropped.is_empty() && self.taken.as_ref().is_some_and(|taken| wanted(self.dropped, taken))
    }
}

type OfSends = fn(&Sending) -> bool;

const SENDS: &[Kind<OfSends>] = &[
    ("a page while 0 runs", |send| send.takes_page(|_| send.kernel.running == 0)),
    ("a page that is queued", |send| send.takes_page(|_| send.mailbox.waiters.is_empty())),
    ("a page to a waiter", |send| send.takes_page(|_| !send.mailbox.waiters.is_empty())),
    ("a page in buffers side by side", |send| send.takes_page(are_side_by_side)),
    ("a page in buffers that are not side by side", |send| send.takes_page(|taken| !are_side_by_side(taken))),
    ("a page of 8 buffers in three stretches or more", |send| send.takes_page(|taken| taken.len() == 8 && stretches(taken) >= 3)),
    ("a page in all buffers that were free", |send| send.dropped.is_empty() && send.takes_page(|taken| taken.len() == send.free.len())),
    ("a drop of a page", |send| send.drops(|dropped, _| dropped.len() > 1)),
    ("a drop of a page of 8 buffers", |send| send.drops(|dropped, _| dropped.len() == 8)),
    ("a drop that gives back three or more, of which the message takes some, and others", |send| {
        send.drops(|dropped, taken| dropped.len() >= 3 && taken.iter().any(|buffer| dropped.contains(buffer)) && !is_part(taken, dropped))
    }),
    ("a drop that gives back more than are taken", |send| send.drops(|dropped, taken| dropped.len() > taken.len())),
    ("a drop that gives back fewer than are taken", |send| send.drops(|dropped, taken| dropped.len() < taken.len())),
    ("a drop without which there would be too few", |send| send.drops(|_, taken| taken.len() > send.free.len())),
    ("a drop of which nothing is taken, for a page", |send| {
        send.drops(|dropped, taken| taken.len() > 1 && !taken.iter().any(|buffer| dropped.contains(buffer)))
    }),
    ("12 by one buffer, with others free", |send| send.missing() == 1 && send.dropped.is_empty() && !send.free.is_empty()),
    ("12 by more than one buffer, with others free", |send| send.missing() > 1 && send.dropped.is_empty() && !send.free.is_empty()),
    ("12 for a page, with no buffer free", |send| send.missing() > 1 && send.free.is_empty()),
    ("12 for a page to a waiter", |send| send.missing() > 0 && send.needed() > 1 && !send.mailbox.waiters.is_empty()),
    ("12 by one buffer, with a drop", |send| send.missing() == 1 && !send.dropped.is_empty()),
    ("12 by more than one buffer, with a drop", |send| send.missing() > 1 && !send.dropped.is_empty()),
    ("12 with a drop that would give back three or more", |send| send.missing() > 0 && send.dropped.len() >= 3),
];

/// In how many stretches without a gap they lie.
fn stretches(buffers: &[usize]) -> usize {
    1 + buffers.windows(2).filter(|pair| pair[1] != pair[0] + 1).count()
}

fn are_side_by_side(buffers: &[usize]) -> bool {
    stretches(buffers) == 1
}

fn is_part(of: &[usize], all: &[usize]) -> bool {
    of.iter().all(|buffer| all.contains(buffer))
}

/// A read with a message in hand, and its room.
struct Reading<'a> {
    message: &'a Message,
    room: usize,
}

impl Reading<'_> {
    fn is_done(&self) -> bool {
        self.message.bytes.len() <= self.room
    }
}

type OfReads = fn(&Reading) -> bool;

const READS: &[Kind<OfReads>] = &[
    ("a page read in a room of its length", |read| is_page(read.message) && read.room == read.message.bytes.len()),
    ("a page read in a longer room", |read| is_page(read.message) && read.room > read.message.bytes.len()),
    ("a page read in the longest room", |read| is_page(read.message) && read.room == LONGEST_MESSAGE),
    ("9 for a page, by one byte", |read| is_page(read.message) && read.room + 1 == read.message.bytes.len()),
    ("9 for a page, in a room of a buffer", |read| is_page(read.message) && read.room == BUFFER_BYTES),
    ("9 for a page, in no room", |read| is_page(read.message) && read.room == 0),
];

/// With rooms that no script can name.
const WIDE_READS: &[Kind<OfReads>] =
    &[("a page read in a room that is longer than any message", |read| is_page(read.message) && read.room > LONGEST_MESSAGE)];

/// A process with a message in hand that is stopped.
struct Stopping<'a> {
    kernel: &'a Kernel,
    process: usize,
    message: &'a Message,
}

impl Stopping<'_> {
    fn is_ready(&self) -> bool {
        self.kernel.ready.iter().any(|queue| queue.contains(&self.process))
    }

    fn is_running(&self) -> bool {
        self.process == self.kernel.running
    }
}

type OfStops = fn(&Stopping) -> bool;

const STOPS: &[Kind<OfStops>] = &[
    ("stopped with a page in hand, running", |stop| is_page(stop.message) && stop.is_running()),
    ("stopped with a page in hand, ready", |stop| is_page(stop.message) && stop.is_ready()),
    ("stopped with a page in hand, at a semaphore", |stop| is_page(stop.message) && !stop.is_ready() && !stop.is_running()),
    ("stopped with 8 buffers in hand", |stop| stop.message.buffers.len() == 8),
];

/// What becomes of the message in the hand of the running process.
type OfHands = fn(&Message) -> bool;

const ENDS: &[Kind<OfHands>] = &[
    ("ended with a page in hand", is_page),
    ("ended with 8 buffers in hand", |message| message.buffers.len() == 8),
];

const RELEASES: &[Kind<OfHands>] = &[
    ("released, a page", is_page),
    ("released, 8 buffers", |message| message.buffers.len() == 8),
    ("released, a page in buffers that are not side by side", |message| is_page(message) && !are_side_by_side(&message.buffers)),
];

const RECEIVES: &[Kind<OfHands>] = &[("7 with a page in hand", is_page)];

fn sent(length: usize) -> String {
    match length <= LONGEST_MESSAGE {
        true => format!("sent, {length} bytes"),
        false => format!("6 for {length} bytes"),
    }
}

fn read_whole(length: usize) -> String {
    format!("read, {length} bytes")
}

/// All that a script can meet: every edge of lengths, sent and read, and every kind.
pub fn in_scripts() -> Vec<String> {
    let kinds = words(SENDS).chain(words(READS)).chain(words(STOPS)).chain(words(ENDS)).chain(words(RELEASES)).chain(words(RECEIVES));
    let read = edges().into_iter().filter(|&length| length <= LONGEST_MESSAGE).map(read_whole);
    edges().into_iter().map(sent).chain(read).chain(kinds.map(str::to_string)).collect()
}

const TOO_LONG_FOR_A_LINE: &str = "6 for more bytes than a line can send";

/// All that only longer messages and rooms than a script's can meet.
pub fn beyond_scripts() -> impl Iterator<Item = String> {
    words(WIDE_READS).chain([TOO_LONG_FOR_A_LINE]).map(str::to_string)
}

/// What a call meets that comes to this state.
pub fn kinds(kernel: &Kernel, call: &Call) -> Vec<String> {
    let in_hand = kernel.hand_of(kernel.running);
    let of_hand = |kinds: &[Kind<OfHands>]| in_hand.map_or(vec![], |message| those(kinds, |test| test(message)));
    let mut met = vec![];
    let kinds = match call {
        Call::Send(number, bytes) => {
            met.extend(edge_sent(kernel, *number, bytes.len()));
            Sending::new(kernel, *number, bytes.len()).map_or(vec![], |sending| those(SENDS, |test| test(&sending)))
        }
        Call::Read(room) => in_hand.map_or(vec![], |message| {
            let reading = Reading { message, room: *room as usize };
            met.extend(edge_read(&reading));
            [those(READS, |test| test(&reading)), those(WIDE_READS, |test| test(&reading))].concat()
        }),
        Call::Stop(name) => stopping(kernel, *name).map_or(vec![], |stopping| those(STOPS, |test| test(&stopping))),
        Call::End => of_hand(ENDS),
        Call::Release => of_hand(RELEASES),
        Call::Receive(number) if (*number as usize) < MAILBOXES => of_hand(RECEIVES),
        _ => vec![],
    };
    met.extend(kinds.into_iter().map(str::to_string));
    met
}

fn edge_sent(kernel: &Kernel, number: u32, length: usize) -> Option<String> {
    let mailbox = kernel.mailboxes.get(number as usize)?;
    let is_taken = !(mailbox.is_full() && mailbox.mode == REFUSES) && kernel.buffers_for(number, length).is_some();
    match length {
        _ if length > SENT_BYTES => Some(TOO_LONG_FOR_A_LINE.to_string()),
        _ if edges().contains(&length) && (is_taken || length > LONGEST_MESSAGE) => Some(sent(length)),
        _ => None,
    }
}

fn edge_read(reading: &Reading) -> Option<String> {
    let length = reading.message.bytes.len();
    (edges().contains(&length) && reading.is_done()).then(|| read_whole(length))
}

fn stopping(kernel: &Kernel, name: u32) -> Option<Stopping<'_>> {
    let process = kernel.named(name)?;
    Some(Stopping { kernel, process, message: kernel.hand_of(process)? })
}

#[cfg(test)]
mod tests {
    use super::*;
    use crate::grammar::parse;
    use crate::kinds::code_of;
    use crate::scripts::Script;

    fn after(calls: &str) -> Kernel {
        let mut kernel = Kernel::fresh();
        calls.split(", ").for_each(|line| assert_eq!(kernel.apply(&call(line)).0.code, 0, "{line}"));
        kernel
    }

    /// The call of a line, in which `*513` stands for the hex of 513 bytes.
    fn call(line: &str) -> Call {
        let whole = match line.split_once('*') {
            Some((start, length)) => start.to_string() + &"5a".repeat(length.parse().expect("a length")),
            None => line.to_string(),
        };
        parse(whole.as_bytes()).expect("a call")
    }

    fn meets(kernel: &Kernel, line: &str, expected: &[&str]) {
        assert_eq!(kinds(kernel, &call(line)), expected, "{line}");
    }

    #[test]
    fn sends() {
        let page = ["a page while 0 runs", "a page that is queued", "a page in buffers side by side"];
        meets(&Kernel::fresh(), "send 0 *513", &[&["sent, 513 bytes"][..], &page].concat());
        meets(&Kernel::fresh(), "send 0 *1000", &page);
        meets(&Kernel::fresh(), "send 0 *512", &["sent, 512 bytes"]);
        meets(&Kernel::fresh(), "send 0 *4097", &["6 for 4097 bytes"]);
        meets(&Kernel::fresh(), "send 16 *4097", &[]);
        // 3 buffers are free.
        let kernel = after("send 0 *4096, send 0 *4096, send 0 *4096, send 0 *2000, send 1 *1");
        let all = ["a page while 0 runs", "a page that is queued", "a page in buffers side by side", "a page in all buffers that were free"];
        meets(&kernel, "send 1 *1025", &[&["sent, 1025 bytes"][..], &all].concat());
        meets(&kernel, "send 1 *1537", &["12 by one buffer, with others free"]);
        meets(&kernel, "send 1 *4096", &["12 by more than one buffer, with others free"]);
        // Buffer 3 is free, and 4 from 8 on.
        let kernel = after("send 0 *1, send 0 *1, send 0 *1, send 1 *1, send 0 *2000, create 1, receive 1, release");
        meets(&kernel, "send 1 *600", &["a page that is queued", "a page in buffers that are not side by side"]);
    }

    #[test]
    fn drops() {
        // Mailbox 5 has a page in buffers 1, 2 and 3; 0 and 4 to 10 are free.
        let kernel = after("mailbox 5 1 1, create 1, send 0 -, send 5 *1500, send 1 *4096, send 1 *4096, send 1 *2000, send 1 *1, receive 0, release");
        let queued = ["a page that is queued", "a page in buffers side by side", "a drop of a page"];
        let of_three = "a drop that gives back three or more, of which the message takes some, and others";
        meets(&kernel, "send 5 *600", &[&queued[..], &[of_three, "a drop that gives back more than are taken"]].concat());
        meets(&kernel, "send 5 -", &["sent, 0 bytes", "a drop of a page", "a drop that gives back more than are taken"]);
        // Mailboxes 5 and 6 have a page in three buffers each, and two buffers are free.
        let kernel = after("mailbox 5 1 1, mailbox 6 1 1, send 5 *1025, send 0 *4096, send 0 *4096, send 0 *4096, send 6 *1200");
        let fewer = ["a drop that gives back fewer than are taken", "a drop without which there would be too few"];
        let gap = ["a page while 0 runs", "a page that is queued", "a page in buffers that are not side by side", "a drop of a page", of_three];
        meets(&kernel, "send 5 *2500", &[&gap[..], &fewer].concat());
        meets(&kernel, "send 5 *2561", &["12 by one buffer, with a drop", "12 with a drop that would give back three or more"]);
        meets(&kernel, "send 6 *4096", &["12 by more than one buffer, with a drop", "12 with a drop that would give back three or more"]);
        meets(&kernel, "send 7 *1025", &["12 by one buffer, with others free"]);
    }

    #[test]
    fn hands() {
        let kernel = after("create 1, send 3 *4096, receive 3");
        meets(&kernel, "read 4096", &["read, 4096 bytes", "a page read in a room of its length", "a page read in the longest room"]);
        meets(&kernel, "read 4095", &["9 for a page, by one byte"]);
        meets(&kernel, "read 512", &["9 for a page, in a room of a buffer"]);
        meets(&kernel, "read 0", &["9 for a page, in no room"]);
        meets(&kernel, "release", &["released, a page", "released, 8 buffers"]);
        meets(&kernel, "end", &["ended with a page in hand", "ended with 8 buffers in hand"]);
        meets(&kernel, "stop 257", &["stopped with a page in hand, running", "stopped with 8 buffers in hand"]);
        meets(&kernel, "stop 1", &[]);
        meets(&kernel, "receive 3", &["7 with a page in hand"]);
        meets(&kernel, "receive 16", &[]);
        let kernel = after("create 1, send 3 *513, receive 3, create 4");
        meets(&kernel, "stop 257", &["stopped with a page in hand, ready"]);
        meets(&kernel, "end", &[]);
        meets(&kernel, "read 0", &[]);
    }

    /// A call is answered with the code that begins the words of what it meets, or is done.
    #[test]
    fn kinds_are_answered_so() {
        for seed in [0, 2, 3, 6, 7, 14] {
            let mut script = Script::new(seed, 500);
            let mut kernel = Kernel::fresh();
            while let Some(line) = script.next_line() {
                let Some(call) = parse(&line) else { continue };
                let met = kinds(&kernel, &call);
                let code = kernel.apply(&call).0.code;
                for kind in &met {
                    assert_eq!(code, code_of(kind), "seed {seed}, {call:?}: {kind}");
                }
            }
        }
    }
}
