//! What a call meets at a mailbox: its size and habit, what stands in it, and which buffers are free. For random scripts, which
//! draw settings of every kind, and to tell which kinds of settings, sends and receives came.

use crate::call::Call;
use crate::kernel::*;
use crate::kinds::{those, words, Kind};
use crate::random::Random;
use crate::sizes::{any_mailbox, capacity, mode, wrong_capacity, wrong_mode};
use std::ops::RangeInclusive;

/// Capacity and mode.
type Size = (u32, u32);

fn size_of(mailbox: &Mailbox) -> Size {
    (mailbox.capacity as u32, mailbox.mode)
}

/// What a mailbox has been through.
#[derive(Clone, Copy, Debug, Default)]
struct Past {
    /// What it was before it was set to what it is.
    earlier: Option<Size>,
    /// Whether it was full since then.
    was_full: bool,
    /// How many of its messages were there when it last dropped one, the one that came among them.
    spared: usize,
    /// Whether its oldest message would have been dropped, but for too few buffers.
    kept: bool,
}

/// What all of them have been through.
#[derive(Clone, Debug, Default)]
pub struct History {
    mailboxes: [Past; MAILBOXES],
}

/// A call `mailbox` and the state that it comes to.
struct Setting<'a> {
    kernel: &'a Kernel,
    past: Past,
    number: u32,
    capacity: u32,
    mode: u32,
}

impl Setting<'_> {
    fn is_at(&self, wanted: impl Fn(&Mailbox) -> bool) -> bool {
        self.kernel.mailboxes.get(self.number as usize).is_some_and(wanted)
    }

    fn capacity_is(&self, range: RangeInclusive<u32>) -> bool {
        range.contains(&self.capacity)
    }

    fn mode_is(&self, range: RangeInclusive<u32>) -> bool {
        range.contains(&self.mode)
    }

    fn capacity_is_right(&self) -> bool {
        self.capacity_is(1..=32)
    }

    fn mode_is_right(&self) -> bool {
        self.mode_is(0..=1)
    }

    fn is_right(&self) -> bool {
        self.capacity_is_right() && self.mode_is_right()
    }

    fn is_idle(&self) -> bool {
        self.is_at(|mailbox| !mailbox.is_busy())
    }

    fn is_made(&self) -> bool {
        self.is_right() && self.is_idle()
    }

    fn makes(&self, capacity: RangeInclusive<u32>, mode: u32) -> bool {
        self.is_made() && self.capacity_is(capacity) && self.mode_is(mode..=mode)
    }

    fn changes(&self) -> bool {
        self.is_at(|mailbox| size_of(mailbox) != (self.capacity, self.mode))
    }

    fn meets_messages(&self) -> bool {
        self.is_at(|mailbox| !mailbox.messages.is_empty())
    }

    fn meets_waiters(&self) -> bool {
        self.is_at(|mailbox| !mailbox.waiters.is_empty())
    }

    fn is_over(&self) -> bool {
        self.number as usize >= MAILBOXES
    }

    /// Wrong in its capacity alone, at a mailbox that nobody uses.
    fn wrong_capacity(&self, range: RangeInclusive<u32>) -> bool {
        self.is_idle() && self.mode_is_right() && self.capacity_is(range)
    }

    fn wrong_mode(&self, range: RangeInclusive<u32>) -> bool {
        self.is_idle() && self.capacity_is_right() && self.mode_is(range)
    }
}

/// A send to one of the mailboxes and the state that it comes to.
struct Sending<'a> {
    kernel: &'a Kernel,
    mailbox: &'a Mailbox,
    length: usize,
    finds_buffers: bool,
}

impl Sending<'_> {
    fn new(kernel: &Kernel, number: u32, length: usize) -> Option<Sending<'_>> {
        let mailbox = kernel.mailboxes.get(number as usize)?;
        Some(Sending { kernel, mailbox, length, finds_buffers: kernel.buffers_for(number, length).is_some() })
    }

    fn fits(&self) -> bool {
        self.length <= LONGEST_MESSAGE
    }

    fn is_refused(&self) -> bool {
        self.fits() && self.mailbox.is_full() && self.mailbox.mode == REFUSES
    }

    fn drops(&self) -> bool {
        self.fits() && self.mailbox.oldest_to_drop().is_some() && self.finds_buffers
    }

    /// Would drop a message, but does not find buffers enough then.
    fn keeps(&self) -> bool {
        self.fits() && self.mailbox.oldest_to_drop().is_some() && !self.finds_buffers
    }

    fn refused_at(&self, capacity: RangeInclusive<usize>) -> bool {
        self.is_refused() && capacity.contains(&self.mailbox.capacity)
    }

    fn drops_at(&self, capacity: RangeInclusive<usize>) -> bool {
        self.drops() && capacity.contains(&self.mailbox.capacity)
    }

    /// The lowest free buffer, if the mailbox drops nothing.
    fn free(&self) -> Option<usize> {
        self.kernel.free_buffers().first().copied()
    }

    /// Finds room, but too few buffers.
    fn is_short_at(&self, mode: u32) -> bool {
        self.fits() && self.mailbox.mode == mode && !self.mailbox.is_full() && !self.finds_buffers
    }

    /// Finds room and buffers.
    fn is_served_at(&self, mode: u32) -> bool {
        self.fits() && self.mailbox.mode == mode && !self.mailbox.is_full() && self.finds_buffers
    }

    /// Drops a message of which this holds, by its first buffer and its length.
    fn drops_one(&self, wanted: impl Fn(usize, usize) -> bool) -> bool {
        self.drops() && self.mailbox.messages.front().is_some_and(|oldest| wanted(oldest.first(), oldest.bytes.len()))
    }
}

/// A receive at one of the mailboxes and the state that it comes to.
struct Receiving<'a> {
    kernel: &'a Kernel,
    past: Past,
    mailbox: &'a Mailbox,
}

impl Receiving<'_> {
    fn may(&self) -> bool {
        self.kernel.running != 0 && self.kernel.hand_of(self.kernel.running).is_none()
    }

    fn takes(&self) -> bool {
        self.may() && !self.mailbox.messages.is_empty()
    }
}

type OfSettings = fn(&Setting) -> bool;
type OfSends = fn(&Sending) -> bool;
type OfReceives = fn(&Receiving) -> bool;

const SETTINGS: &[Kind<OfSettings>] = &[
    ("set to refuse at 1", |set| set.makes(1..=1, REFUSES)),
    ("set to refuse at 2", |set| set.makes(2..=2, REFUSES)),
    ("set to refuse at 3 to 7", |set| set.makes(3..=7, REFUSES)),
    ("set to refuse at 8", |set| set.makes(8..=8, REFUSES)),
    ("set to refuse at 9 to 31", |set| set.makes(9..=31, REFUSES)),
    ("set to refuse at 32", |set| set.makes(32..=32, REFUSES)),
    ("set to drop at 1", |set| set.makes(1..=1, DROPS)),
    ("set to drop at 2", |set| set.makes(2..=2, DROPS)),
    ("set to drop at 3 to 7", |set| set.makes(3..=7, DROPS)),
    ("set to drop at 8", |set| set.makes(8..=8, DROPS)),
    ("set to drop at 9 to 31", |set| set.makes(9..=31, DROPS)),
    ("set to drop at 32", |set| set.makes(32..=32, DROPS)),
    ("set while 0 runs", |set| set.is_made() && set.kernel.running == 0),
    ("set while a process runs", |set| set.is_made() && set.kernel.running != 0),
    ("set to what it is", |set| set.is_made() && !set.changes()),
    ("set back to what it was, after it was full", |set| {
        set.is_made() && set.past.was_full && set.past.earlier == Some((set.capacity, set.mode))
    }),
    ("set, the first mailbox", |set| set.is_made() && set.number == 0),
    ("set, the last mailbox", |set| set.is_made() && set.number == 15),
    ("3 for mailbox 16", |set| set.is_right() && set.number == 16),
    ("3 for a mailbox over 16", |set| set.is_right() && set.number > 16),
    ("3 for a mailbox whose lowest 8 bits would do", |set| set.is_right() && set.is_over() && set.number % 256 < 16),
    ("3 where the capacity is wrong too", |set| set.is_over() && set.mode_is_right() && !set.capacity_is_right()),
    ("3 where the mode is wrong too", |set| set.is_over() && set.capacity_is_right() && !set.mode_is_right()),
    ("3 where both are wrong too", |set| set.is_over() && !set.capacity_is_right() && !set.mode_is_right()),
    ("3 to a setting while 0 runs", |set| set.is_over() && set.kernel.running == 0),
    ("17 for a capacity of 0", |set| set.wrong_capacity(0..=0)),
    ("17 for a capacity of 33", |set| set.wrong_capacity(33..=33)),
    ("17 for a capacity of 34 to 255", |set| set.wrong_capacity(34..=255)),
    ("17 for a capacity over 255", |set| set.wrong_capacity(256..=u32::MAX)),
    ("17 for a capacity whose lowest 8 bits would do", |set| set.wrong_capacity(256..=u32::MAX) && (1..=32).contains(&(set.capacity % 256))),
    ("17 for a mode of 2", |set| set.wrong_mode(2..=2)),
    ("17 for a mode of 3 to 255", |set| set.wrong_mode(3..=255)),
    ("17 for a mode over 255", |set| set.wrong_mode(256..=u32::MAX)),
    ("17 for a mode whose lowest 8 bits would do", |set| set.wrong_mode(256..=u32::MAX) && set.mode % 256 <= 1),
    ("17 for both", |set| !set.is_over() && !set.capacity_is_right() && !set.mode_is_right()),
    ("17 for a capacity, with messages", |set| set.meets_messages() && set.mode_is_right() && !set.capacity_is_right()),
    ("17 for a capacity, with waiters", |set| set.meets_waiters() && set.mode_is_right() && !set.capacity_is_right()),
    ("17 for a mode, with messages", |set| set.meets_messages() && set.capacity_is_right() && !set.mode_is_right()),
    ("17 for a mode, with waiters", |set| set.meets_waiters() && set.capacity_is_right() && !set.mode_is_right()),
    ("17 while 0 runs", |set| !set.is_over() && !set.is_right() && set.kernel.running == 0),
    ("18 for messages", |set| set.is_right() && set.meets_messages() && set.changes()),
    ("18 for messages, where nothing would change", |set| set.is_right() && set.meets_messages() && !set.changes()),
    ("18 for a full mailbox", |set| set.is_right() && set.is_at(Mailbox::is_full)),
    ("18 for waiters", |set| set.is_right() && set.meets_waiters() && set.changes()),
    ("18 for waiters, where nothing would change", |set| set.is_right() && set.meets_waiters() && !set.changes()),
    ("18 while 0 runs", |set| set.is_right() && set.is_at(Mailbox::is_busy) && set.kernel.running == 0),
    ("18 while a process runs", |set| set.is_right() && set.is_at(Mailbox::is_busy) && set.kernel.running != 0),
];

/// With numbers that no script can name.
const WIDE_SETTINGS: &[Kind<OfSettings>] = &[
    ("3 for a mailbox whose lowest 16 bits would do", |set| set.is_right() && set.number > 0xffff && set.number % 0x1_0000 < 16),
    ("3 for a mailbox near 2^32", |set| set.is_right() && set.number > u32::MAX - 32),
    ("17 for a capacity whose lowest 16 bits would do", |set| {
        set.wrong_capacity(0x1_0000..=u32::MAX) && (1..=32).contains(&(set.capacity % 0x1_0000))
    }),
    ("17 for a capacity near 2^32", |set| set.wrong_capacity(u32::MAX - 32..=u32::MAX)),
    ("17 for a mode whose lowest 16 bits would do", |set| set.wrong_mode(0x1_0000..=u32::MAX) && set.mode % 0x1_0000 <= 1),
    ("17 for a mode near 2^32", |set| set.wrong_mode(u32::MAX - 32..=u32::MAX)),
];

const SENDS: &[Kind<OfSends>] = &[
    ("11 at 1", |send| send.refused_at(1..=1)),
    ("11 at 2", |send| send.refused_at(2..=2)),
    ("11 at 3 to 7", |send| send.refused_at(3..=7)),
    ("11 at 8", |send| send.refused_at(8..=8)),
    ("11 at 9 to 31", |send| send.refused_at(9..=31)),
    ("11 at 32", |send| send.refused_at(32..=32)),
    ("11 with a buffer free", |send| send.is_refused() && send.free().is_some()),
    ("11 with no buffer free", |send| send.is_refused() && send.free().is_none()),
    ("a drop at 1", |send| send.drops_at(1..=1)),
    ("a drop at 2", |send| send.drops_at(2..=2)),
    ("a drop at 3 to 7", |send| send.drops_at(3..=7)),
    ("a drop at 8", |send| send.drops_at(8..=8)),
    ("a drop at 9 to 31", |send| send.drops_at(9..=31)),
    ("a drop at 32", |send| send.drops_at(32..=32)),
    ("a drop with no other buffer free, at less than 32", |send| send.drops_at(1..=31) && send.free().is_none()),
    ("a drop with a lower buffer free", |send| send.drops_one(|buffer, _| send.free().is_some_and(|free| free < buffer))),
    ("a drop with only higher buffers free", |send| send.drops_one(|buffer, _| send.free().is_some_and(|free| free > buffer))),
    ("a drop for a longer message", |send| send.drops_one(|_, length| length < send.length)),
    ("a drop for a shorter message", |send| send.drops_one(|_, length| length > send.length)),
    ("a drop for a message of no bytes", |send| send.drops() && send.length == 0),
    ("a drop while 0 runs", |send| send.drops() && send.kernel.running == 0),
    ("a drop while a process runs", |send| send.drops() && send.kernel.running != 0),
    ("6 at a full mailbox that drops", |send| !send.fits() && send.mailbox.oldest_to_drop().is_some()),
    ("12 at a full mailbox that drops", |send| send.keeps()),
    ("12 at an empty mailbox that drops", |send| send.is_short_at(DROPS) && !send.mailbox.is_busy()),
    ("12 at a mailbox with messages that drops", |send| send.is_short_at(DROPS) && !send.mailbox.messages.is_empty()),
    ("12 at a mailbox with waiters that drops", |send| send.is_short_at(DROPS) && !send.mailbox.waiters.is_empty()),
    ("12 at a mailbox that refuses", |send| send.is_short_at(REFUSES)),
    ("queued where there is room, at a mailbox that drops", |send| send.is_served_at(DROPS) && send.mailbox.waiters.is_empty()),
    ("to a waiter, at a mailbox that drops", |send| send.is_served_at(DROPS) && !send.mailbox.waiters.is_empty()),
];

const RECEIVES: &[Kind<OfReceives>] = &[
    ("received, a message that a drop spared", |receive| receive.takes() && receive.past.spared > 0),
    ("received, the last message that a drop spared", |receive| receive.takes() && receive.past.spared == 1),
    ("received, the oldest message, which 12 left at a full mailbox that drops", |receive| receive.takes() && receive.past.kept),
    ("received from a full mailbox that drops", |receive| receive.takes() && receive.mailbox.is_full() && receive.mailbox.mode == DROPS),
    ("received from a mailbox with more than 8 messages", |receive| receive.takes() && receive.mailbox.messages.len() > 8),
    ("32 at a mailbox that drops", |receive| receive.may() && receive.mailbox.messages.is_empty() && receive.mailbox.mode == DROPS),
];

/// All that a script can meet.
pub fn in_scripts() -> impl Iterator<Item = &'static str> {
    words(SETTINGS).chain(words(SENDS)).chain(words(RECEIVES))
}

/// All that only larger numbers than a script's can meet.
pub fn beyond_scripts() -> impl Iterator<Item = &'static str> {
    words(WIDE_SETTINGS)
}

impl History {
    fn setting<'a>(&self, kernel: &'a Kernel, number: u32, (capacity, mode): Size) -> Setting<'a> {
        let past = self.mailboxes.get(number as usize).copied().unwrap_or_default();
        Setting { kernel, past, number, capacity, mode }
    }

    /// What a call meets that comes now.
    pub fn kinds(&self, kernel: &Kernel, call: &Call) -> Vec<&'static str> {
        match call {
            Call::Mailbox(number, capacity, mode) => {
                let setting = self.setting(kernel, *number, (*capacity, *mode));
                [those(SETTINGS, |test| test(&setting)), those(WIDE_SETTINGS, |test| test(&setting))].concat()
            }
            Call::Send(number, bytes) => match Sending::new(kernel, *number, bytes.len()) {
                Some(sending) => those(SENDS, |test| test(&sending)),
                None => vec![],
            },
            Call::Receive(number) => match kernel.mailboxes.get(*number as usize) {
                Some(mailbox) => those(RECEIVES, |test| test(&Receiving { kernel, past: self.mailboxes[*number as usize], mailbox })),
                None => vec![],
            },
            _ => vec![],
        }
    }

    /// Looks at each call before it is made.
    pub fn follow(&mut self, kernel: &Kernel, call: &Call) {
        let (Call::Mailbox(number, ..) | Call::Send(number, _) | Call::Receive(number)) = call else { return };
        let Some(mailbox) = kernel.mailboxes.get(*number as usize) else { return };
        let mut past = self.mailboxes[*number as usize];
        past.was_full |= mailbox.is_full();
        match call {
            Call::Mailbox(_, capacity, mode) => {
                let setting = self.setting(kernel, *number, (*capacity, *mode));
                if setting.is_made() && setting.changes() {
                    past = Past { earlier: Some(size_of(mailbox)), ..Past::default() };
                }
            }
            Call::Send(_, bytes) => match Sending::new(kernel, *number, bytes.len()) {
                Some(sending) if sending.drops() => past = Past { spared: mailbox.capacity, kept: false, ..past },
                Some(sending) => past.kept |= sending.keeps(),
                None => (),
            },
            Call::Receive(_) if (Receiving { kernel, past, mailbox }).takes() => {
                past = Past { spared: past.spared.saturating_sub(1), kept: false, ..past };
            }
            _ => (),
        }
        self.mailboxes[*number as usize] = past;
    }

    /// Mailboxes with messages that a drop spared.
    pub fn that_dropped(&self) -> Vec<u32> {
        (0..MAILBOXES as u32).filter(|&number| self.mailboxes[number as usize].spared > 0).collect()
    }

    /// A setting of any kind, its numbers up to 65,535.
    pub fn draw(&self, kernel: &Kernel, random: &mut Random) -> Call {
        let number = any_mailbox(kernel, random);
        let present = kernel.mailboxes.get(number as usize).map(size_of);
        let earlier = self.mailboxes.get(number as usize).and_then(|past| past.earlier);
        let (capacity, mode) = match random.below(12) {
            0 | 1 => (wrong_capacity(random), mode(random)),
            2 | 3 => (capacity(random), wrong_mode(random)),
            4 => (wrong_capacity(random), wrong_mode(random)),
            5 | 6 => present.unwrap_or((32, DROPS)),
            7 => earlier.or(present).unwrap_or((1, REFUSES)),
            _ => (capacity(random), mode(random)),
        };
        Call::Mailbox(number, capacity, mode)
    }

    /// Sets a mailbox that was full back to what it was, if there is one that nobody uses now.
    pub fn draw_back(&self, kernel: &Kernel, random: &mut Random) -> Option<Call> {
        let idle = (0..MAILBOXES).filter(|&number| self.mailboxes[number].was_full && !kernel.mailboxes[number].is_busy());
        let number = random.pick(&idle.collect::<Vec<_>>())?;
        let (capacity, mode) = self.mailboxes[number].earlier?;
        Some(Call::Mailbox(number as u32, capacity, mode))
    }
}

#[cfg(test)]
mod tests {
    use super::*;
    use crate::answer::Answer;
    use crate::grammar::parse;
    use crate::kinds::code_of;
    use crate::scripts::Script;

    /// A kernel with calls behind it.
    struct Run {
        kernel: Kernel,
        history: History,
    }

    impl Run {
        fn after(calls: &str) -> Run {
            let mut run = Run { kernel: Kernel::fresh(), history: History::default() };
            run.go_on(calls);
            run
        }

        /// Makes the calls of a list with commas.
        fn go_on(&mut self, calls: &str) {
            for line in calls.split(", ") {
                self.make(&parse(line.as_bytes()).expect("a call"));
            }
        }

        fn make(&mut self, call: &Call) -> Answer {
            self.history.follow(&self.kernel, call);
            self.kernel.apply(call).0
        }

        /// What a call meets now, and nothing else.
        fn meets(&self, line: &str, kinds: &[&str]) {
            assert_eq!(self.history.kinds(&self.kernel, &parse(line.as_bytes()).expect("a call")), kinds, "{line}");
        }
    }

    #[test]
    fn settings() {
        let run = Run::after("send 3 -, create 1, receive 4");
        run.meets("mailbox 0 1 0", &["set to refuse at 1", "set while 0 runs", "set, the first mailbox"]);
        run.meets("mailbox 15 32 1", &["set to drop at 32", "set while 0 runs", "set, the last mailbox"]);
        run.meets("mailbox 5 8 0", &["set to refuse at 8", "set while 0 runs", "set to what it is"]);
        run.meets("mailbox 16 8 0", &["3 for mailbox 16", "3 to a setting while 0 runs"]);
        run.meets("mailbox 258 0 1", &["3 where the capacity is wrong too", "3 to a setting while 0 runs"]);
        run.meets("mailbox 5 0 1", &["17 for a capacity of 0", "17 while 0 runs"]);
        run.meets("mailbox 5 264 1", &["17 for a capacity over 255", "17 for a capacity whose lowest 8 bits would do", "17 while 0 runs"]);
        run.meets("mailbox 5 8 2", &["17 for a mode of 2", "17 while 0 runs"]);
        run.meets("mailbox 5 33 3", &["17 for both", "17 while 0 runs"]);
        run.meets("mailbox 3 33 1", &["17 for a capacity, with messages", "17 while 0 runs"]);
        run.meets("mailbox 4 8 2", &["17 for a mode, with waiters", "17 while 0 runs"]);
        run.meets("mailbox 3 9 0", &["18 for messages", "18 while 0 runs"]);
        run.meets("mailbox 4 8 0", &["18 for waiters, where nothing would change", "18 while 0 runs"]);
        let run = Run::after("create 1, mailbox 3 1 1, send 3 -");
        run.meets("mailbox 3 1 1", &["18 for messages, where nothing would change", "18 for a full mailbox", "18 while a process runs"]);
    }

    #[test]
    fn sends() {
        let mut run = Run::after("mailbox 3 2 1, mailbox 4 2 0, send 3 aa, send 4 -, send 4 -");
        run.meets("send 3 -", &["queued where there is room, at a mailbox that drops"]);
        run.meets("send 4 -", &["11 at 2", "11 with a buffer free"]);
        run.meets("send 5 -", &[]);
        run.go_on("send 3 bb");
        let dropped = ["a drop at 2", "a drop with only higher buffers free"];
        run.meets("send 3 aabb", &[&dropped[..], &["a drop for a longer message", "a drop while 0 runs"]].concat());
        run.meets("send 3 cc", &[&dropped[..], &["a drop while 0 runs"]].concat());
        run.meets(&format!("send 3 {}", "5a".repeat(4_097)), &["6 at a full mailbox that drops"]);
        // Buffer 1 is free, and the oldest of mailbox 3 lies in buffer 3.
        run.go_on("create 1, receive 4, release, send 3 cc");
        let lower = ["a drop at 2", "a drop with a lower buffer free"];
        let shorter = ["a drop for a shorter message", "a drop for a message of no bytes", "a drop while a process runs"];
        run.meets("send 3 -", &[&lower[..], &shorter].concat());
        run.go_on("send 4 -, mailbox 9 32 0, mailbox 8 1 1");
        (0..32).for_each(|_| run.go_on("send 9 -"));
        run.meets("send 3 cc", &["a drop at 2", "a drop with no other buffer free, at less than 32", "a drop while a process runs"]);
        run.meets("send 4 -", &["11 at 2", "11 with no buffer free"]);
        run.meets("send 8 -", &["12 at an empty mailbox that drops"]);
        run.meets("send 7 -", &["12 at a mailbox that refuses"]);
    }

    /// Mailbox 3 has a message in two buffers, and two are free.
    #[test]
    fn too_few_buffers() {
        let page = |mailbox: u32, length: usize| format!("send {mailbox} {}", "5a".repeat(length));
        let mut run = Run::after("create 1, mailbox 3 1 1");
        [(3, 600), (0, 4_096), (0, 4_096), (0, 4_096), (0, 2_048)].into_iter().for_each(|(mailbox, length)| run.go_on(&page(mailbox, length)));
        run.meets(&page(4, 1_025), &["12 at a mailbox that refuses"]);
        run.meets(&page(3, 2_049), &["12 at a full mailbox that drops"]);
        let dropped = ["a drop at 1", "a drop with only higher buffers free", "a drop for a longer message", "a drop while a process runs"];
        run.meets(&page(3, 2_048), &dropped);
        let full = "received from a full mailbox that drops";
        run.meets("receive 3", &[full]);
        run.go_on(&page(3, 2_049));
        run.meets("receive 3", &["received, the oldest message, which 12 left at a full mailbox that drops", full]);
        run.go_on(&page(3, 2_048));
        run.meets("receive 3", &["received, a message that a drop spared", "received, the last message that a drop spared", full]);
    }

    #[test]
    fn what_mailboxes_have_been_through() {
        let mut run = Run::after("create 1, mailbox 3 2 1, send 3 aa, send 3 bb");
        run.meets("receive 3", &["received from a full mailbox that drops"]);
        run.go_on("send 3 cc");
        run.meets("receive 3", &["received, a message that a drop spared", "received from a full mailbox that drops"]);
        run.go_on("receive 3, release, send 3 dd");
        let spared = ["received, a message that a drop spared", "received, the last message that a drop spared"];
        run.meets("receive 3", &[&spared[..], &["received from a full mailbox that drops"]].concat());
        run.go_on("receive 3, release");
        run.meets("receive 3", &[]);
        run.go_on("receive 3, release");
        run.meets("receive 3", &["32 at a mailbox that drops"]);
        run.meets("mailbox 3 8 0", &["set to refuse at 8", "set while a process runs", "set back to what it was, after it was full"]);
        run.meets("mailbox 3 8 1", &["set to drop at 8", "set while a process runs"]);
        run.go_on("mailbox 3 8 0");
        run.meets("mailbox 3 2 1", &["set to drop at 2", "set while a process runs"]);
    }

    /// A call is answered with the code that begins the words of what it meets, or is done; a drop leaves a full mailbox, of which
    /// the first message is gone. A setting, and a send that is refused with 11, meets something that has a name here.
    #[test]
    fn kinds_are_answered_so() {
        for seed in [0, 1, 2, 3, 6, 10] {
            let mut script = Script::new(seed, 600);
            let mut run = Run { kernel: Kernel::fresh(), history: History::default() };
            let mut random = Random::new(seed);
            while let Some(line) = script.next_line() {
                let drawn = run.history.draw(&run.kernel, &mut random);
                for call in parse(&line).iter().chain([&drawn]) {
                    let before = run.kernel.clone();
                    let kinds = run.history.kinds(&run.kernel, call);
                    let code = run.make(call).code;
                    for kind in &kinds {
                        assert_eq!(code, code_of(kind), "seed {seed}, {call:?}: {kind}");
                    }
                    assert!(!kinds.is_empty() || !matches!(call, Call::Mailbox(..)) && code != 11, "seed {seed}, {call:?}");
                    if let (Call::Send(number, _), true) = (call, kinds.iter().any(|kind| kind.starts_with("a drop"))) {
                        let messages = |kernel: &Kernel| kernel.mailboxes[*number as usize].messages.clone();
                        let (before, after) = (messages(&before), messages(&run.kernel));
                        assert_eq!(after.len(), before.len());
                        assert!(before.iter().skip(1).eq(after.iter().take(after.len() - 1)));
                    }
                }
            }
        }
    }
}
