//! The kernel of document 01 as places and lists in order, its slice and the sizes of its mailboxes settings, its processes
//! named and its messages over several buffers as in document 02.
//! Written to be obvious, not fast.
//!
//! A kernel here is always sound: it starts fresh and only its calls change it, or it comes from `image::decide`.
//! So codes 14 and 15, which are for states and stores from outside, are not given here but in `lent`.

use crate::answer::*;
use std::collections::{HashSet, VecDeque};

/// Processes are numbered 0 to 31; 0 is the null process.
pub const PROCESSES: usize = 32;
pub const CLASSES: usize = 5;
pub const MAILBOXES: usize = 16;
/// How many messages may be queued in a mailbox where nothing else is set.
pub const USUAL_CAPACITY: usize = 8;
pub const LARGEST_CAPACITY: usize = 32;
/// What a full mailbox does with another message: it is refused, or pushes out the oldest.
pub const REFUSES: u32 = 0;
pub const DROPS: u32 = 1;
pub const BUFFERS: usize = 32;
pub const BUFFER_BYTES: usize = 512;
pub const STORE_BYTES: usize = BUFFERS * BUFFER_BYTES;
pub const LONGEST_MESSAGE: usize = 4_096;
pub const SEMAPHORES: usize = 16;
pub const COUNT_LIMIT: u32 = 65_535;
/// Ticks of a whole slice where none is named.
pub const USUAL_SLICE: u32 = 5;
pub const LONGEST_SLICE: u32 = 255;
/// A name is a number plus this many times its birth count, which is always less.
pub const BIRTHS: u32 = 256;

/// A message and the buffers that it lies in: byte i in number i / 512 of them, at i % 512.
#[derive(Clone, Debug, PartialEq, Eq)]
pub struct Message {
    pub buffers: Vec<usize>,
    pub bytes: Vec<u8>,
}

impl Message {
    /// The buffer that stands for all of them in mailboxes and hands.
    pub fn first(&self) -> usize {
        self.buffers[0]
    }

    /// What lies in each of its buffers, and where that begins in the store.
    pub fn parts(&self) -> impl Iterator<Item = (usize, &[u8])> {
        self.buffers.iter().map(|buffer| BUFFER_BYTES * buffer).zip(self.bytes.chunks(BUFFER_BYTES))
    }
}

/// In how many buffers a message of so many bytes lies.
pub fn buffers_needed(length: usize) -> usize {
    length.div_ceil(BUFFER_BYTES).max(1)
}

#[derive(Clone, Debug, PartialEq, Eq)]
pub struct Process {
    pub class: usize,
    pub ticks: u32,
    pub hand: Option<Message>,
}

/// First in the queue is first in the list, here and everywhere.
#[derive(Clone, Debug, PartialEq, Eq)]
pub struct Mailbox {
    pub messages: VecDeque<Message>,
    pub waiters: VecDeque<usize>,
    pub capacity: usize,
    pub mode: u32,
}

impl Default for Mailbox {
    fn default() -> Mailbox {
        Mailbox { messages: VecDeque::new(), waiters: VecDeque::new(), capacity: USUAL_CAPACITY, mode: REFUSES }
    }
}

impl Mailbox {
    pub fn is_full(&self) -> bool {
        self.messages.len() == self.capacity
    }

    pub fn is_busy(&self) -> bool {
        !self.messages.is_empty() || !self.waiters.is_empty()
    }

    /// The message that it loses if another is queued.
    pub fn oldest_to_drop(&self) -> Option<&Message> {
        self.messages.front().filter(|_| self.is_full() && self.mode == DROPS)
    }
}

#[derive(Clone, Debug, Default, PartialEq, Eq)]
pub struct Semaphore {
    pub count: u32,
    pub waiters: VecDeque<usize>,
}

#[derive(Clone, Debug, PartialEq, Eq)]
pub struct Kernel {
    /// Who runs; 0 is the null process.
    pub running: usize,
    /// None is an unused number. Process 0 has no class, ticks or hand, so its entry is None too.
    pub processes: [Option<Process>; PROCESSES],
    /// Who is ready, by class. The one that runs is in none of them.
    pub ready: [VecDeque<usize>; CLASSES],
    pub mailboxes: [Mailbox; MAILBOXES],
    pub semaphores: [Semaphore; SEMAPHORES],
    /// The birth count of each number, raised whenever it becomes a process; it stays when the number is unused again.
    pub births: [u8; PROCESSES],
    /// Ticks of a whole slice, fixed at the fresh start.
    pub slice: u32,
}

impl Kernel {
    /// The fresh start where no slice is named.
    pub fn fresh() -> Kernel {
        Kernel {
            running: 0,
            processes: Default::default(),
            ready: Default::default(),
            mailboxes: Default::default(),
            semaphores: Default::default(),
            births: [0; PROCESSES],
            slice: USUAL_SLICE,
        }
    }

    /// The fresh start with a slice; None where it is outside 1 to 255, which is refused with code 16.
    pub fn fresh_slice(slice: u32) -> Option<Kernel> {
        (1..=LONGEST_SLICE).contains(&slice).then(|| Kernel { slice, ..Kernel::fresh() })
    }

    // The calls.

    pub fn create(&mut self, class: u32) -> Answer {
        if class as usize >= CLASSES {
            return self.answer(NO_SUCH_CLASS, 0);
        }
        let Some(new) = self.lowest_unused() else {
            return self.answer(NO_UNUSED_PROCESS, 0);
        };
        self.processes[new] = Some(Process { class: class as usize, ticks: self.slice, hand: None });
        self.births[new] = if self.births[new] == 255 { 0 } else { self.births[new] + 1 };
        self.make_ready(new);
        self.answer(DONE, self.name(new) as usize)
    }

    pub fn stop(&mut self, name: u32) -> Answer {
        match self.named(name) {
            Some(stopped) if self.processes[stopped].is_some() => {
                self.remove(stopped);
                self.answer(DONE, 0)
            }
            _ => self.answer(NO_SUCH_PROCESS, 0),
        }
    }

    pub fn end(&mut self) -> Answer {
        if self.running == 0 {
            return self.answer(NULL_RUNS, 0);
        }
        self.remove(self.running);
        self.answer(DONE, 0)
    }

    pub fn yield_now(&mut self) -> Answer {
        if self.running == 0 {
            return self.answer(NULL_RUNS, 0);
        }
        self.caller_to_the_rear();
        self.answer(DONE, 0)
    }

    pub fn class(&mut self, class: u32) -> Answer {
        if self.running == 0 {
            return self.answer(NULL_RUNS, 0);
        }
        if class as usize >= CLASSES {
            return self.answer(NO_SUCH_CLASS, 0);
        }
        if self.caller().class != class as usize {
            self.caller().class = class as usize;
            self.caller_to_the_rear();
        }
        self.answer(DONE, 0)
    }

    pub fn tick(&mut self) -> Answer {
        if self.running != 0 {
            self.caller().ticks -= 1;
            if self.caller().ticks == 0 {
                self.caller_to_the_rear();
            }
        }
        self.answer(DONE, 0)
    }

    pub fn send(&mut self, mailbox: u32, bytes: &[u8]) -> Answer {
        if mailbox as usize >= MAILBOXES {
            return self.answer(NO_SUCH_MAILBOX, 0);
        }
        if bytes.len() > LONGEST_MESSAGE {
            return self.answer(MESSAGE_TOO_LONG, 0);
        }
        let is_full = self.mailboxes[mailbox as usize].is_full();
        if is_full && self.mailboxes[mailbox as usize].mode == REFUSES {
            return self.answer(MAILBOX_FULL, 0);
        }
        let Some(buffers) = self.buffers_for(mailbox, bytes.len()) else {
            return self.answer(TOO_FEW_BUFFERS, 0);
        };
        let message = Message { buffers, bytes: bytes.to_vec() };
        let mailbox = &mut self.mailboxes[mailbox as usize];
        if is_full {
            mailbox.messages.pop_front();
        }
        match mailbox.waiters.pop_front() {
            Some(waiter) => {
                self.process(waiter).hand = Some(message);
                self.make_ready(waiter);
            }
            None => mailbox.messages.push_back(message),
        }
        self.answer(DONE, 0)
    }

    pub fn receive(&mut self, mailbox: u32) -> Answer {
        if self.running == 0 {
            return self.answer(NULL_RUNS, 0);
        }
        if mailbox as usize >= MAILBOXES {
            return self.answer(NO_SUCH_MAILBOX, 0);
        }
        if self.caller().hand.is_some() {
            return self.answer(HAND_FULL, 0);
        }
        match self.mailboxes[mailbox as usize].messages.pop_front() {
            Some(message) => {
                let length = message.bytes.len();
                self.caller().hand = Some(message);
                self.answer(DONE, length)
            }
            None => {
                self.caller().ticks = self.slice;
                self.mailboxes[mailbox as usize].waiters.push_back(self.running);
                self.choose();
                self.answer(CALLER_WAITS, 0)
            }
        }
    }

    /// The answer, and the message in hand if the room is long enough.
    pub fn read(&self, room: u32) -> (Answer, Option<Vec<u8>>) {
        if self.running == 0 {
            return (self.answer(NULL_RUNS, 0), None);
        }
        let Some(message) = self.hand_of(self.running) else {
            return (self.answer(HAND_EMPTY, 0), None);
        };
        let length = message.bytes.len();
        if (room as usize) < length {
            return (self.answer(TOO_LITTLE_ROOM, length), None);
        }
        (self.answer(DONE, length), Some(message.bytes.clone()))
    }

    pub fn release(&mut self) -> Answer {
        if self.running == 0 {
            return self.answer(NULL_RUNS, 0);
        }
        if self.caller().hand.is_none() {
            return self.answer(HAND_EMPTY, 0);
        }
        self.caller().hand = None;
        self.answer(DONE, 0)
    }

    pub fn signal(&mut self, semaphore: u32) -> Answer {
        if semaphore as usize >= SEMAPHORES {
            return self.answer(NO_SUCH_SEMAPHORE, 0);
        }
        let semaphore = &mut self.semaphores[semaphore as usize];
        if semaphore.count == COUNT_LIMIT {
            return self.answer(COUNT_AT_LIMIT, 0);
        }
        match semaphore.waiters.pop_front() {
            Some(waiter) => self.make_ready(waiter),
            None => semaphore.count += 1,
        }
        self.answer(DONE, 0)
    }

    pub fn wait(&mut self, semaphore: u32) -> Answer {
        if self.running == 0 {
            return self.answer(NULL_RUNS, 0);
        }
        if semaphore as usize >= SEMAPHORES {
            return self.answer(NO_SUCH_SEMAPHORE, 0);
        }
        if self.semaphores[semaphore as usize].count > 0 {
            self.semaphores[semaphore as usize].count -= 1;
            return self.answer(DONE, 0);
        }
        self.caller().ticks = self.slice;
        self.semaphores[semaphore as usize].waiters.push_back(self.running);
        self.choose();
        self.answer(CALLER_WAITS, 0)
    }

    /// Sets the size and the habit of a mailbox that nobody uses.
    pub fn mailbox(&mut self, mailbox: u32, capacity: u32, mode: u32) -> Answer {
        if mailbox as usize >= MAILBOXES {
            return self.answer(NO_SUCH_MAILBOX, 0);
        }
        if !(1..=LARGEST_CAPACITY).contains(&(capacity as usize)) || ![REFUSES, DROPS].contains(&mode) {
            return self.answer(NO_SUCH_SIZE, 0);
        }
        if self.mailboxes[mailbox as usize].is_busy() {
            return self.answer(MAILBOX_BUSY, 0);
        }
        self.mailboxes[mailbox as usize].capacity = capacity as usize;
        self.mailboxes[mailbox as usize].mode = mode;
        self.answer(DONE, 0)
    }

    // Who runs.

    /// The first of the highest class with anyone ready runs, else 0.
    fn choose(&mut self) {
        self.running = self.ready.iter_mut().rev().find_map(|queue| queue.pop_front()).unwrap_or(0);
    }

    /// Joins the rear of its class with a whole slice; one above the running one's class runs at once,
    /// and the one that ran goes to the front of its own class with its ticks left.
    fn make_ready(&mut self, woken: usize) {
        self.process(woken).ticks = self.slice;
        let class = self.process(woken).class;
        self.ready[class].push_back(woken);
        if self.running == 0 {
            self.choose();
        } else if class > self.caller().class {
            let preempted_class = self.caller().class;
            self.ready[preempted_class].push_front(self.running);
            self.choose();
        }
    }

    fn caller_to_the_rear(&mut self) {
        self.caller().ticks = self.slice;
        let class = self.caller().class;
        self.ready[class].push_back(self.running);
        self.choose();
    }

    /// Out of whatever place it is in; the message in its hand goes with it.
    fn remove(&mut self, stopped: usize) {
        self.processes[stopped] = None;
        let queues = self.ready.iter_mut();
        let at_mailboxes = self.mailboxes.iter_mut().map(|mailbox| &mut mailbox.waiters);
        let at_semaphores = self.semaphores.iter_mut().map(|semaphore| &mut semaphore.waiters);
        for queue in queues.chain(at_mailboxes).chain(at_semaphores) {
            queue.retain(|&process| process != stopped);
        }
        if self.running == stopped {
            self.choose();
        }
    }

    // Looking around.

    pub(crate) fn answer(&self, code: u32, number: usize) -> Answer {
        Answer { code, number: number as u32, running: self.running as u32 }
    }

    /// The name of a number 0 to 31, in use or not.
    pub fn name(&self, number: usize) -> u32 {
        number as u32 + BIRTHS * u32::from(self.births[number])
    }

    /// The number that has this name now; None if none has.
    pub(crate) fn named(&self, name: u32) -> Option<usize> {
        (0..PROCESSES).find(|&number| self.name(number) == name)
    }

    /// A process that is in use.
    fn process(&mut self, number: usize) -> &mut Process {
        self.processes[number].as_mut().expect("a process in use")
    }

    /// The running process, which must not be 0.
    fn caller(&mut self) -> &mut Process {
        self.process(self.running)
    }

    pub fn hand_of(&self, process: usize) -> Option<&Message> {
        self.processes[process].as_ref()?.hand.as_ref()
    }

    pub fn lowest_unused(&self) -> Option<usize> {
        (1..PROCESSES).find(|&number| self.processes[number].is_none())
    }

    /// The buffers that no message lies in, the lowest first.
    pub fn free_buffers(&self) -> Vec<usize> {
        let held: HashSet<&usize> = self.held().flat_map(|message| &message.buffers).collect();
        (0..BUFFERS).filter(|buffer| !held.contains(buffer)).collect()
    }

    /// The buffers that a message of so many bytes to this mailbox takes, if there are enough: the lowest free ones, those of the
    /// message dropped for it among them.
    pub fn buffers_for(&self, mailbox: u32, length: usize) -> Option<Vec<usize>> {
        let dropped = self.mailboxes.get(mailbox as usize)?.oldest_to_drop();
        let mut free = self.free_buffers();
        free.extend(dropped.into_iter().flat_map(|message| &message.buffers));
        free.sort();
        free.get(..buffers_needed(length)).map(<[usize]>::to_vec)
    }

    /// Every message there is, in hands and in mailboxes.
    pub fn held(&self) -> impl Iterator<Item = &Message> {
        let in_hands = (1..PROCESSES).filter_map(|process| self.hand_of(process));
        let queued = self.mailboxes.iter().flat_map(|mailbox| &mailbox.messages);
        in_hands.chain(queued)
    }

    /// Every message there is, to change it.
    pub fn held_mut(&mut self) -> impl Iterator<Item = &mut Message> {
        let in_hands = self.processes.iter_mut().flatten().filter_map(|process| process.hand.as_mut());
        let queued = self.mailboxes.iter_mut().flat_map(|mailbox| &mut mailbox.messages);
        in_hands.chain(queued)
    }
}
