//! The driver in C and what it must write: calls go out in batches, and each reply is compared.

use independent::answer::{Answer, DONE, NOT_SOUND, NO_SUCH_PROCESS};
use independent::buffers;
use independent::call::{Call, Told};
use independent::grammar::line_of;
use independent::image::{image, IMAGE_BYTES};
use independent::kernel::{Kernel, Message, MAILBOXES, PROCESSES};
use independent::lent;
use independent::listing::Row;
use independent::mailboxes::{beyond_scripts, in_scripts, History};
use independent::names::{Born, Kind, IN_SCRIPTS};
use independent::why::KINDS;
use std::collections::BTreeMap;
use std::io::{self, BufReader, BufWriter, Read, Write};
use std::process::{Child, ChildStdin, ChildStdout, Command, Stdio};

// As in tests/board/driver.c.
const PUT: u8 = 100;
const FLUSH: u8 = 101;
const REPLY: u8 = 0xc5;
const FRESH: u8 = 0;
const LISTING: u8 = 13;
const WHY: u8 = 14;
const FRESH_SLICE: u8 = 15;
const MAILBOX: u8 = 16;
const ROOM_BYTE: u8 = 0x5c;
const ROW_BYTE: u8 = 0xee;

const ROW_BYTES: usize = 8;
/// Kind, which and ahead, four bytes each.
const REASON_BYTES: usize = 12;
/// So many differences are printed.
const PRINTED: usize = 20;

/// What the driver must write for one call.
struct Expected {
    call: String,
    answer: Answer,
    state: Vec<u8>,
    /// Where the first byte of the store changes, and the bytes from there to the last that changes.
    store_change: (usize, Vec<u8>),
    /// The room after a read, the table after a listing, the numbers of a reason after a question.
    lent: Vec<u8>,
}

/// How often something came.
type Tally = BTreeMap<String, usize>;

fn add_all(to: &mut Tally, from: &Tally) {
    for (what, times) in from {
        *to.entry(what.clone()).or_default() += times;
    }
}

/// The call with a name of this kind, for the calls that take one.
fn naming(call: &str, kind: Kind) -> String {
    format!("{call} of {}", kind.words())
}

/// All that names can be, in both calls that take one.
fn all_that_is_named() -> impl Iterator<Item = String> {
    let kinds = || IN_SCRIPTS.into_iter().chain([Kind::Over65535]);
    ["stop", "why"].into_iter().flat_map(move |call| kinds().map(move |kind| naming(call, kind)))
}

/// What a setting can ask for that comes to no sound state; other refusals come after that.
const OF_NO_STATE: [&str; 3] = ["14 for a mailbox over 15", "14 for a wrong size", "14 for a right size"];

fn of_no_state(call: &Call) -> Option<&'static str> {
    match *call {
        Call::Mailbox(number, ..) if number as usize >= MAILBOXES => Some(OF_NO_STATE[0]),
        Call::Mailbox(_, capacity, mode) if !(1..=32).contains(&capacity) || mode > 1 => Some(OF_NO_STATE[1]),
        Call::Mailbox(..) => Some(OF_NO_STATE[2]),
        _ => None,
    }
}

/// All that calls can meet at mailboxes.
fn all_that_is_met() -> impl Iterator<Item = &'static str> {
    in_scripts().chain(beyond_scripts()).chain(OF_NO_STATE)
}

fn kind(number: u32) -> String {
    format!("kind {number}")
}

fn refused_with(code: u32) -> String {
    format!("refused with {code}")
}

/// All that a question can be answered with.
fn all_that_is_told() -> impl Iterator<Item = String> {
    (0..KINDS).map(kind).chain([NOT_SOUND, NO_SUCH_PROCESS].map(refused_with))
}

/// Calls that are made in one go: the bytes for the driver and what must come back.
#[derive(Default)]
pub struct Batch {
    name: String,
    request: Vec<u8>,
    expected: Vec<Expected>,
    questions: Tally,
    names: Tally,
    mailboxes: Tally,
    buffers: Tally,
}

impl Batch {
    pub fn new(name: String) -> Batch {
        Batch { name, ..Batch::default() }
    }

    pub fn calls(&self) -> usize {
        self.expected.len()
    }

    pub fn put(&mut self, area: &[u8]) {
        self.request.push(PUT);
        self.request.extend(area);
    }

    fn request(&mut self, which: u8, number: u32, length: usize, message: &[u8]) {
        self.request.push(which);
        self.request.extend(number.to_le_bytes());
        self.request.extend((length as u16).to_le_bytes());
        self.request.extend(message);
    }

    /// A fresh start on an area that is told to be so long, with a slice or where none is named; gives the area as it is then.
    pub fn fresh(&mut self, area: &[u8], told: usize, slice: Option<u32>) -> Vec<u8> {
        self.put(area);
        self.request(slice.map_or(FRESH, |_| FRESH_SLICE), slice.unwrap_or(0), told, &[]);
        let mut lent = area.to_vec();
        lent.resize(told, 0);
        let answer = match slice {
            Some(slice) => lent::fresh_slice(&mut lent, slice),
            None => lent::fresh(&mut lent),
        };
        let after = if answer.code == DONE { lent } else { area.to_vec() };
        self.expect(format!("fresh, {told} bytes, slice {slice:?}"), answer, after.clone(), (0, vec![]), vec![]);
        after
    }

    fn expect(&mut self, call: String, answer: Answer, state: Vec<u8>, store_change: (usize, Vec<u8>), lent: Vec<u8>) {
        self.expected.push(Expected { call, answer, state, store_change, lent });
    }

    fn request_call(&mut self, call: &Call) {
        match call {
            Call::Create(class) => self.request(1, *class, 0, &[]),
            Call::Stop(name) => self.request(2, *name, 0, &[]),
            Call::End => self.request(3, 0, 0, &[]),
            Call::Yield => self.request(4, 0, 0, &[]),
            Call::Class(class) => self.request(5, *class, 0, &[]),
            Call::Tick => self.request(6, 0, 0, &[]),
            Call::Send(mailbox, bytes) => self.request(7, *mailbox, bytes.len(), bytes),
            Call::Receive(mailbox) => self.request(8, *mailbox, 0, &[]),
            Call::Read(room) => self.request(9, 0, *room as usize, &[]),
            Call::Release => self.request(10, 0, 0, &[]),
            Call::Signal(semaphore) => self.request(11, *semaphore, 0, &[]),
            Call::Wait(semaphore) => self.request(12, *semaphore, 0, &[]),
            Call::Why(name) => self.request(WHY, *name, 0, &[]),
            Call::Mailbox(mailbox, capacity, mode) => {
                self.request(MAILBOX, *mailbox, 0, &[capacity.to_le_bytes(), mode.to_le_bytes()].concat());
            }
        }
    }

    /// Counts a question by what it is answered with.
    fn count_question(&mut self, call: &Call, answer: &Answer, told: Option<&Told>) {
        let what = match (call, told) {
            (Call::Why(_), Some(Told::Reason(reason))) => kind(reason.numbers()[0]),
            (Call::Why(_), _) => refused_with(answer.code),
            _ => return,
        };
        *self.questions.entry(what).or_default() += 1;
    }

    /// Counts a name that a call takes by what it is, after calls in which numbers were born so often.
    pub fn count_name(&mut self, kernel: &Kernel, born: &Born, call: &Call) {
        let what = match call {
            Call::Stop(name) => naming("stop", born.kind(kernel, *name)),
            Call::Why(name) => naming("why", born.kind(kernel, *name)),
            _ => return,
        };
        *self.names.entry(what).or_default() += 1;
    }

    /// Counts what a call meets at a mailbox that has been through this, and what it does with buffers.
    pub fn count_visit(&mut self, kernel: &Kernel, history: &History, call: &Call) {
        for kind in history.kinds(kernel, call) {
            *self.mailboxes.entry(kind.to_string()).or_default() += 1;
        }
        for kind in buffers::kinds(kernel, call) {
            *self.buffers.entry(kind).or_default() += 1;
        }
    }

    /// A call on the kernel's image: the kernel and the store are changed as they must be.
    pub fn call(&mut self, kernel: &mut Kernel, store: &mut [u8], call: &Call) {
        self.request_call(call);
        let sent = message_of(kernel, call);
        let (answer, told) = kernel.apply(call);
        let change = sent.filter(|_| answer.code == DONE).map_or((0, vec![]), |message| write_to(store, &message));
        self.count_question(call, &answer, told.as_ref());
        self.expect(line_of(call), answer, image(kernel).to_vec(), change, lent_after(call, told.as_ref()));
    }

    /// A call on an area that holds no sound state: nothing changes.
    pub fn refused(&mut self, area: &[u8], call: &Call) {
        self.request_call(call);
        let answer = Answer { code: NOT_SOUND, number: 0, running: 0 };
        self.count_question(call, &answer, None);
        if let Some(what) = of_no_state(call) {
            *self.mailboxes.entry(what.to_string()).or_default() += 1;
        }
        self.expect(line_of(call), answer, area.to_vec(), (0, vec![]), lent_after(call, None));
    }

    pub fn listing(&mut self, kernel: &Kernel, rows: usize) {
        self.request(LISTING, 0, rows, &[]);
        let answer = kernel.listing(&mut vec![Row::default(); rows]);
        let listed = if answer.code == DONE { PROCESSES } else { 0 };
        let mut table: Vec<u8> = (0..listed).flat_map(|process| row_bytes(&kernel.row(process))).collect();
        table.resize(ROW_BYTES * rows, ROW_BYTE);
        self.expect(format!("listing {rows}"), answer, image(kernel).to_vec(), (0, vec![]), table);
    }
}

/// A row as the header has it: six bytes and a number of two.
fn row_bytes(row: &Row) -> [u8; ROW_BYTES] {
    let [place, which, position, class, ticks, full, length] = row.numbers();
    let [low, high, ..] = length.to_le_bytes();
    [place as u8, which as u8, position as u8, class as u8, ticks as u8, full as u8, low, high]
}

/// The message that a send makes where it is done, with the buffers that it takes then.
fn message_of(kernel: &Kernel, call: &Call) -> Option<Message> {
    let Call::Send(mailbox, bytes) = call else { return None };
    Some(Message { buffers: kernel.buffers_for(*mailbox, bytes.len())?, bytes: bytes.clone() })
}

/// Writes a message to the store; gives the bytes from the first to the last that are others now, with what is between.
fn write_to(store: &mut [u8], message: &Message) -> (usize, Vec<u8>) {
    let before = store.to_vec();
    for (start, part) in message.parts() {
        store[start..start + part.len()].copy_from_slice(part);
    }
    let differs = |place: &usize| store[*place] != before[*place];
    match ((0..store.len()).find(differs), (0..store.len()).rfind(differs)) {
        (Some(first), Some(last)) => (first, store[first..=last].to_vec()),
        _ => (0, vec![]),
    }
}

/// What a call leaves beside the state and the store: a room, or the numbers of a reason, which are zeros where it is refused.
fn lent_after(call: &Call, told: Option<&Told>) -> Vec<u8> {
    match (call, told) {
        (Call::Read(room), Some(Told::Message(bytes))) => room_after(*room, bytes),
        (Call::Read(room), _) => room_after(*room, &[]),
        (Call::Why(_), Some(Told::Reason(reason))) => reason.numbers().iter().flat_map(|number| number.to_le_bytes()).collect(),
        (Call::Why(_), _) => vec![0; REASON_BYTES],
        _ => vec![],
    }
}

fn room_after(room: u32, message: &[u8]) -> Vec<u8> {
    let mut bytes = message.to_vec();
    bytes.resize(room as usize, ROOM_BYTE);
    bytes
}

/// The driver, and what was counted of it.
pub struct Board {
    driver: Child,
    requests: BufWriter<ChildStdin>,
    replies: BufReader<ChildStdout>,
    passed: usize,
    failed: usize,
    codes: [usize; 64],
    questions: Tally,
    names: Tally,
    mailboxes: Tally,
    buffers: Tally,
}

impl Board {
    pub fn start(command: &[String]) -> io::Result<Board> {
        let mut driver = Command::new(&command[0]).args(&command[1..]).stdin(Stdio::piped()).stdout(Stdio::piped()).spawn()?;
        let requests = BufWriter::new(driver.stdin.take().expect("a pipe"));
        let replies = BufReader::new(driver.stdout.take().expect("a pipe"));
        let [questions, names, mailboxes, buffers] = Default::default();
        Ok(Board { driver, requests, replies, passed: 0, failed: 0, codes: [0; 64], questions, names, mailboxes, buffers })
    }

    /// Makes the calls of a batch and compares each. A driver that stops is an error.
    pub fn run(&mut self, batch: &Batch) -> io::Result<()> {
        add_all(&mut self.questions, &batch.questions);
        add_all(&mut self.names, &batch.names);
        add_all(&mut self.mailboxes, &batch.mailboxes);
        add_all(&mut self.buffers, &batch.buffers);
        let (requests, replies) = (&mut self.requests, &mut self.replies);
        let (passed, failed, codes, driver) = (&mut self.passed, &mut self.failed, &mut self.codes, &mut self.driver);
        std::thread::scope(|scope| {
            let writer = scope.spawn(move || {
                requests.write_all(&batch.request)?;
                requests.write_all(&[FLUSH])?;
                requests.flush()
            });
            for (number, expected) in batch.expected.iter().enumerate() {
                let reply = match Reply::take(replies, expected.lent.len()) {
                    Ok(reply) => reply,
                    Err(error) => {
                        println!("{}, call {number}, {}: {error}", batch.name, expected.call);
                        // The writer would wait for ever for a driver that nobody reads from.
                        driver.kill()?;
                        return Err(error);
                    }
                };
                codes[(reply.answer.code as usize).min(63)] += 1;
                let differences = reply.differences(expected);
                if differences.is_empty() {
                    *passed += 1;
                    continue;
                }
                *failed += 1;
                if *failed <= PRINTED {
                    println!("{}, call {number}, {}: {}", batch.name, expected.call, differences.join("; "));
                }
            }
            writer.join().expect("the writer ends")
        })
    }

    pub fn finish(mut self) -> io::Result<()> {
        drop(self.requests);
        let mut rest = Vec::new();
        self.replies.read_to_end(&mut rest)?;
        let status = self.driver.wait()?;
        if !rest.is_empty() || !status.success() {
            println!("the driver wrote {} bytes too many and ended with {status}", rest.len());
            self.failed += 1;
        }
        let codes: Vec<String> = (0..64).filter(|&code| self.codes[code] > 0).map(|code| format!("{code}: {}", self.codes[code])).collect();
        println!("answers by code: {}", codes.join(", "));
        let shown = |tally: &Tally| tally.iter().map(|(what, times)| format!("{what}: {times}")).collect::<Vec<_>>().join("; ");
        println!("questions by answer: {}", shown(&self.questions));
        println!("names: {}", shown(&self.names));
        println!("at mailboxes: {}", shown(&self.mailboxes));
        println!("with buffers: {}", shown(&self.buffers));
        for what in all_that_is_met().filter(|what| !self.mailboxes.contains_key(*what)) {
            println!("no call met this at a mailbox: {what}");
            self.failed += 1;
        }
        for what in buffers::in_scripts().into_iter().chain(buffers::beyond_scripts()).filter(|what| !self.buffers.contains_key(what)) {
            println!("no call did this with buffers: {what}");
            self.failed += 1;
        }
        for what in all_that_is_named().filter(|what| !self.names.contains_key(what)) {
            println!("no call took such a name: {what}");
            self.failed += 1;
        }
        for what in all_that_is_told().filter(|what| !self.questions.contains_key(what)) {
            println!("no question was answered so: {what}");
            self.failed += 1;
        }
        println!("{} passed, {} failed", self.passed, self.failed);
        std::process::exit(if self.failed == 0 { 0 } else { 1 })
    }
}

/// What the driver wrote for one call.
struct Reply {
    answer: Answer,
    wrong: u8,
    state: Vec<u8>,
    store_change: (usize, Vec<u8>),
    lent: Vec<u8>,
}

impl Reply {
    fn take(from: &mut impl Read, lent: usize) -> io::Result<Reply> {
        let mut bytes = |length: usize| {
            let mut bytes = vec![0; length];
            from.read_exact(&mut bytes).map(|()| bytes)
        };
        let word = |bytes: &[u8], at: usize| u32::from_le_bytes(bytes[at..at + 4].try_into().expect("four bytes"));
        let half = |bytes: &[u8], at: usize| u16::from_le_bytes(bytes[at..at + 2].try_into().expect("two bytes")) as usize;
        let head = bytes(14)?;
        if head[13] != REPLY {
            return Err(io::Error::other("what the driver wrote is no reply"));
        }
        let state = bytes(IMAGE_BYTES)?;
        let change = bytes(4)?;
        Ok(Reply {
            answer: Answer { code: word(&head, 0), number: word(&head, 4), running: word(&head, 8) },
            wrong: head[12],
            state,
            store_change: (half(&change, 0), bytes(half(&change, 2))?),
            lent: bytes(lent)?,
        })
    }

    fn differences(&self, expected: &Expected) -> Vec<String> {
        let mut found = vec![];
        if self.answer != expected.answer {
            found.push(format!("answered {:?}, not {:?}", self.answer, expected.answer));
        }
        if self.wrong != 0 {
            found.push(format!("bytes changed that must not: {:#x}, by tests/board/driver.c", self.wrong));
        }
        if let Some(at) = self.state.iter().zip(&expected.state).position(|(one, other)| one != other) {
            found.push(format!("byte {at} of the state is {}, not {}", self.state[at], expected.state[at]));
        }
        if self.store_change != expected.store_change {
            found.push("the store changed in another way".to_string());
        }
        if self.lent != expected.lent {
            found.push("the room, the table or the reason is another".to_string());
        }
        found
    }
}
