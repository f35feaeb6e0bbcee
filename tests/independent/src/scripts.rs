//! Random scripts that reach deep states. The same seed and number of lines give the same script everywhere.
//!
//! Calls drawn blindly rarely fill a mailbox or gather waiters. So the kernel runs alongside, and each line is drawn
//! from wishes that look at its state, such as "receive where there is a message". The seed chooses the style: its
//! phases, each a list of wishes with weights, take turns. It also chooses how the script begins, where a slice is named, and
//! in some a number is born so often that its names return, mailboxes of many sizes are filled and emptied, or pages fill the
//! store.

use crate::call::Call;
use crate::desk::Desk;
use crate::grammar::{line_of, parse, LINE_BYTES};
use crate::junk::{giant_line, junk_line, junk_question, near_slice};
use crate::kernel::*;
use crate::lengths::{message, message_of, short_message, MOST_BUFFERS};
use crate::mailboxes::History;
use crate::names::Born;
use crate::openings::{births, fillings, pages};
use crate::random::Random;
use crate::sizes::{capacity, mode};
use std::io::{self, Write};

/// What a line should ask for, if the state allows; if it doesn't, any call is taken.
#[derive(Clone, Copy, Debug)]
enum Wish {
    Create,
    CreateAbove,
    CreateUpTo,
    StopLive,
    StopReady,
    StopWaiter,
    StopHolder,
    StopWithPage,
    StopAnyName,
    End,
    EndWithPage,
    Yield,
    ClassAny,
    ClassBelow,
    Tick,
    SendAny,
    SendSmall,
    SendWithRoom,
    SendToFull,
    SendToFullest,
    SendToDropping,
    SendToWaiter,
    SendPage,
    SendInLastBuffers,
    SendOneTooMany,
    SendPageToDropping,
    ReceiveAny,
    ReceiveFilled,
    ReceiveEmpty,
    ReceiveWaited,
    ReceiveSpared,
    ReadAny,
    ReadNear,
    ReadZero,
    ReadWhole,
    Release,
    SignalAny,
    SignalWaited,
    SignalFavourite,
    WaitAny,
    WaitCounted,
    WaitZero,
    WaitWaited,
    WaitFavourite,
    SetAny,
    SetIdle,
    SetBack,
    OutOfRange,
}
use Wish::*;

type Phase = &'static [(usize, Wish)];

struct Style {
    name: &'static str,
    phases: &'static [Phase],
    /// One line in so many is junk.
    junk: usize,
}

const STYLES: [Style; 8] = [
    Style {
        name: "mixed",
        junk: 40,
        phases: &[&[
            (10, Create), (3, StopLive), (3, StopAnyName), (2, End), (5, Yield), (5, ClassAny), (15, Tick), (12, SendAny), (6, ReceiveAny),
            (8, ReceiveFilled), (5, ReadAny), (5, ReadNear), (6, Release), (6, SignalAny), (5, SignalWaited), (5, WaitAny),
            (3, WaitCounted), (4, SetAny), (2, SendToDropping), (2, ReceiveSpared), (1, SendPage), (1, StopWithPage), (2, OutOfRange),
        ]],
    },
    Style {
        name: "crowded",
        junk: 300,
        phases: &[
            &[(50, Create), (5, CreateAbove), (10, Tick), (5, Yield), (5, ClassAny), (3, WaitAny), (3, ReceiveAny), (1, StopLive), (1, OutOfRange)],
            &[
                (20, Create), (6, StopLive), (2, StopWaiter), (2, StopReady), (2, StopAnyName), (1, End), (10, Tick), (5, Yield), (3, ClassAny),
                (6, WaitAny), (6, ReceiveAny), (8, SignalWaited), (8, SendToWaiter), (3, SendAny), (3, Release), (2, SetAny), (2, OutOfRange),
            ],
        ],
    },
    Style {
        name: "mail",
        junk: 300,
        phases: &[
            &[
                (20, SendWithRoom), (12, SendToFullest), (5, SendToFull), (5, SendToDropping), (3, SendAny), (3, SetIdle), (2, SetAny),
                (3, Create), (4, Tick), (1, Yield), (1, SendOneTooMany), (1, SendPageToDropping), (1, OutOfRange),
            ],
            &[
                (15, ReceiveFilled), (10, SendWithRoom), (8, SendToFullest), (3, SendToFull), (6, SendToDropping), (3, SetIdle), (2, SetAny),
                (8, Yield), (6, Create), (2, Tick), (4, ReceiveSpared), (3, ReadNear), (2, ReceiveAny), (2, WaitZero), (2, SignalWaited),
                (3, Release),
            ],
            &[
                (12, ReceiveFilled), (6, ReceiveSpared), (18, Release), (4, ReadAny), (4, Yield), (2, StopHolder), (2, Create), (3, SendAny),
                (3, SendToDropping), (3, SetBack), (3, SetAny), (1, End), (2, ReceiveEmpty), (2, StopWithPage), (1, SendPageToDropping),
            ],
        ],
    },
    Style {
        name: "waiters",
        junk: 300,
        phases: &[
            &[
                (12, Create), (6, ReceiveEmpty), (12, ReceiveWaited), (6, WaitZero), (12, WaitWaited), (3, Release), (3, ReceiveFilled),
                (4, Tick), (2, CreateUpTo), (3, SetAny), (2, SetIdle), (2, SendToFullest), (2, SendToDropping),
            ],
            &[
                (12, SendToWaiter), (12, SignalWaited), (4, Tick), (3, Release), (3, ReadNear), (2, Yield), (2, Create), (3, SendToFullest),
                (3, SendToDropping), (1, SendPage), (1, EndWithPage),
            ],
            &[
                (10, StopWaiter), (2, StopAnyName), (8, SendToWaiter), (8, SignalWaited), (6, ReceiveWaited), (6, WaitWaited), (6, Create),
                (4, Tick), (3, Release), (2, ClassAny), (2, SendAny), (2, SignalAny), (3, SetAny), (1, OutOfRange),
            ],
        ],
    },
    Style {
        name: "preemption",
        junk: 300,
        phases: &[
            &[(20, Create), (10, CreateAbove), (30, Tick), (6, Yield), (6, ClassAny), (6, ClassBelow), (3, End), (3, StopReady)],
            &[
                (5, Create), (30, Tick), (10, WaitZero), (14, SignalWaited), (4, ReceiveEmpty), (6, SendToWaiter), (4, Yield), (6, ClassBelow),
                (3, ClassAny), (3, Release), (2, StopLive),
            ],
            &[(6, CreateAbove), (25, Tick), (12, End), (4, StopReady), (3, StopAnyName), (4, ClassAny), (3, SignalWaited), (1, OutOfRange)],
        ],
    },
    Style {
        name: "counting",
        junk: 500,
        phases: &[
            &[(40, SignalFavourite), (10, SignalAny), (5, WaitFavourite), (3, Create), (3, Tick), (1, StopLive), (1, OutOfRange)],
            &[
                (6, SignalFavourite), (5, WaitFavourite), (10, WaitCounted), (6, WaitZero), (6, SignalWaited), (6, Create), (4, Tick), (2, Yield),
                (2, StopWaiter), (1, OutOfRange),
            ],
        ],
    },
    Style {
        name: "reads",
        junk: 100,
        phases: &[
            &[
                (8, SendAny), (8, SendWithRoom), (10, ReceiveFilled), (15, ReadNear), (6, ReadAny), (4, ReadZero), (8, Release), (4, Create),
                (3, Yield), (3, Tick), (1, ReceiveEmpty), (2, SendToWaiter), (1, StopHolder), (3, SetIdle), (5, SendToDropping),
                (5, ReceiveSpared), (1, OutOfRange),
            ],
            &[
                (4, SendPage), (2, SendInLastBuffers), (3, SendOneTooMany), (8, SendPageToDropping), (5, SendToFullest), (5, SetIdle),
                (12, ReceiveFilled), (4, ReceiveSpared), (4, ReadWhole), (3, ReadNear), (1, ReadAny), (8, Release), (3, Create), (2, Yield),
                (2, WaitZero), (2, SignalWaited), (2, StopWithPage), (1, EndWithPage), (1, ReceiveEmpty), (1, Tick),
            ],
            &[
                (6, ReceiveWaited), (8, SendToWaiter), (12, ReadNear), (4, ReadZero), (3, ReadAny), (6, Release), (5, Create), (2, Yield),
                (2, WaitZero), (2, SignalWaited), (1, StopHolder),
            ],
        ],
    },
    Style {
        name: "junk",
        junk: 2,
        phases: &[&[
            (8, Create), (2, StopLive), (1, StopAnyName), (1, End), (3, Yield), (3, ClassAny), (8, Tick), (8, SendSmall), (6, ReceiveFilled),
            (2, ReceiveAny), (5, ReadNear), (4, Release), (4, SignalAny), (3, SignalWaited), (3, WaitAny), (4, SetAny), (2, OutOfRange),
        ]],
    },
];

/// One in so many scripts of the counting style begins by driving one count to its limit, on top of its lines.
const FLOODED: u64 = 8;
/// One in so many scripts of the junk style has a giant line.
const WITH_GIANT: u64 = 3;
/// One in so many scripts of the preemption style begins with a number whose names return, on top of its lines.
const REBORN: u64 = 2;
/// One in so many scripts of the mail style begins with mailboxes that are filled and emptied, on top of its lines.
const FILLED: u64 = 2;
/// One in so many scripts of the reads style begins with pages, on top of its lines.
const PAGED: u64 = 2;

/// How many ways to begin there are. The seed chooses one: among 16 seeds in a row, from a multiple of 8 on, each comes
/// once, and a style meets all of them in 16 turns.
const BEGINNINGS: u64 = 16;

/// How a seed's script begins: a slice is named, or not, in all the ways that there are.
fn beginning(seed: u64) -> Vec<Vec<u8>> {
    let styles = STYLES.len() as u64;
    let (turn, round) = (seed / styles, seed / BEGINNINGS);
    let lines = |lines: &[&str]| lines.iter().map(|line| line.as_bytes().to_vec()).collect();
    match (2 * (seed % styles) + turn) % BEGINNINGS {
        0 => vec![],
        1 => lines(&["slice 3"]),
        2 => lines(&["slice 1"]),
        3 => lines(&["slice 2"]),
        4 => lines(&["slice 5"]),
        5 => lines(&["slice 255"]),
        6 => lines(&[&format!("slice {}", 6 + round % 249)]),
        7 => lines(&["slice 0"]),
        8 => lines(&["slice 256"]),
        9 => lines(&["slice 65535"]),
        10 => lines(&["slice 65536", "slice 3"]),
        11 => lines(&["slice 03", "slice 3"]),
        12 => vec![near_slice(round)],
        13 => lines(&["slice 4", "slice 2"]),
        14 => lines(&["slice 0", "slice 3"]),
        _ => vec![other_first_line(round), b"slice 3".to_vec()],
    }
}

/// The style of a seed, and how many seeds before it have the same.
fn style_and_turn(seed: u64) -> (&'static Style, u64) {
    let styles = STYLES.len() as u64;
    (&STYLES[(seed % styles) as usize], seed / styles)
}

/// The beginning of a seed's script, and two processes that take turns until one has used up the slice that holds then:
/// drawn lines do that rarely, or never where it is long. Nothing of that where no line stands at the beginning.
/// Then, in some, the births of a number, full mailboxes or pages.
fn opening(seed: u64) -> Vec<Vec<u8>> {
    let mut lines = beginning(seed);
    let mut desk = Desk::fresh();
    for line in &lines {
        desk.answer(line);
    }
    let ticks = (0..desk.kernel().slice).map(|_| Call::Tick);
    let calls = [Call::Create(2), Call::Create(2)].into_iter().chain(ticks);
    if !lines.is_empty() {
        lines.extend(calls.map(|call| line_of(&call).into_bytes()));
    }
    let (style, turn) = style_and_turn(seed);
    let lowest_unused = if lines.is_empty() { 1 } else { 3 };
    let calls = match style.name {
        "preemption" if turn % REBORN == 0 => births(lowest_unused),
        "mail" if turn % FILLED == 0 => fillings(turn / FILLED),
        "reads" if turn % PAGED == 0 => pages(lowest_unused, turn / PAGED),
        _ => vec![],
    };
    lines.extend(calls.iter().map(|call| line_of(call).into_bytes()));
    lines
}

fn other_first_line(number: u64) -> Vec<u8> {
    match number % 4 {
        0 => b"tick".to_vec(),
        1 => b"".to_vec(),
        2 => b"why 0".to_vec(),
        _ => vec![b'x'; LINE_BYTES + 1],
    }
}

/// The lines of a script one after the other, and the desk as it is after the last one. Those of the opening come on top
/// of the lines that are asked for.
pub struct Script {
    random: Random,
    desk: Desk,
    born: Born,
    history: History,
    opening: std::vec::IntoIter<Vec<u8>>,
    style: &'static Style,
    phase: Phase,
    phase_left: usize,
    /// A semaphore that the counting style prefers.
    favourite: u32,
    flooding: bool,
    /// Which line from the end is a giant one; 0 is none.
    giant: u64,
    lines_left: u64,
    /// Whether the last line goes without its newline.
    open_end: bool,
}

impl Script {
    pub fn new(seed: u64, lines: u64) -> Script {
        let (style, turn) = style_and_turn(seed);
        let mut random = Random::new(seed);
        let giant = if style.name == "junk" && turn % WITH_GIANT == 0 && lines > 0 { 1 + random.next() % lines } else { 0 };
        Script {
            favourite: random.below(SEMAPHORES) as u32,
            open_end: random.one_in(4),
            random,
            desk: Desk::fresh(),
            born: Born::default(),
            history: History::default(),
            opening: opening(seed).into_iter(),
            style,
            phase: style.phases[0],
            phase_left: 0,
            flooding: style.name == "counting" && turn % FLOODED == 0,
            giant,
            lines_left: lines,
        }
    }

    pub fn style(&self) -> &'static str {
        self.style.name
    }

    /// The state after the lines given so far.
    pub fn kernel(&self) -> &Kernel {
        self.desk.kernel()
    }

    /// How often each number was born in the lines given so far.
    pub fn born(&self) -> &Born {
        &self.born
    }

    /// The next line, without newline.
    pub fn next_line(&mut self) -> Option<Vec<u8>> {
        let line = match self.opening.next() {
            Some(line) => line,
            None => self.line_after_the_opening()?,
        };
        if let Some(call) = parse(&line) {
            self.history.follow(self.desk.kernel(), &call);
        }
        self.desk.answer(&line);
        self.born.follow(self.desk.kernel());
        Some(line)
    }

    fn line_after_the_opening(&mut self) -> Option<Vec<u8>> {
        self.flooding = self.flooding && self.kernel().semaphores[self.favourite as usize].count < COUNT_LIMIT;
        let aside = self.lines_left > 200 && self.random.one_in(500);
        if self.flooding && !aside {
            return Some(line_of(&Call::Signal(self.favourite)).into_bytes());
        }
        if self.lines_left == 0 {
            return None;
        }
        let line = self.drawn_line();
        self.lines_left -= 1;
        Some(line)
    }

    fn drawn_line(&mut self) -> Vec<u8> {
        if self.phase_left == 0 {
            self.phase = self.random.pick(self.style.phases).unwrap_or(self.phase);
            self.phase_left = self.random.between(20, 150);
        }
        self.phase_left -= 1;
        let wish = self.random.weighted(self.phase);
        let call = self.wished(wish).unwrap_or_else(|| self.any_call());
        let line = line_of(&call);
        if self.lines_left == self.giant {
            giant_line(&mut self.random, &line)
        } else if self.random.one_in(self.style.junk) {
            junk_line(&mut self.random, &line)
        } else {
            line.into_bytes()
        }
    }

    fn wished(&mut self, wish: Wish) -> Option<Call> {
        let kernel = self.desk.kernel();
        let random = &mut self.random;
        let running_class = kernel.processes[kernel.running].as_ref().map_or(0, |process| process.class);
        let hand_length = kernel.hand_of(kernel.running).map(|message| message.bytes.len());
        Some(match wish {
            Create => Call::Create(random.below(CLASSES) as u32),
            CreateAbove => Call::Create(random.between((running_class + 1).min(CLASSES - 1), CLASSES - 1) as u32),
            CreateUpTo => Call::Create(random.between(0, running_class) as u32),
            StopLive => Call::Stop(random.pick(&processes(kernel, |_| true))?),
            StopReady => Call::Stop(random.pick(&processes(kernel, |number| kernel.ready.iter().any(|queue| queue.contains(&number))))?),
            StopWaiter => Call::Stop(random.pick(&processes(kernel, |number| waits(kernel, number)))?),
            StopHolder => Call::Stop(random.pick(&processes(kernel, |number| kernel.hand_of(number).is_some()))?),
            StopWithPage => Call::Stop(random.pick(&processes(kernel, |number| has_page(kernel, number)))?),
            StopAnyName => Call::Stop(self.born.draw(kernel, random)),
            End => Call::End,
            EndWithPage => has_page(kernel, kernel.running).then_some(Call::End)?,
            Yield => Call::Yield,
            ClassAny => Call::Class(random.below(CLASSES) as u32),
            ClassBelow => Call::Class(random.between(0, running_class) as u32),
            Tick => Call::Tick,
            SendAny => {
                let mailbox = random.below(MAILBOXES) as u32;
                Call::Send(mailbox, message(random))
            }
            SendSmall => Call::Send(random.below(MAILBOXES) as u32, short_message(random)),
            SendWithRoom => {
                let open = mailboxes(kernel, |mailbox| !mailbox.is_full() && mailbox.waiters.is_empty());
                Call::Send(random.pick(&open)?, message(random))
            }
            SendToFull => {
                let full = mailboxes(kernel, Mailbox::is_full);
                let half_full = mailboxes(kernel, |mailbox| 2 * mailbox.messages.len() >= mailbox.capacity);
                let chosen = if random.one_in(2) { random.pick(&full) } else { random.pick(&half_full) };
                Call::Send(chosen.unwrap_or(0), short_message(random))
            }
            SendToFullest => {
                let open = mailboxes(kernel, |mailbox| !mailbox.is_full() && mailbox.waiters.is_empty());
                let room = |number: &u32| kernel.mailboxes[*number as usize].capacity - kernel.mailboxes[*number as usize].messages.len();
                Call::Send(open.into_iter().min_by_key(room)?, short_message(random))
            }
            SendToDropping => Call::Send(random.pick(&mailboxes(kernel, |mailbox| mailbox.oldest_to_drop().is_some()))?, message(random)),
            SendToWaiter => Call::Send(random.pick(&mailboxes(kernel, |mailbox| !mailbox.waiters.is_empty()))?, message(random)),
            SendPage => {
                let buffers = random.between(2, MOST_BUFFERS);
                Call::Send(random.pick(&mailboxes(kernel, |mailbox| !mailbox.is_full()))?, message_of(random, buffers))
            }
            SendInLastBuffers => self.send_to_open(kernel.free_buffers().len())?,
            SendOneTooMany => self.send_to_open(kernel.free_buffers().len() + 1)?,
            SendPageToDropping => self.send_to_dropping()?,
            ReceiveAny => Call::Receive(random.below(MAILBOXES) as u32),
            ReceiveFilled => Call::Receive(random.pick(&mailboxes(kernel, |mailbox| !mailbox.messages.is_empty()))?),
            ReceiveEmpty => Call::Receive(random.pick(&mailboxes(kernel, |mailbox| mailbox.messages.is_empty()))?),
            ReceiveWaited => {
                let least = waiters_wanted(random, kernel.mailboxes.iter().map(|mailbox| mailbox.waiters.len()));
                Call::Receive(random.pick(&mailboxes(kernel, |mailbox| mailbox.waiters.len() >= least))?)
            }
            ReceiveSpared => Call::Receive(random.pick(&self.history.that_dropped())?),
            ReadAny => Call::Read(any_room(random)),
            ReadNear => Call::Read((hand_length? + random.below(3)).saturating_sub(1).min(LONGEST_MESSAGE) as u32),
            ReadZero => Call::Read(0),
            ReadWhole => Call::Read(hand_length.map(|_| LONGEST_MESSAGE)? as u32),
            Release => Call::Release,
            SignalAny => Call::Signal(random.below(SEMAPHORES) as u32),
            SignalWaited => Call::Signal(random.pick(&semaphores(kernel, |semaphore| !semaphore.waiters.is_empty()))?),
            SignalFavourite => Call::Signal(self.favourite),
            WaitAny => Call::Wait(random.below(SEMAPHORES) as u32),
            WaitCounted => Call::Wait(random.pick(&semaphores(kernel, |semaphore| semaphore.count > 0))?),
            WaitZero => Call::Wait(random.pick(&semaphores(kernel, |semaphore| semaphore.count == 0))?),
            WaitWaited => {
                let least = waiters_wanted(random, kernel.semaphores.iter().map(|semaphore| semaphore.waiters.len()));
                Call::Wait(random.pick(&semaphores(kernel, |semaphore| semaphore.waiters.len() >= least))?)
            }
            WaitFavourite => Call::Wait(self.favourite),
            SetAny => self.history.draw(kernel, random),
            SetIdle => Call::Mailbox(random.pick(&mailboxes(kernel, |mailbox| !mailbox.is_busy()))?, capacity(random), mode(random)),
            SetBack => self.history.draw_back(kernel, random)?,
            OutOfRange => out_of_range(random, kernel),
        })
    }

    /// A message that needs so many buffers, to a mailbox with room, if there are such.
    fn send_to_open(&mut self, buffers: usize) -> Option<Call> {
        let open = mailboxes(self.kernel(), |mailbox| !mailbox.is_full());
        let bytes = (1..=MOST_BUFFERS).contains(&buffers).then(|| message_of(&mut self.random, buffers))?;
        Some(Call::Send(self.random.pick(&open)?, bytes))
    }

    /// A message to a full mailbox that drops: all buffers that are free then, one too many, or any number.
    fn send_to_dropping(&mut self) -> Option<Call> {
        let number = self.random.pick(&mailboxes(self.kernel(), |mailbox| mailbox.oldest_to_drop().is_some()))?;
        let dropped = self.kernel().mailboxes[number as usize].oldest_to_drop()?.buffers.len();
        let found = self.kernel().free_buffers().len() + dropped;
        let wanted = [found, found + 1, self.random.between(1, MOST_BUFFERS), MOST_BUFFERS];
        let buffers = self.random.pick(&wanted)?.min(MOST_BUFFERS);
        Some(Call::Send(number, message_of(&mut self.random, buffers)))
    }

    /// Any call, as far as its arguments are in range.
    fn any_call(&mut self) -> Call {
        let random = &mut self.random;
        match random.below(13) {
            0 | 1 => Call::Create(random.below(CLASSES) as u32),
            2 => Call::Stop(self.born.draw(self.desk.kernel(), random)),
            3 => Call::Yield,
            4 => Call::Class(random.below(CLASSES) as u32),
            5 => Call::Tick,
            6 => Call::Send(random.below(MAILBOXES) as u32, message(random)),
            7 => Call::Receive(random.below(MAILBOXES) as u32),
            8 => Call::Read(any_room(random)),
            9 => Call::Release,
            10 => Call::Signal(random.below(SEMAPHORES) as u32),
            11 => Call::Mailbox(random.below(MAILBOXES) as u32, capacity(random), mode(random)),
            _ => Call::Wait(random.below(SEMAPHORES) as u32),
        }
    }
}

/// One line in so many is a question, and of these one in so many is junk.
const QUESTIONS: usize = 8;
const JUNK_QUESTIONS: usize = 40;

/// A script with questions between its lines, on top of their number. They move nothing, are drawn apart and come after
/// the first line, so that the lines around them are the same without them.
pub struct Questioned {
    script: Script,
    random: Random,
}

impl Questioned {
    pub fn new(seed: u64, lines: u64) -> Questioned {
        Questioned { script: Script::new(seed, lines), random: Random::new(!seed) }
    }

    pub fn style(&self) -> &'static str {
        self.script.style()
    }

    /// The next line, without newline.
    pub fn next_line(&mut self) -> Option<Vec<u8>> {
        if self.script.desk.has_begun() && self.random.one_in(QUESTIONS) {
            return Some(question(&mut self.random, &self.script));
        }
        self.script.next_line()
    }
}

/// Mostly about a process in use; now and then about any number, 0 too, or by any name.
fn question(random: &mut Random, script: &Script) -> Vec<u8> {
    let kernel = script.kernel();
    let name = match random.below(10) {
        0..=2 => script.born.draw(kernel, random),
        3..=4 => kernel.name(random.below(PROCESSES)),
        _ => random.pick(&processes(kernel, |_| true)).unwrap_or(0),
    };
    let line = line_of(&Call::Why(name));
    if random.one_in(JUNK_QUESTIONS) {
        junk_question(random, &line)
    } else {
        line.into_bytes()
    }
}

/// Writes the whole script of a seed, with questions.
pub fn write_script(seed: u64, lines: u64, output: &mut impl Write) -> io::Result<()> {
    let mut script = Questioned::new(seed, lines);
    let mut between: &[u8] = b"";
    while let Some(line) = script.next_line() {
        output.write_all(between)?;
        output.write_all(&line)?;
        between = b"\n";
    }
    if !script.script.open_end {
        output.write_all(between)?;
    }
    Ok(())
}

/// The whole script of a seed, in memory.
pub fn script(seed: u64, lines: u64) -> Vec<u8> {
    let mut bytes = Vec::new();
    write_script(seed, lines, &mut bytes).expect("memory does not fail");
    bytes
}

/// The names of processes in use.
fn processes(kernel: &Kernel, wanted: impl Fn(usize) -> bool) -> Vec<u32> {
    let numbers = (1..PROCESSES).filter(|&number| kernel.processes[number].is_some() && wanted(number));
    numbers.map(|number| kernel.name(number)).collect()
}

fn waits(kernel: &Kernel, process: usize) -> bool {
    process != kernel.running && !kernel.ready.iter().any(|queue| queue.contains(&process))
}

fn has_page(kernel: &Kernel, process: usize) -> bool {
    kernel.hand_of(process).is_some_and(|message| message.buffers.len() > 1)
}

fn mailboxes(kernel: &Kernel, wanted: impl Fn(&Mailbox) -> bool) -> Vec<u32> {
    (0..MAILBOXES as u32).filter(|&number| wanted(&kernel.mailboxes[number as usize])).collect()
}

fn semaphores(kernel: &Kernel, wanted: impl Fn(&Semaphore) -> bool) -> Vec<u32> {
    (0..SEMAPHORES as u32).filter(|&number| wanted(&kernel.semaphores[number as usize])).collect()
}

/// To join a queue of waiters: the longest half of the time, otherwise any that has someone.
fn waiters_wanted(random: &mut Random, lengths: impl Iterator<Item = usize>) -> usize {
    let longest = lengths.max().unwrap_or(0);
    if random.one_in(2) {
        longest.max(1)
    } else {
        1
    }
}

/// Half of them no longer than a buffer.
fn any_room(random: &mut Random) -> u32 {
    let longest = random.pick(&[BUFFER_BYTES, LONGEST_MESSAGE]).unwrap_or(BUFFER_BYTES);
    random.between(0, longest) as u32
}

fn out_of_range(random: &mut Random, kernel: &Kernel) -> Call {
    let over = |random: &mut Random, limit: usize| {
        let number = match random.below(3) {
            0 => limit,
            1 => random.between(limit, limit + 300),
            _ => random.between(limit, 65_535),
        };
        number as u32
    };
    match random.below(8) {
        0 => Call::Create(over(random, CLASSES)),
        1 => Call::Class(over(random, CLASSES)),
        2 => {
            let number = random.between(PROCESSES, BIRTHS as usize - 1) as u32;
            Call::Stop(number + BIRTHS * u32::from(kernel.births[random.below(PROCESSES)]))
        }
        3 => Call::Stop(BIRTHS * u32::from(kernel.births[random.below(PROCESSES)])),
        4 => Call::Send(over(random, MAILBOXES), message(random)),
        5 => Call::Receive(over(random, MAILBOXES)),
        6 => Call::Mailbox(over(random, MAILBOXES), capacity(random), mode(random)),
        _ if random.one_in(2) => Call::Signal(over(random, SEMAPHORES)),
        _ => Call::Wait(over(random, SEMAPHORES)),
    }
}
