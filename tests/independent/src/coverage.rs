//! What random scripts reached: the slices named, the codes answered, the names taken, what was met at mailboxes, what was done
//! with buffers, the reasons told and the deepest states, to show that they are worth comparing.

use crate::answer::*;
use crate::buffers;
use crate::call::Call;
use crate::desk::Desk;
use crate::grammar::{named_slice, parse};
use crate::junk::NEAR_MAILBOXES;
use crate::kernel::*;
use crate::mailboxes::{in_scripts, History};
use crate::names::{Born, Kind, IN_SCRIPTS};
use crate::scripts::Questioned;
use crate::why::KINDS;
use std::collections::{BTreeMap, BTreeSet};
use std::fmt;

#[derive(Clone, Debug, Default)]
pub struct Coverage {
    pub styles: BTreeSet<&'static str>,
    pub lines: u64,
    pub bad_lines: u64,
    /// How often each code was answered, to other calls than questions.
    pub codes: BTreeMap<u32, u64>,
    pub most_live: usize,
    pub most_buffers: usize,
    /// Of messages that have more than one.
    pub most_buffers_of_pages: usize,
    pub fullest_mailbox: usize,
    pub most_waiters_at_a_mailbox: usize,
    pub most_waiters_at_a_semaphore: usize,
    /// After how many lines a preempted process stood at the front of its class with a part of its slice.
    pub preempted: u64,
    pub highest_count: u32,
    /// How often each kind of reason was told, and the most that were ahead in one.
    pub reasons: BTreeMap<u32, (u64, u32)>,
    pub refused_questions: u64,
    /// Told of process 0, while it ran and while another did.
    pub reasons_of_0: BTreeSet<u32>,
    /// How often scripts began with each line.
    pub first_lines: BTreeMap<String, u64>,
    /// What the first line was where a later one names a slice.
    pub named_later_after: BTreeSet<&'static str>,
    /// Slices that a process used up, tick by tick.
    pub used_up: BTreeSet<u32>,
    /// How often a name of each kind was given to each call that takes one.
    pub names: BTreeMap<(&'static str, Kind), u64>,
    /// How often a call met each kind of thing at a mailbox.
    pub mailboxes: BTreeMap<&'static str, u64>,
    /// How often a call did each kind of thing with buffers.
    pub buffers: BTreeMap<String, u64>,
    /// Bad lines that are nearly settings of mailboxes.
    pub near_mailboxes: BTreeSet<&'static str>,
}

/// The calls that take a name.
const NAMING: [&str; 2] = ["stop", "why"];

/// Stands for every first line that does not begin with `slice`.
const ANOTHER: &str = "another";
/// First lines that must have come.
const FIRST_LINES: [&str; 11] = [
    ANOTHER, "slice 1", "slice 2", "slice 3", "slice 5", "slice 255", "slice 0", "slice 256", "slice 65535", "slice 65536", "slice 03",
];

/// What a first line may be, by what it says and its answer.
const BEGINNINGS: [&str; 4] = ["a slice", "a refused slice", "a call", "a bad line"];

fn beginning(line: &[u8], answer: &str) -> &'static str {
    let which = match (named_slice(line), answer) {
        (Some(_), "0 0 0") => 0,
        (Some(_), _) => 1,
        (None, "bad") => 3,
        (None, _) => 2,
    };
    BEGINNINGS[which]
}

impl Coverage {
    /// Runs the script of a seed and adds what it reaches.
    pub fn add(&mut self, seed: u64, lines: u64) {
        let mut script = Questioned::new(seed, lines);
        self.styles.insert(script.style());
        let mut desk = Desk::fresh();
        let mut born = Born::default();
        let mut history = History::default();
        let mut begun_with = None;
        while let Some(line) = script.next_line() {
            let spends_the_last_tick = line == b"tick" && has_one_tick(desk.kernel());
            let call = parse(&line);
            if let Some(call) = &call {
                self.add_name(&born, desk.kernel(), call);
                self.add_visit(&history, desk.kernel(), call);
                history.follow(desk.kernel(), call);
            }
            let answer = desk.answer(&line);
            born.follow(desk.kernel());
            self.lines += 1;
            self.add_beginning(&mut begun_with, &line, &answer);
            if spends_the_last_tick {
                self.used_up.insert(desk.kernel().slice);
            }
            match answer.split(' ').next().and_then(|code| code.parse().ok()) {
                None => self.add_bad_line(&line),
                Some(code) => match call {
                    Some(Call::Why(name)) => self.add_question(desk.kernel(), name),
                    _ => *self.codes.entry(code).or_default() += 1,
                },
            }
            self.look_at(desk.kernel());
        }
    }

    /// Notes what a script begins with, and whether a slice is named later.
    fn add_beginning(&mut self, begun_with: &mut Option<&'static str>, line: &[u8], answer: &str) {
        match begun_with {
            None => {
                self.add_first_line(line);
                *begun_with = Some(beginning(line, answer));
            }
            Some(first) if named_slice(line).is_some() => {
                self.named_later_after.insert(first);
            }
            Some(_) => (),
        }
    }

    fn add_bad_line(&mut self, line: &[u8]) {
        self.bad_lines += 1;
        self.near_mailboxes.extend(NEAR_MAILBOXES.into_iter().find(|near| near.as_bytes() == line));
    }

    fn add_first_line(&mut self, line: &[u8]) {
        let slice = line.starts_with(b"slice").then(|| line.escape_ascii().to_string());
        *self.first_lines.entry(slice.unwrap_or(ANOTHER.to_string())).or_default() += 1;
    }

    fn add_name(&mut self, born: &Born, kernel: &Kernel, call: &Call) {
        let (call, name) = match call {
            Call::Stop(name) => (NAMING[0], name),
            Call::Why(name) => (NAMING[1], name),
            _ => return,
        };
        *self.names.entry((call, born.kind(kernel, *name))).or_default() += 1;
    }

    fn add_visit(&mut self, history: &History, kernel: &Kernel, call: &Call) {
        for kind in history.kinds(kernel, call) {
            *self.mailboxes.entry(kind).or_default() += 1;
        }
        for kind in buffers::kinds(kernel, call) {
            *self.buffers.entry(kind).or_default() += 1;
        }
    }

    fn add_question(&mut self, kernel: &Kernel, name: u32) {
        let Some(reason) = kernel.why(name).1 else {
            self.refused_questions += 1;
            return;
        };
        let [kind, _, ahead] = reason.numbers();
        let (times, most) = self.reasons.entry(kind).or_default();
        *times += 1;
        *most = ahead.max(*most);
        if name == 0 {
            self.reasons_of_0.insert(kind);
        }
    }

    fn look_at(&mut self, kernel: &Kernel) {
        fn raise<T: Ord + Copy>(most: &mut T, now: impl Iterator<Item = T>) {
            *most = now.fold(*most, T::max);
        }
        raise(&mut self.most_live, [kernel.processes.iter().flatten().count()].into_iter());
        raise(&mut self.most_buffers, [held(kernel, 1)].into_iter());
        raise(&mut self.most_buffers_of_pages, [held(kernel, 2)].into_iter());
        raise(&mut self.fullest_mailbox, kernel.mailboxes.iter().map(|mailbox| mailbox.messages.len()));
        raise(&mut self.most_waiters_at_a_mailbox, kernel.mailboxes.iter().map(|mailbox| mailbox.waiters.len()));
        raise(&mut self.most_waiters_at_a_semaphore, kernel.semaphores.iter().map(|semaphore| semaphore.waiters.len()));
        raise(&mut self.highest_count, kernel.semaphores.iter().map(|semaphore| semaphore.count));
        let preempted = |queue: &std::collections::VecDeque<usize>| {
            queue.len() > 1 && kernel.processes[queue[0]].as_ref().is_some_and(|process| process.ticks < kernel.slice)
        };
        self.preempted += u64::from(kernel.ready.iter().any(preempted));
    }

    /// What of all that there is to reach was not reached; empty is good.
    pub fn missing(&self) -> Vec<String> {
        let of_calls = [self.of_codes(), self.of_slices(), self.of_names(), self.of_mailboxes(), self.of_buffers()];
        of_calls.into_iter().chain([self.of_states(), self.of_questions()]).flatten().filter(|(reached, _)| !reached).map(|(_, what)| what).collect()
    }

    fn of_codes(&self) -> Vec<Wanted> {
        let codes = (DONE..=COUNT_AT_LIMIT).chain([NO_SUCH_SLICE, NO_SUCH_SIZE, MAILBOX_BUSY, CALLER_WAITS]);
        codes.map(|code| (self.codes.contains_key(&code), format!("code {code}"))).collect()
    }

    fn of_states(&self) -> Vec<Wanted> {
        let wanted = [
            (self.bad_lines > 0, "a bad line"),
            (self.most_live == PROCESSES - 1, "31 live processes"),
            (self.most_buffers == BUFFERS, "32 buffers held"),
            (self.most_buffers_of_pages == BUFFERS, "32 buffers held by pages"),
            (self.fullest_mailbox == LARGEST_CAPACITY, "a mailbox with 32 messages"),
            (self.most_waiters_at_a_mailbox >= 5, "5 waiters at a mailbox"),
            (self.most_waiters_at_a_semaphore >= 5, "5 waiters at a semaphore"),
            (self.preempted > 0, "a preempted process in front of others with fewer ticks than a slice"),
            (self.highest_count == COUNT_LIMIT, "a count of 65,535"),
        ];
        wanted.map(|(reached, what)| (reached, what.to_string())).to_vec()
    }

    fn of_questions(&self) -> Vec<Wanted> {
        let mut wanted: Vec<Wanted> = (0..KINDS).map(|kind| (self.reasons.contains_key(&kind), format!("a reason of kind {kind}"))).collect();
        for (kind, (_, most)) in self.reasons.iter().filter(|(kind, _)| (2..=4).contains(*kind)) {
            wanted.push((*most >= 4, format!("a reason of kind {kind} with 4 ahead")));
        }
        wanted.push((self.refused_questions > 0, "a refused question".to_string()));
        wanted.push((self.reasons_of_0.len() == 2, "a question about 0, while it runs and while another does".to_string()));
        wanted
    }

    fn of_slices(&self) -> Vec<Wanted> {
        let first_lines = FIRST_LINES.map(|line| (self.first_lines.contains_key(line), format!("a script with the first line: {line}")));
        let later = BEGINNINGS.map(|first| (self.named_later_after.contains(first), format!("a slice named later, after {first}")));
        let used_up = [1, 2, 3, USUAL_SLICE, LONGEST_SLICE].map(|slice| (self.used_up.contains(&slice), format!("a slice of {slice} used up")));
        first_lines.into_iter().chain(later).chain(used_up).collect()
    }

    fn of_names(&self) -> Vec<Wanted> {
        let wanted = |call: &'static str, kind: Kind| (self.names.contains_key(&(call, kind)), format!("{call} of {}", kind.words()));
        NAMING.into_iter().flat_map(|call| IN_SCRIPTS.map(|kind| wanted(call, kind))).collect()
    }

    fn of_mailboxes(&self) -> Vec<Wanted> {
        let kinds = in_scripts().map(|kind| (self.mailboxes.contains_key(kind), format!("at a mailbox: {kind}")));
        let lines = NEAR_MAILBOXES.map(|line| (self.near_mailboxes.contains(line), format!("the bad line: {line}")));
        kinds.chain(lines).collect()
    }

    fn of_buffers(&self) -> Vec<Wanted> {
        buffers::in_scripts().into_iter().map(|kind| (self.buffers.contains_key(&kind), format!("with buffers: {kind}"))).collect()
    }
}

/// How many buffers messages have that have so many at least.
fn held(kernel: &Kernel, least: usize) -> usize {
    kernel.held().map(|message| message.buffers.len()).filter(|&buffers| buffers >= least).sum()
}

/// Whether something that must come up did, and what it is.
type Wanted = (bool, String);

/// Whether a process runs that has one tick left.
fn has_one_tick(kernel: &Kernel) -> bool {
    kernel.processes[kernel.running].as_ref().is_some_and(|process| process.ticks == 1)
}

impl fmt::Display for Coverage {
    fn fmt(&self, out: &mut fmt::Formatter) -> fmt::Result {
        let styles: Vec<&str> = self.styles.iter().copied().collect();
        let codes: Vec<String> = self.codes.iter().map(|(code, times)| format!("{code}:{times}")).collect();
        writeln!(out, "{}: {} lines, {} bad, codes {}", styles.join(" "), self.lines, self.bad_lines, codes.join(" "))?;
        write!(
            out,
            "  at most {} live, {} buffers, {} of pages, {} in a mailbox, {} waiters at a mailbox, {} at a semaphore, count {}; preempted after {} lines",
            self.most_live,
            self.most_buffers,
            self.most_buffers_of_pages,
            self.fullest_mailbox,
            self.most_waiters_at_a_mailbox,
            self.most_waiters_at_a_semaphore,
            self.highest_count,
            self.preempted
        )?;
        let reasons: Vec<String> = self.reasons.iter().map(|(kind, (times, most))| format!("{kind}:{times}({most})")).collect();
        writeln!(out, "; reasons by kind, with the most ahead, {}; {} questions refused", reasons.join(" "), self.refused_questions)?;
        let first_lines: Vec<String> = self.first_lines.iter().map(|(line, times)| format!("{line}:{times}")).collect();
        let used_up: Vec<String> = self.used_up.iter().map(u32::to_string).collect();
        writeln!(out, "  first lines {}; slices used up {}", first_lines.join(", "), used_up.join(" "))?;
        let names: Vec<String> = self.names.iter().map(|((call, kind), times)| format!("{call} {kind:?}:{times}")).collect();
        writeln!(out, "  names {}", names.join(" "))?;
        let mailboxes: Vec<String> = self.mailboxes.iter().map(|(kind, times)| format!("{kind}:{times}")).collect();
        writeln!(out, "  at mailboxes {}; {} lines that are nearly settings", mailboxes.join("; "), self.near_mailboxes.len())?;
        let buffers: Vec<String> = self.buffers.iter().map(|(kind, times)| format!("{kind}:{times}")).collect();
        write!(out, "  with buffers {}", buffers.join("; "))
    }
}
