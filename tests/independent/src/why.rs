//! "Why is the printer waiting?" of document 02: the one reason for which a process is where it is.

use crate::answer::{Answer, DONE, NO_SUCH_PROCESS};
use crate::kernel::*;
use std::collections::VecDeque;
use std::fmt;

#[derive(Clone, Copy, Debug, PartialEq, Eq)]
pub enum Reason {
    Unused,
    Running,
    /// Ready, with so many of its own class ahead, the one that runs among them.
    Ready(usize),
    /// At this mailbox, with so many ahead.
    Mailbox(usize, usize),
    /// At this semaphore, with so many ahead.
    Semaphore(usize, usize),
    /// Ready, or process 0, while this other process runs.
    Behind(usize),
}

/// How many kinds of reasons there are; they are numbered from 0.
pub const KINDS: u32 = 6;

impl Reason {
    /// The numbers of a reason for firmware: its kind, which mailbox, semaphore or process, and how many are ahead.
    pub fn numbers(&self) -> [u32; 3] {
        let (kind, which, ahead) = match *self {
            Reason::Unused => (0, 0, 0),
            Reason::Running => (1, 0, 0),
            Reason::Ready(ahead) => (2, 0, ahead),
            Reason::Mailbox(which, ahead) => (3, which, ahead),
            Reason::Semaphore(which, ahead) => (4, which, ahead),
            Reason::Behind(which) => (5, which, 0),
        };
        [kind, which as u32, ahead as u32]
    }
}

/// As the desk writes it.
impl fmt::Display for Reason {
    fn fmt(&self, out: &mut fmt::Formatter) -> fmt::Result {
        match self {
            Reason::Unused => write!(out, "unused"),
            Reason::Running => write!(out, "running"),
            Reason::Ready(ahead) => write!(out, "ready {ahead}"),
            Reason::Mailbox(which, ahead) => write!(out, "mailbox {which} {ahead}"),
            Reason::Semaphore(which, ahead) => write!(out, "semaphore {which} {ahead}"),
            Reason::Behind(which) => write!(out, "behind {which}"),
        }
    }
}

impl Kernel {
    /// Why the process of this name is where it is; no reason where the question is refused. 0 may be asked about, and unused
    /// numbers by the name that they had last.
    pub fn why(&self, name: u32) -> (Answer, Option<Reason>) {
        let Some(process) = self.named(name) else {
            return (self.answer(NO_SUCH_PROCESS, 0), None);
        };
        match self.reasons(process)[..] {
            [reason] => (self.answer(DONE, 0), Some(reason)),
            _ => unreachable!("a process of a sound state has exactly one reason"),
        }
    }

    /// Every reason that holds for a process 0 to 31. Each place is looked at, whatever was found in another.
    fn reasons(&self, process: usize) -> Vec<Reason> {
        let mut found = vec![];
        if process != 0 && self.processes[process].is_none() {
            found.push(Reason::Unused);
        }
        if process == self.running {
            found.push(Reason::Running);
        }
        for (which, mailbox) in self.mailboxes.iter().enumerate() {
            found.extend(ahead_of(process, &mailbox.waiters).map(|ahead| Reason::Mailbox(which, ahead)));
        }
        for (which, semaphore) in self.semaphores.iter().enumerate() {
            found.extend(ahead_of(process, &semaphore.waiters).map(|ahead| Reason::Semaphore(which, ahead)));
        }
        for (class, queue) in self.ready.iter().enumerate() {
            found.extend(ahead_of(process, queue).map(|ahead| self.reason_of_the_ready(class, ahead)));
        }
        if process == 0 && self.running != 0 {
            found.push(Reason::Behind(self.running));
        }
        found
    }

    /// Of one that is ready in this class with so many ahead of it in the queue. The one that runs is in no queue.
    fn reason_of_the_ready(&self, class: usize, ahead: usize) -> Reason {
        match &self.processes[self.running] {
            Some(runner) if runner.class == class => Reason::Ready(ahead + 1),
            _ => Reason::Behind(self.running),
        }
    }
}

/// How many stand before a process in a queue, if it stands there.
fn ahead_of(process: usize, queue: &VecDeque<usize>) -> Option<usize> {
    queue.iter().position(|&queued| queued == process)
}

#[cfg(test)]
mod tests {
    use super::*;
    use crate::listing::{AT_MAILBOX, AT_SEMAPHORE, READY, RUNNING, STANDING_BY, UNUSED};
    use crate::scripts::Script;

    fn told(kernel: &Kernel, name: u32, words: &str) {
        let (answer, reason) = kernel.why(name);
        assert_eq!(answer, Answer { code: DONE, number: 0, running: kernel.running as u32 }, "name {name}");
        assert_eq!(reason.unwrap().to_string(), words, "name {name}");
    }

    fn refused(kernel: &Kernel, name: u32) {
        let answer = Answer { code: NO_SUCH_PROCESS, number: 0, running: kernel.running as u32 };
        assert_eq!(kernel.why(name), (answer, None), "name {name}");
    }

    /// The reasons of some numbers, each asked about by its name, as the desk writes them.
    fn check(kernel: &Kernel, expected: &[(usize, &str)]) {
        for &(number, words) in expected {
            told(kernel, kernel.name(number), words);
        }
    }

    #[test]
    fn fresh_reasons() {
        let kernel = Kernel::fresh();
        check(&kernel, &[(0, "running"), (1, "unused"), (31, "unused")]);
    }

    #[test]
    fn every_reason() {
        let mut kernel = Kernel::fresh();
        kernel.create(4);
        kernel.receive(9); // 1 waits at mailbox 9
        kernel.create(3);
        kernel.wait(15); // 2 waits at semaphore 15
        kernel.create(4);
        kernel.receive(9); // 3 waits behind 1
        check(&kernel, &[(0, "running"), (1, "mailbox 9 0"), (2, "semaphore 15 0"), (3, "mailbox 9 1"), (4, "unused")]);
        [2, 2, 2, 1, 1, 0].into_iter().for_each(|class| assert_eq!(kernel.create(class).running, 4));
        check(&kernel, &[(0, "behind 4"), (4, "running"), (5, "ready 1"), (6, "ready 2")]);
        check(&kernel, &[(7, "behind 4"), (8, "behind 4"), (9, "behind 4"), (10, "unused")]);
        kernel.create(4); // 10 preempts 4, which goes to the front of class 2
        check(&kernel, &[(0, "behind 10"), (4, "behind 10"), (5, "behind 10"), (6, "behind 10"), (10, "running")]);
        kernel.end();
        kernel.end(); // 5 runs, and 6 is ready
        check(&kernel, &[(4, "unused"), (5, "running"), (6, "ready 1"), (7, "behind 5"), (10, "unused")]);
    }

    #[test]
    fn no_such_process() {
        let mut kernel = Kernel::fresh();
        for name in [32, 33, 255, 256, 257, 288, 65_535, 65_536, 65_537, u32::MAX] {
            refused(&kernel, name);
        }
        kernel.create(1);
        for name in [1, 32, 256, 288, 289, 513, 65_793] {
            refused(&kernel, name);
        }
    }

    #[test]
    fn names() {
        let mut kernel = Kernel::fresh();
        told(&kernel, 0, "running");
        told(&kernel, 1, "unused"); // before any birth
        kernel.create(2);
        told(&kernel, 257, "running");
        told(&kernel, 2, "unused");
        kernel.end();
        told(&kernel, 257, "unused"); // the name that it had last
        refused(&kernel, 1);
        refused(&kernel, 513);
        kernel.create(2);
        told(&kernel, 513, "running");
        refused(&kernel, 257);
        told(&kernel, 0, "behind 1");
        kernel.end();
        told(&kernel, 513, "unused");
        refused(&kernel, 257);
    }

    #[test]
    fn numbers_for_firmware() {
        assert_eq!(Reason::Unused.numbers(), [0, 0, 0]);
        assert_eq!(Reason::Running.numbers(), [1, 0, 0]);
        assert_eq!(Reason::Ready(3).numbers(), [2, 0, 3]);
        assert_eq!(Reason::Mailbox(15, 2).numbers(), [3, 15, 2]);
        assert_eq!(Reason::Semaphore(7, 30).numbers(), [4, 7, 30]);
        assert_eq!(Reason::Behind(31).numbers(), [5, 31, 0]);
    }

    /// In deep states each process has exactly one reason, and it fits its row of the listing.
    #[test]
    fn one_reason_and_its_row() {
        for seed in 0..8 {
            let mut script = Script::new(seed, 500);
            while script.next_line().is_some() {
                let kernel = script.kernel();
                let runner_class = kernel.row(kernel.running).class;
                for process in 0..PROCESSES {
                    let reasons = kernel.reasons(process);
                    let row = kernel.row(process);
                    let expected = match row.place {
                        UNUSED => [0, 0, 0],
                        RUNNING => [1, 0, 0],
                        READY if row.class == runner_class => [2, 0, row.position + 1],
                        AT_MAILBOX => [3, row.which, row.position],
                        AT_SEMAPHORE => [4, row.which, row.position],
                        READY | STANDING_BY => [5, kernel.running as u32, 0],
                        other => panic!("place {other}"),
                    };
                    assert_eq!(reasons.len(), 1, "seed {seed}, process {process}");
                    assert_eq!(reasons[0].numbers(), expected, "seed {seed}, process {process}");
                }
            }
        }
    }
}
