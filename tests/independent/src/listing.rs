//! The listing of document 01: one row per process that says where it is.

use crate::answer::{Answer, DONE, TOO_LITTLE_ROOM};
use crate::kernel::*;
use std::collections::VecDeque;

pub const UNUSED: u32 = 0;
pub const RUNNING: u32 = 1;
pub const READY: u32 = 2;
pub const AT_MAILBOX: u32 = 3;
pub const AT_SEMAPHORE: u32 = 4;
pub const STANDING_BY: u32 = 5;

#[derive(Clone, Copy, Debug, Default, PartialEq, Eq)]
pub struct Row {
    pub place: u32,
    pub which: u32,
    pub position: u32,
    pub class: u32,
    pub ticks: u32,
    pub full: u32,
    pub length: u32,
}

impl Row {
    /// The numbers of a row in the order of document 01.
    pub fn numbers(&self) -> [u32; 7] {
        [self.place, self.which, self.position, self.class, self.ticks, self.full, self.length]
    }
}

impl Kernel {
    /// Writes the rows of all processes into a table of at least 32; later rows stay.
    pub fn listing(&self, table: &mut [Row]) -> Answer {
        if table.len() < PROCESSES {
            return self.answer(TOO_LITTLE_ROOM, PROCESSES);
        }
        for number in 0..PROCESSES {
            table[number] = self.row(number);
        }
        self.answer(DONE, 0)
    }

    /// The row of a process 0 to 31.
    pub fn row(&self, number: usize) -> Row {
        let Some(process) = &self.processes[number] else {
            let place = match number {
                0 if self.running == 0 => RUNNING,
                0 => STANDING_BY,
                _ => UNUSED,
            };
            return Row { place, ..Row::default() };
        };
        let (place, which, position) = if number == self.running { (RUNNING, process.class, 0) } else { self.queue_of(number) };
        Row {
            place,
            which: which as u32,
            position: position as u32,
            class: process.class as u32,
            ticks: process.ticks,
            full: u32::from(process.hand.is_some()),
            length: process.hand.as_ref().map_or(0, |message| message.bytes.len() as u32),
        }
    }

    /// The kind and number of the queue that a process stands in, and its position there from 0.
    fn queue_of(&self, number: usize) -> (u32, usize, usize) {
        let position = |queue: &VecDeque<usize>| queue.iter().position(|&queued| queued == number);
        let ready = self.ready.iter().enumerate().map(|(class, queue)| (READY, class, queue));
        let at_mailboxes = self.mailboxes.iter().enumerate().map(|(which, mailbox)| (AT_MAILBOX, which, &mailbox.waiters));
        let at_semaphores = self.semaphores.iter().enumerate().map(|(which, semaphore)| (AT_SEMAPHORE, which, &semaphore.waiters));
        let mut queues = ready.chain(at_mailboxes).chain(at_semaphores);
        queues.find_map(|(place, which, queue)| Some((place, which, position(queue)?))).expect("who doesn't run is in a queue")
    }
}

#[cfg(test)]
mod tests {
    use super::*;
    use crate::example::everyone;
    use crate::scripts::Script;

    fn numbers(kernel: &Kernel, process: usize) -> [u32; 7] {
        kernel.row(process).numbers()
    }

    #[test]
    fn fresh_rows() {
        let kernel = Kernel::fresh();
        assert_eq!(numbers(&kernel, 0), [1, 0, 0, 0, 0, 0, 0]);
        assert!((1..32).all(|process| numbers(&kernel, process) == [0; 7]));
    }

    #[test]
    fn every_place() {
        let mut kernel = everyone();
        assert_eq!(numbers(&kernel, 0), [5, 0, 0, 0, 0, 0, 0]);
        assert_eq!(numbers(&kernel, 1), [3, 9, 0, 4, 3, 0, 0]);
        assert_eq!(numbers(&kernel, 2), [4, 15, 0, 3, 3, 1, 1]);
        assert_eq!(numbers(&kernel, 3), [3, 9, 1, 4, 3, 0, 0]);
        assert_eq!(numbers(&kernel, 4), [1, 2, 0, 2, 2, 1, 0]);
        assert_eq!(numbers(&kernel, 5), [2, 1, 0, 1, 3, 0, 0]);
        assert_eq!(numbers(&kernel, 6), [2, 1, 1, 1, 3, 0, 0]);
        assert_eq!(numbers(&kernel, 7), [2, 0, 0, 0, 3, 0, 0]);
        assert_eq!(numbers(&kernel, 8), [0; 7]);
        kernel.create(4); // 8 preempts 4
        assert_eq!(numbers(&kernel, 4), [2, 2, 0, 2, 2, 1, 0]);
        assert_eq!(numbers(&kernel, 8), [1, 4, 0, 4, 3, 0, 0]);
    }

    #[test]
    fn tables() {
        let mut kernel = Kernel::fresh();
        kernel.create(1);
        let other = Row { place: 99, which: 98, position: 97, class: 96, ticks: 95, full: 94, length: 93 };
        for rows in [0, 1, 31] {
            let mut table = vec![other; rows];
            assert_eq!(kernel.listing(&mut table), Answer { code: 9, number: 32, running: 1 });
            assert!(table.iter().all(|row| *row == other));
        }
        for rows in [32, 33, 100] {
            let mut table = vec![other; rows];
            assert_eq!(kernel.listing(&mut table), Answer { code: 0, number: 0, running: 1 });
            assert!((0..32).all(|number| table[number] == kernel.row(number)));
            assert!(table[32..].iter().all(|row| *row == other));
        }
    }

    #[test]
    fn rows_tell_the_queues() {
        for seed in 0..8 {
            let mut script = Script::new(seed, 500);
            while script.next_line().is_some() {
                let kernel = script.kernel();
                let standing_by = u32::from(kernel.running != 0);
                let count = |place: u32| (0..32).filter(|&number| kernel.row(number).place == place).count();
                assert_eq!(count(RUNNING), 1);
                assert_eq!(count(STANDING_BY) as u32, standing_by);
                assert_eq!(count(READY), kernel.ready.iter().map(VecDeque::len).sum());
                assert_eq!(count(AT_MAILBOX), kernel.mailboxes.iter().map(|mailbox| mailbox.waiters.len()).sum());
                assert_eq!(count(AT_SEMAPHORE), kernel.semaphores.iter().map(|semaphore| semaphore.waiters.len()).sum());
            }
        }
    }
}
