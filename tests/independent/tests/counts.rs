//! The count of messages of document 01 with the third term of document 02: of the messages that a mailbox accepted, some are
//! queued, some went into hands, and some were dropped.

mod moments;

use independent::answer::DONE;
use independent::call::Call;
use independent::kernel::*;
use moments::{moments, seeds};

/// Counted from the calls and their answers.
#[derive(Clone, Copy, Debug, Default)]
struct Counts {
    accepted: usize,
    gone_into_hands: usize,
    dropped: usize,
}

impl Counts {
    /// A send is accepted: to a waiter, or into the mailbox, which loses one where it is full.
    fn add_send(&mut self, mailbox: &Mailbox) {
        self.accepted += 1;
        self.gone_into_hands += usize::from(!mailbox.waiters.is_empty());
        self.dropped += usize::from(mailbox.messages.len() == mailbox.capacity);
    }

    /// How many must be queued.
    fn left(&self) -> usize {
        self.accepted - self.gone_into_hands - self.dropped
    }
}

#[test]
fn messages_are_queued_in_hands_or_dropped() {
    let mut dropped = 0;
    for seed in seeds() {
        let mut counts = [Counts::default(); MAILBOXES];
        for moment in moments(seed) {
            let done = moment.code == DONE;
            match moment.call {
                Call::Send(number, _) if done => counts[number as usize].add_send(&moment.before.mailboxes[number as usize]),
                Call::Receive(number) if done => counts[number as usize].gone_into_hands += 1,
                _ => (),
            }
            for (mailbox, counts) in moment.after.mailboxes.iter().zip(counts) {
                assert_eq!(mailbox.messages.len(), counts.left(), "seed {seed}, {:?}", moment.call);
            }
        }
        dropped += counts.iter().map(|counts| counts.dropped).sum::<usize>();
    }
    assert!(dropped > 100, "{dropped} dropped");
}
