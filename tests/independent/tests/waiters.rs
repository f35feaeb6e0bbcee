//! Request 10 of document 02, of the kernel here: nobody barges in at a mailbox or a semaphore, whatever is called. What it
//! claims is counted from the calls and their answers, and held against who stands where.

mod moments;

use independent::answer::{CALLER_WAITS, COUNT_AT_LIMIT, DONE, MAILBOX_FULL};
use independent::call::Call;
use independent::kernel::*;
use moments::{moments, seeds, Moment};
use std::collections::VecDeque;

/// A place to wait at, with what is awaited there.
#[derive(Clone, Copy, Debug, PartialEq, Eq)]
enum Place {
    Mailbox(usize),
    Semaphore(usize),
}

impl Place {
    fn all() -> impl Iterator<Item = Place> {
        (0..MAILBOXES).map(Place::Mailbox).chain((0..SEMAPHORES).map(Place::Semaphore))
    }

    fn waiters(self, kernel: &Kernel) -> &VecDeque<usize> {
        match self {
            Place::Mailbox(number) => &kernel.mailboxes[number].waiters,
            Place::Semaphore(number) => &kernel.semaphores[number].waiters,
        }
    }

    /// A call for the first who waits here.
    fn is_served_by(self, call: &Call) -> bool {
        match (self, call) {
            (Place::Mailbox(number), Call::Send(to, _)) => *to as usize == number,
            (Place::Semaphore(number), Call::Signal(on)) => *on as usize == number,
            _ => false,
        }
    }

    /// A call that waits here if there is nothing to be had.
    fn is_sought_by(self, call: &Call) -> bool {
        match (self, call) {
            (Place::Mailbox(number), Call::Receive(from)) => *from as usize == number,
            (Place::Semaphore(number), Call::Wait(on)) => *on as usize == number,
            _ => false,
        }
    }
}

/// One wait: who, how many were ahead when it began, and how many calls for this place were accepted since.
#[derive(Clone, Debug)]
struct Wait {
    process: usize,
    ahead: usize,
    accepted: usize,
}

/// How waits ended that had others ahead of them.
#[derive(Debug, Default)]
struct Ends {
    served: usize,
    sooner_by_a_stop: usize,
    stopped: usize,
    messages: usize,
}

/// What a call did, at one place.
struct Step<'a> {
    place: Place,
    moment: &'a Moment,
}

impl Step<'_> {
    fn is_for_waiters(&self) -> bool {
        self.place.is_served_by(&self.moment.call)
    }

    fn serves(&self) -> bool {
        self.is_for_waiters() && self.moment.code == DONE
    }

    fn check(&self, waits: &mut Vec<Wait>, ends: &mut Ends) {
        if self.is_for_waiters() && !waits.is_empty() {
            assert!(![MAILBOX_FULL, COUNT_AT_LIMIT].contains(&self.moment.code), "{:?} is full while somebody waits", self.place);
        }
        if self.serves() {
            self.check_message(waits, ends);
            waits.iter_mut().for_each(|wait| wait.accepted += 1);
        }
        waits.retain(|wait| self.still_waits(wait, ends));
        if self.place.is_sought_by(&self.moment.call) && self.moment.code == CALLER_WAITS {
            waits.push(Wait { process: self.moment.before.running, ahead: waits.len(), accepted: 0 });
        }
        let order: VecDeque<usize> = waits.iter().map(|wait| wait.process).collect();
        assert_eq!(&order, self.place.waiters(&self.moment.after), "the order of waiters at {:?}", self.place);
    }

    /// The message is in the hand of the first who waits, whole.
    fn check_message(&self, waits: &[Wait], ends: &mut Ends) {
        let (Some(first), Call::Send(_, bytes)) = (waits.first(), &self.moment.call) else { return };
        let hand = self.moment.after.processes[first.process].as_ref().and_then(|process| process.hand.as_ref());
        assert_eq!(hand.map(|message| &message.bytes), Some(bytes), "in the hand of {}", first.process);
        ends.messages += usize::from(!bytes.is_empty());
    }

    /// With n ahead it waits no longer than until the call number n + 1; it is made ready by such a call, or stopped.
    fn still_waits(&self, wait: &Wait, ends: &mut Ends) -> bool {
        let (process, after) = (wait.process, &self.moment.after);
        if self.place.waiters(after).contains(&process) {
            assert!(wait.accepted < wait.ahead + 1, "{process} waits longer than it was promised at {:?}", self.place);
            return true;
        }
        match &after.processes[process] {
            None => ends.stopped += usize::from(wait.ahead > 0),
            Some(block) => {
                let ready = after.running == process || after.ready[block.class].contains(&process);
                assert!(ready, "{process} is not ready again");
                assert!(self.serves(), "{process} is ready by {:?}", self.moment.call);
                ends.served += usize::from(wait.ahead > 0);
                ends.sooner_by_a_stop += usize::from(wait.accepted < wait.ahead + 1);
            }
        }
        false
    }
}

#[test]
fn nobody_barges_in() {
    let mut ends = Ends::default();
    for seed in seeds() {
        let mut waits: Vec<(Place, Vec<Wait>)> = Place::all().map(|place| (place, Vec::new())).collect();
        for moment in moments(seed) {
            for (place, waits) in &mut waits {
                Step { place: *place, moment: &moment }.check(waits, &mut ends);
            }
        }
    }
    assert!(ends.served > 100 && ends.sooner_by_a_stop > 20 && ends.stopped > 20 && ends.messages > 100, "{ends:?}");
}
