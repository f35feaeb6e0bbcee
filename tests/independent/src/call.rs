//! One call with its arguments as a value, for scripts and for tests.

use crate::answer::Answer;
use crate::kernel::Kernel;
use crate::why::Reason;

#[derive(Clone, Debug, PartialEq, Eq)]
pub enum Call {
    Create(u32),
    /// By name, as `Why`.
    Stop(u32),
    End,
    Yield,
    Class(u32),
    Tick,
    Send(u32, Vec<u8>),
    Receive(u32),
    Read(u32),
    Release,
    Signal(u32),
    Wait(u32),
    Why(u32),
    /// Which one, its capacity and its mode.
    Mailbox(u32, u32, u32),
}

/// What an answer has beside its three numbers.
#[derive(Clone, Debug, PartialEq, Eq)]
pub enum Told {
    /// The message that was read.
    Message(Vec<u8>),
    Reason(Reason),
}

impl Kernel {
    /// Does a call.
    pub fn apply(&mut self, call: &Call) -> (Answer, Option<Told>) {
        let answer = match call {
            Call::Create(class) => self.create(*class),
            Call::Stop(name) => self.stop(*name),
            Call::End => self.end(),
            Call::Yield => self.yield_now(),
            Call::Class(class) => self.class(*class),
            Call::Tick => self.tick(),
            Call::Send(mailbox, bytes) => self.send(*mailbox, bytes),
            Call::Receive(mailbox) => self.receive(*mailbox),
            Call::Read(room) => {
                let (answer, message) = self.read(*room);
                return (answer, message.map(Told::Message));
            }
            Call::Release => self.release(),
            Call::Signal(semaphore) => self.signal(*semaphore),
            Call::Wait(semaphore) => self.wait(*semaphore),
            Call::Why(name) => {
                let (answer, reason) = self.why(*name);
                return (answer, reason.map(Told::Reason));
            }
            Call::Mailbox(mailbox, capacity, mode) => self.mailbox(*mailbox, *capacity, *mode),
        };
        (answer, None)
    }
}
