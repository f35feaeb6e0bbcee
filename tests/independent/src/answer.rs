//! What comes back from a call: its code, its number and who runs after it.

pub const DONE: u32 = 0;
pub const NO_SUCH_PROCESS: u32 = 1;
pub const NO_SUCH_CLASS: u32 = 2;
pub const NO_SUCH_MAILBOX: u32 = 3;
pub const NO_SUCH_SEMAPHORE: u32 = 4;
pub const NULL_RUNS: u32 = 5;
pub const MESSAGE_TOO_LONG: u32 = 6;
pub const HAND_FULL: u32 = 7;
pub const HAND_EMPTY: u32 = 8;
pub const TOO_LITTLE_ROOM: u32 = 9;
pub const NO_UNUSED_PROCESS: u32 = 10;
pub const MAILBOX_FULL: u32 = 11;
/// Fewer buffers are free than the message needs.
pub const TOO_FEW_BUFFERS: u32 = 12;
pub const COUNT_AT_LIMIT: u32 = 13;
pub const NOT_SOUND: u32 = 14;
pub const NOT_A_STORE: u32 = 15;
pub const NO_SUCH_SLICE: u32 = 16;
/// The capacity or the mode of a mailbox is outside its range.
pub const NO_SUCH_SIZE: u32 = 17;
/// The mailbox has messages or waiters.
pub const MAILBOX_BUSY: u32 = 18;
pub const CALLER_WAITS: u32 = 32;

#[derive(Clone, Copy, Debug, PartialEq, Eq)]
pub struct Answer {
    pub code: u32,
    pub number: u32,
    pub running: u32,
}
