//! Random numbers for settings of mailboxes: which one, capacities and modes, right and wrong ones, none over 65,535.

use crate::kernel::*;
use crate::random::Random;

/// A mailbox that nobody uses, mostly; or one with messages or waiters, or one that there is not.
pub fn any_mailbox(kernel: &Kernel, random: &mut Random) -> u32 {
    let such = |wanted: fn(&Mailbox) -> bool| -> Vec<u32> {
        (0..MAILBOXES as u32).filter(|&number| wanted(&kernel.mailboxes[number as usize])).collect()
    };
    let chosen = match random.below(12) {
        0 | 1 => random.pick(&[16, 256, 271]),
        2 => Some(random.between(16, 65_535) as u32),
        3 | 4 => random.pick(&such(|mailbox| !mailbox.messages.is_empty())),
        5 | 6 => random.pick(&such(|mailbox| !mailbox.waiters.is_empty())),
        _ => random.pick(&such(|mailbox| !mailbox.is_busy())),
    };
    chosen.unwrap_or_else(|| random.below(MAILBOXES) as u32)
}

/// A capacity that there is, mostly one that is soon full.
pub fn capacity(random: &mut Random) -> u32 {
    let capacity = match random.below(12) {
        0..=2 => 1,
        3 | 4 => 2,
        5..=7 => random.between(3, 7),
        8 => 8,
        9 => random.between(9, 31),
        10 => 32,
        _ => random.between(1, 32),
    };
    capacity as u32
}

pub fn mode(random: &mut Random) -> u32 {
    random.pick(&[REFUSES, DROPS]).unwrap_or(DROPS)
}

pub fn wrong_capacity(random: &mut Random) -> u32 {
    let capacity = match random.below(5) {
        0 => 0,
        1 => 33,
        2 => random.between(34, 255),
        3 => 256 + random.between(1, 32),
        _ => random.between(34, 65_535),
    };
    capacity as u32
}

pub fn wrong_mode(random: &mut Random) -> u32 {
    let mode = match random.below(5) {
        0 => 2,
        1 => random.between(3, 255),
        2 => 256 + random.below(2),
        _ => random.between(2, 65_535),
    };
    mode as u32
}
