//! Changes of the chains of buffers in an image, wherever there can be such: those that damage it, and those that leave a sound
//! state. What each one leaves is known by how it is made.

use crate::image::{image, CHAIN, FREE_BITS, LENGTH};
use crate::kernel::*;
use crate::lengths::{edges, MOST_BUFFERS};

/// An image that was changed: how, and whether it is that of a sound state.
pub struct Change {
    pub words: &'static str,
    pub is_sound: bool,
    pub area: Vec<u8>,
}

fn damage(words: &'static str, area: Vec<u8>) -> Change {
    Change { words, is_sound: false, area }
}

fn harmless(words: &'static str, kernel: &Kernel) -> Change {
    Change { words, is_sound: true, area: image(kernel).to_vec() }
}

/// What may stand in the place of a link, beside the buffers: heads of mailboxes, and what is a buffer in fewer bits.
const PAST_31: [u8; 7] = [32, 33, 47, 48, 64, 128, 255];
/// Lengths past all that can be sent.
const PAST_4200: [usize; 4] = [4_608, 8_192, 16_384, 65_535];

/// All changes of a sound state.
pub fn every_change(sound: &Kernel) -> Vec<Change> {
    let messages = sound.held().count();
    let mut changes = every_link_changed(sound);
    for number in 0..messages {
        changes.extend(other_buffers(sound, number));
        changes.extend(other_lengths(sound, number));
        changes.extend(lost_buffers(sound, number));
        changes.extend((0..messages).filter(|&other| other != number).flat_map(|other| shared_buffers(sound, number, other)));
    }
    changes.extend(lost_ring(sound));
    changes
}

/// Each link in turn leads to each other buffer, and past all of them. The lengths and the other links stay, so that some message
/// has too few buffers, too many, or another's.
fn every_link_changed(sound: &Kernel) -> Vec<Change> {
    let area = image(sound).to_vec();
    let mut changes = vec![];
    for from in 0..BUFFERS {
        let targets = (0..BUFFERS as u8).chain(PAST_31).filter(|&to| to != area[CHAIN + from]);
        changes.extend(targets.map(|to| damage(words_of_link(sound, from, to.into()), with_bytes(&area, &[(CHAIN + from, to)]))));
    }
    changes
}

fn words_of_link(kernel: &Kernel, from: usize, to: usize) -> &'static str {
    let owner = |buffer: usize| kernel.held().find(|message| message.buffers.contains(&buffer));
    let Some(message) = owner(from) else {
        return "a free buffer that leads on";
    };
    match owner(to) {
        _ if to >= BUFFERS => "a link past 31",
        None => "a chain through a free buffer",
        Some(other) if other == message => words_of_own_link(&message.buffers, from, to),
        Some(other) if other.first() == to => "a chain to the first buffer of another message",
        Some(_) => "a chain to a later buffer of another message",
    }
}

fn words_of_own_link(buffers: &[usize], from: usize, to: usize) -> &'static str {
    let place = |wanted: usize| buffers.iter().position(|&buffer| buffer == wanted);
    match place(to).cmp(&place(from)) {
        std::cmp::Ordering::Less => "a chain that leads back",
        std::cmp::Ordering::Equal => "a chain that ends too early",
        std::cmp::Ordering::Greater => "a chain that leaves out a buffer",
    }
}

/// A message has its buffers in another order, one less or one more.
fn other_buffers(sound: &Kernel, number: usize) -> Vec<Change> {
    let message = nth(sound, number);
    let buffers = message.buffers.len();
    let mut changes = vec![];
    if buffers > 2 {
        let turned = with_message(sound, number, |message| message.buffers[1..].reverse());
        changes.push(harmless("a message with its buffers in another order", &turned));
    }
    if buffers > 1 {
        let last = message.buffers[buffers - 1];
        let shorter = with_message(sound, number, |message| {
            message.buffers.pop();
            message.bytes.truncate(BUFFER_BYTES * (buffers - 1));
        });
        changes.push(harmless("a message that is shorter by a buffer", &shorter));
        changes.push(damage("a message that is shorter by a buffer, which is lost", with_free_bit(&shorter, last, false)));
    }
    if let (true, Some(&free)) = (buffers < MOST_BUFFERS, sound.free_buffers().last()) {
        let longer = with_message(sound, number, |message| {
            message.buffers.push(free);
            message.bytes.resize(BUFFER_BYTES * buffers + 1, 0);
        });
        changes.push(harmless("a message that is longer by a buffer", &longer));
        changes.push(damage("a message that is longer by a buffer, which is free", with_free_bit(&longer, free, true)));
    }
    changes
}

/// A message has another length than its buffers take, or a second one at a later buffer.
fn other_lengths(sound: &Kernel, number: usize) -> Vec<Change> {
    let area = image(sound).to_vec();
    let message = nth(sound, number);
    let mut changes = vec![];
    for length in edges().into_iter().chain(PAST_4200) {
        let is_sound = length <= LONGEST_MESSAGE && buffers_needed(length) == message.buffers.len();
        let words = if is_sound { "a length of as many buffers" } else { "a length of other buffers" };
        changes.push(Change { words, is_sound, area: with_length(&area, message.first(), length) });
    }
    for &buffer in &message.buffers[1..] {
        changes.extend([1, 512].map(|length| damage("a length at a later buffer", with_length(&area, buffer, length))));
    }
    changes
}

/// Nobody has a message, or only from its second buffer on; the others are not free for that.
fn lost_buffers(sound: &Kernel, number: usize) -> Vec<Change> {
    let message = nth(sound, number);
    let whole = image(sound);
    let mut without = sound.clone();
    remove(&mut without, message.first());
    let off = |area: Vec<u8>, buffer: &usize| without_free_bit(area, *buffer);
    let lost = message.buffers.iter().fold(image(&without).to_vec(), off);
    let linked: Vec<(usize, u8)> = message.buffers.iter().map(|buffer| (CHAIN + buffer, whole[CHAIN + buffer])).collect();
    let mut changes = vec![damage("a message that nobody has", with_bytes(&lost, &linked)), damage("lost buffers", lost)];
    if message.buffers.len() > 1 {
        let first = message.first();
        let from_second = with_message(sound, number, |message| {
            message.buffers.remove(0);
            message.bytes.truncate(BUFFER_BYTES * message.buffers.len());
        });
        let unlinked = with_free_bit(&from_second, first, false);
        changes.push(damage("a message that is known from its second buffer on", with_bytes(&unlinked, &[(CHAIN + first, whole[CHAIN + first])])));
    }
    changes
}

/// The last buffer of a message, not its only one, is also that of another, or they exchange them.
fn shared_buffers(sound: &Kernel, number: usize, other: usize) -> Vec<Change> {
    let (one, two) = (nth(sound, number), nth(sound, other));
    let (Some(&last), Some(&others_last)) = (one.buffers[1..].last(), two.buffers.last()) else {
        return vec![];
    };
    let end_with = |message: &mut Message, last: usize| *message.buffers.last_mut().expect("a buffer") = last;
    let shared = with_message(sound, number, |message| end_with(message, others_last));
    let mut changes = vec![damage("two messages that share a buffer", image(&shared).to_vec())];
    if two.buffers.len() > 1 {
        let exchanged = with_message(&shared, other, |message| end_with(message, last));
        changes.push(harmless("two messages that have exchanged buffers", &exchanged));
    }
    changes
}

/// The two highest free buffers are not free, and lead to each other.
fn lost_ring(sound: &Kernel) -> Option<Change> {
    let free = sound.free_buffers();
    let [.., one, other] = free[..] else { return None };
    let area = without_free_bit(with_free_bit(sound, one, false), other);
    Some(damage("a ring of lost buffers", with_bytes(&area, &[(CHAIN + one, other as u8), (CHAIN + other, one as u8)])))
}

/// A message by its number among all.
fn nth(kernel: &Kernel, number: usize) -> &Message {
    kernel.held().nth(number).expect("a message")
}

fn with_message(kernel: &Kernel, number: usize, change: impl Fn(&mut Message)) -> Kernel {
    let mut changed = kernel.clone();
    change(changed.held_mut().nth(number).expect("a message"));
    changed
}

/// Takes away the message with this first buffer.
fn remove(kernel: &mut Kernel, first: usize) {
    for process in kernel.processes.iter_mut().flatten() {
        process.hand = process.hand.take().filter(|message| message.first() != first);
    }
    for mailbox in &mut kernel.mailboxes {
        mailbox.messages.retain(|message| message.first() != first);
    }
}

fn with_bytes(area: &[u8], changes: &[(usize, u8)]) -> Vec<u8> {
    let mut changed = area.to_vec();
    changes.iter().for_each(|&(place, byte)| changed[place] = byte);
    changed
}

fn with_length(area: &[u8], buffer: usize, length: usize) -> Vec<u8> {
    let place = LENGTH + 2 * buffer;
    with_bytes(area, &[(place, (length % 256) as u8), (place + 1, (length / 256) as u8)])
}

fn with_free_bit(kernel: &Kernel, buffer: usize, is_free: bool) -> Vec<u8> {
    let mut area = without_free_bit(image(kernel).to_vec(), buffer);
    area[FREE_BITS + buffer / 8] |= u8::from(is_free) << (buffer % 8);
    area
}

fn without_free_bit(mut area: Vec<u8>, buffer: usize) -> Vec<u8> {
    area[FREE_BITS + buffer / 8] &= !(1 << (buffer % 8));
    area
}

/// With pages everywhere: process 1 waits at semaphore 2 with buffers 4 and 5 in hand; 2 runs, with a page in buffers 0, 2, 3, and 6
/// to 10 in hand; mailbox 0 has a message in buffer 1; mailbox 3 has pages in 11 to 13 and 14 to 15 and a message in 16; mailbox 5
/// holds one message and drops, and has one in 17 to 22; the others are free.
pub fn pages_everywhere() -> Kernel {
    let mut kernel = Kernel::fresh_slice(3).expect("a slice");
    kernel.create(2);
    for (mailbox, length) in [(1, 1), (0, 2), (1, 1_024), (4, 1_000)] {
        kernel.send(mailbox, &vec![length as u8; length]);
    }
    kernel.receive(4);
    kernel.wait(2);
    kernel.create(2);
    for _ in 0..2 {
        kernel.receive(1);
        kernel.release();
    }
    kernel.send(6, &[6; 4_096]);
    kernel.receive(6);
    kernel.mailbox(5, 1, DROPS);
    for (mailbox, length) in [(3, 1_025), (3, 1_024), (3, 0), (5, 3_000)] {
        kernel.send(mailbox, &vec![length as u8; length]);
    }
    kernel
}

#[cfg(test)]
mod tests {
    use super::*;
    use crate::image::decide;
    use crate::scripts::Script;
    use std::collections::BTreeSet;

    /// All that a change can be, in a state that has everything.
    const ALL: [&str; 22] = [
        "a chain that ends too early",
        "a chain that leads back",
        "a chain that leaves out a buffer",
        "a chain through a free buffer",
        "a chain to a later buffer of another message",
        "a chain to the first buffer of another message",
        "a free buffer that leads on",
        "a length at a later buffer",
        "a length of as many buffers",
        "a length of other buffers",
        "a link past 31",
        "a message that is known from its second buffer on",
        "a message that is longer by a buffer",
        "a message that is longer by a buffer, which is free",
        "a message that is shorter by a buffer",
        "a message that is shorter by a buffer, which is lost",
        "a message that nobody has",
        "a message with its buffers in another order",
        "a ring of lost buffers",
        "lost buffers",
        "two messages that have exchanged buffers",
        "two messages that share a buffer",
    ];

    fn check(kernel: &Kernel) -> BTreeSet<&'static str> {
        let changes = every_change(kernel);
        for change in &changes {
            assert_eq!(decide(&change.area).is_some(), change.is_sound, "{}", change.words);
        }
        changes.iter().map(|change| change.words).collect()
    }

    #[test]
    fn each_is_what_it_is_said_to_be() {
        let kernel = pages_everywhere();
        let buffers: Vec<&[usize]> = kernel.held().map(|message| &message.buffers[..]).collect();
        let in_hands: [&[usize]; 2] = [&[4, 5], &[0, 2, 3, 6, 7, 8, 9, 10]];
        assert_eq!(buffers[..2], in_hands);
        let queued: [&[usize]; 5] = [&[1], &[11, 12, 13], &[14, 15], &[16], &[17, 18, 19, 20, 21, 22]];
        assert_eq!(buffers[2..], queued);
        assert_eq!(check(&kernel), BTreeSet::from(ALL));
    }

    #[test]
    fn in_deep_states() {
        for seed in [0, 2, 3, 6, 14] {
            let mut script = Script::new(seed, 150 + 31 * seed);
            while script.next_line().is_some() {}
            check(script.kernel());
        }
        check(&Kernel::fresh());
    }
}
