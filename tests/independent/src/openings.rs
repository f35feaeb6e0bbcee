//! Calls that some random scripts begin with, for what drawn ones rarely come to: names that return, full mailboxes of every size,
//! and pages that fill the store. They assume that there are no messages yet.

use crate::call::Call;
use crate::kernel::*;
use crate::lengths::edges;
use crate::random::Random;

/// A number is born so often, and of these births the last ones are looked at closely.
const REBIRTHS: u32 = BIRTHS + 2;
const LAST_REBIRTHS: u32 = 4;

/// So many messages more than a mailbox holds are sent to it.
const TOO_MANY: u32 = 3;

/// The lowest unused number is born and stopped until its names return. The last times it is asked about, and stopped, by
/// the names of the two births before, of the next one, and by its own last; so it is again when it is unused. In the end it
/// is a process.
pub fn births(number: u32) -> Vec<Call> {
    let mut calls = vec![];
    for birth in 1..=REBIRTHS {
        let name = |birth: u32| number + BIRTHS * (birth % BIRTHS);
        let names = [birth + BIRTHS - 2, birth - 1, birth + 1, birth].map(name);
        calls.push(Call::Create(0));
        if birth + LAST_REBIRTHS > REBIRTHS {
            calls.extend(names.map(Call::Why));
            calls.extend(names[..3].iter().copied().map(Call::Stop));
        }
        if birth < REBIRTHS {
            calls.push(Call::Stop(name(birth)));
        }
        if birth + LAST_REBIRTHS > REBIRTHS && birth < REBIRTHS {
            calls.extend(names.map(Call::Why));
            calls.extend(names.map(Call::Stop));
        }
    }
    calls
}

/// A process fills a mailbox of 32, one of 8, and one of 9 to 31, each first refusing and then dropping, sends more, reads all
/// that is there and sets it back to 8, refusing. In between it tries to set it while there are messages.
pub fn fillings(round: u64) -> Vec<Call> {
    let mut calls = vec![Call::Create(4)];
    for (mailbox, capacity) in [(15, 32), (7, 8), (0, 9 + (round % 23) as u32)] {
        for mode in [REFUSES, DROPS] {
            calls.push(Call::Mailbox(mailbox, capacity, mode));
            calls.extend((0..capacity + TOO_MANY).map(|number| Call::Send(mailbox, vec![number as u8; 1 + number as usize % 3])));
            calls.push(Call::Mailbox(mailbox, capacity, mode));
            calls.extend(emptied(mailbox, capacity as usize));
            calls.push(Call::Mailbox(mailbox, USUAL_CAPACITY as u32, REFUSES));
        }
    }
    calls.push(Call::End);
    calls
}

/// Messages of every number of buffers are sent and read, lie where there are gaps, fill the store, are given back and dropped.
/// The lowest unused number and the two above it are made processes for that, and are unused in the end.
pub fn pages(lowest_unused: u32, round: u64) -> Vec<Call> {
    let mut random = Random::new(round);
    let parts = [
        vec![Call::Create(4), Call::Create(4), Call::Yield, Call::Receive(11)],
        edges_sent_and_read(&mut random),
        page_between_others(&mut random),
        pages_given_back(lowest_unused, &mut random),
        pages_dropped(&mut random),
        vec![send(11, 4_096, &mut random), Call::End, Call::Read(4_096), Call::End],
    ];
    parts.concat()
}

fn send(mailbox: u32, length: usize, random: &mut Random) -> Call {
    Call::Send(mailbox, random.bytes(length))
}

/// Takes a message out of a mailbox, reads it and lets it go, so often.
fn emptied(mailbox: u32, messages: usize) -> Vec<Call> {
    (0..messages).flat_map(|_| [Call::Receive(mailbox), Call::Read(4_096), Call::Release]).collect()
}

/// Each length from which on another buffer is needed, read in a room that is too short and in one that is just long enough.
fn edges_sent_and_read(random: &mut Random) -> Vec<Call> {
    let mut calls = vec![];
    for length in edges() {
        calls.push(send(3, length, random));
        if length <= LONGEST_MESSAGE {
            let rooms = [length.saturating_sub(1), length].map(|room| Call::Read(room as u32));
            calls.extend([vec![Call::Receive(3)], rooms.to_vec(), vec![Call::Release]].concat());
        }
    }
    calls
}

/// Of buffers 0 to 15 every second one is free, and a page lies in these.
fn page_between_others(random: &mut Random) -> Vec<Call> {
    let mut calls: Vec<Call> = (0..8).flat_map(|_| [0, 1]).map(|mailbox| send(mailbox, 2, random)).collect();
    calls.extend(emptied(1, 8));
    calls.push(send(2, 4_096, random));
    calls.extend(emptied(2, 1));
    calls.extend(emptied(0, 8));
    calls
}

/// Four pages fill the store. Each of them is in the hand of a process that is stopped or ends, running, waiting or ready, and
/// what it gives back is enough for another page.
fn pages_given_back(number: u32, random: &mut Random) -> Vec<Call> {
    let name = |birth: u32| number + BIRTHS * birth;
    let filled: Vec<Call> = (0..4).map(|_| send(4, 4_096, random)).collect();
    let too_many = [send(11, 513, random), send(5, 513, random), send(5, 0, random), Call::Receive(4), Call::Receive(4), send(5, 0, random)];
    let ways: [&[Call]; 4] = [
        &[Call::Stop(name(1))],
        &[Call::Create(4), Call::Receive(4), Call::Read(4_096), Call::End],
        &[Call::Create(4), Call::Receive(4), Call::Wait(15), Call::Stop(name(3))],
        &[Call::Create(4), Call::Receive(4), Call::Create(4), Call::Yield, Call::Stop(name(4))],
    ];
    let given_back = ways.map(|calls| [calls, &[send(5, 4_096, random), send(5, 0, random)]].concat());
    [filled, too_many.to_vec(), given_back.concat(), emptied(5, 4)].concat()
}

/// Mailboxes 7 and 10 take one message and drop it for another, of more buffers and of fewer, where that leaves enough free.
fn pages_dropped(random: &mut Random) -> Vec<Call> {
    let mut calls = vec![Call::Mailbox(7, 1, DROPS), Call::Mailbox(10, 1, DROPS)];
    let mut sends = |calls: &mut Vec<Call>, list: &[(u32, usize)]| calls.extend(list.iter().map(|&(mailbox, length)| send(mailbox, length, random)));
    // Mailbox 7 has a page in buffers 1 to 3. Of the others only 29 to 31 are free: 3 and 3 are not enough for 7 or 8.
    sends(&mut calls, &[(8, 1), (7, 1_500), (8, 4_096), (8, 4_096), (8, 4_096)]);
    calls.extend(emptied(8, 1));
    sends(&mut calls, &[(8, 513), (7, 3_073), (7, 4_096)]);
    calls.extend(emptied(7, 1));
    // They are enough for 6, and these for 2.
    sends(&mut calls, &[(7, 1_500), (7, 2_561), (7, 600)]);
    // Mailbox 10 has a page in buffers 29 and 30, then in 4 and 5, then in 4 to 11, and then a message in 4.
    sends(&mut calls, &[(9, 1), (10, 600)]);
    calls.extend(emptied(8, 1));
    sends(&mut calls, &[(10, 600), (10, 4_096), (10, 1)]);
    calls.extend([emptied(8, 3), emptied(9, 1), emptied(7, 1), emptied(10, 1)].concat());
    calls.extend([7, 10].map(|mailbox| Call::Mailbox(mailbox, USUAL_CAPACITY as u32, REFUSES)));
    calls
}
