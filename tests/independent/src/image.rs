//! A state as the bytes of docs/IMAGE.md: the image of a kernel, and whether some bytes are the image of a sound state.

use crate::kernel::*;
use crate::sound::is_sound;
use std::collections::VecDeque;

pub const IMAGE_BYTES: usize = 540;

// Where each field begins.
const RUNNING: usize = 0;
const CLASS: usize = 1;
const TICKS: usize = 33;
const PROCESS_NEXT: usize = 65;
const PROCESS_BEFORE: usize = 134;
const READY_BITS: usize = 203;
const UNUSED_BITS: usize = 207;
const MESSAGE_NEXT: usize = 211;
const MESSAGE_BEFORE: usize = 259;
const HAND: usize = 307;
const FULL_BITS: usize = 339;
pub const LENGTH: usize = 343;
pub const FREE_BITS: usize = 407;
pub const CHAIN: usize = 411;
const COUNT: usize = 443;
pub const BIRTH_COUNT: usize = 475;
pub const SLICE: usize = 507;
pub const CAPACITY: usize = 508;
pub const MODE: usize = 524;

/// What the byte at this place belongs to.
pub fn field_of(place: usize) -> &'static str {
    let fields = [
        (RUNNING, "running"),
        (CLASS, "class"),
        (TICKS, "ticks"),
        (PROCESS_NEXT, "queues"),
        (READY_BITS, "bits"),
        (MESSAGE_NEXT, "mailboxes"),
        (HAND, "hands"),
        (FULL_BITS, "bits"),
        (LENGTH, "length"),
        (FREE_BITS, "bits"),
        (CHAIN, "chains"),
        (COUNT, "count"),
        (BIRTH_COUNT, "births"),
        (SLICE, "slice"),
        (CAPACITY, "capacity"),
        (MODE, "mode"),
    ];
    fields.iter().rfind(|(start, _)| *start <= place).map_or("", |(_, name)| name)
}

/// In both kinds of rings the members are nodes 0 to 31, and the head of queue q is node 32 + q.
const FIRST_HEAD: usize = 32;

/// The image of a sound state.
pub fn image(kernel: &Kernel) -> [u8; IMAGE_BYTES] {
    let mut area = [0; IMAGE_BYTES];
    area[RUNNING] = kernel.running as u8;
    for (number, process) in kernel.processes.iter().enumerate() {
        if let Some(process) = process {
            area[CLASS + number] = process.class as u8;
            area[TICKS + number] = process.ticks as u8;
        }
        if let Some(message) = kernel.hand_of(number) {
            area[HAND + number] = message.first() as u8;
        }
    }

    let ready = kernel.ready.iter();
    let at_mailboxes = kernel.mailboxes.iter().map(|mailbox| &mailbox.waiters);
    let at_semaphores = kernel.semaphores.iter().map(|semaphore| &semaphore.waiters);
    let process_queues = ready.chain(at_mailboxes).chain(at_semaphores);
    write_rings(&mut area, PROCESS_NEXT, PROCESS_BEFORE, process_queues.map(|queue| queue.iter().copied().collect()).collect());
    let message_queues = kernel.mailboxes.iter().map(|mailbox| mailbox.messages.iter().map(Message::first).collect());
    write_rings(&mut area, MESSAGE_NEXT, MESSAGE_BEFORE, message_queues.collect());

    write_bits(&mut area, READY_BITS, |class| class < CLASSES && !kernel.ready[class].is_empty());
    write_bits(&mut area, UNUSED_BITS, |process| process != 0 && kernel.processes[process].is_none());
    write_bits(&mut area, FULL_BITS, |process| kernel.hand_of(process).is_some());
    let free = kernel.free_buffers();
    write_bits(&mut area, FREE_BITS, |buffer| free.contains(&buffer));

    write_messages(&mut area, kernel);
    for (number, semaphore) in kernel.semaphores.iter().enumerate() {
        write_two(&mut area, COUNT + 2 * number, semaphore.count as usize);
    }
    area[BIRTH_COUNT..SLICE].copy_from_slice(&kernel.births);
    write_settings(&mut area, kernel);
    area
}

/// The sound state whose image an area is, with zeros for the bytes of its messages; None if it is no such image.
///
/// The state is read from some of the fields. As a sound state has exactly one image, the area is its image only if
/// the state read is sound and its image is this very area. That also decides all fields that were not read.
pub fn decide(area: &[u8]) -> Option<Kernel> {
    let area: &[u8; IMAGE_BYTES] = area.try_into().ok()?;
    let kernel = read(area)?;
    (is_sound(&kernel) && image(&kernel) == *area).then_some(kernel)
}

/// Gives the messages of a state their bytes from a store of 16,384 bytes.
pub fn take_bytes(kernel: &mut Kernel, store: &[u8]) {
    for message in kernel.held_mut() {
        for (buffer, part) in message.buffers.iter().zip(message.bytes.chunks_mut(BUFFER_BYTES)) {
            let start = BUFFER_BYTES * buffer;
            part.copy_from_slice(&store[start..start + part.len()]);
        }
    }
}

/// Puts the messages of a state where they lie in a store of 16,384 bytes; the other bytes stay.
pub fn lay_bytes(kernel: &Kernel, store: &mut [u8]) {
    for (start, part) in kernel.held().flat_map(Message::parts) {
        store[start..start + part.len()].copy_from_slice(part);
    }
}

fn write_rings(area: &mut [u8; IMAGE_BYTES], next: usize, before: usize, queues: Vec<Vec<usize>>) {
    let nodes = FIRST_HEAD + queues.len();
    for node in 0..nodes {
        area[next + node] = node as u8;
        area[before + node] = node as u8;
    }
    for (number, members) in queues.into_iter().enumerate() {
        let head = FIRST_HEAD + number;
        let mut last = head;
        for node in members.into_iter().chain([head]) {
            area[next + last] = node as u8;
            area[before + node] = last as u8;
            last = node;
        }
    }
}

/// Each message has its length at its first buffer, and each of its buffers leads to the next one. The last leads to itself, and
/// so does a free one.
fn write_messages(area: &mut [u8; IMAGE_BYTES], kernel: &Kernel) {
    for buffer in 0..BUFFERS {
        area[CHAIN + buffer] = buffer as u8;
    }
    for message in kernel.held() {
        write_two(area, LENGTH + 2 * message.first(), message.bytes.len());
        for (buffer, next) in message.buffers.iter().zip(&message.buffers[1..]) {
            area[CHAIN + buffer] = *next as u8;
        }
    }
}

fn write_settings(area: &mut [u8; IMAGE_BYTES], kernel: &Kernel) {
    area[SLICE] = kernel.slice as u8;
    for (number, mailbox) in kernel.mailboxes.iter().enumerate() {
        area[CAPACITY + number] = mailbox.capacity as u8;
        area[MODE + number] = mailbox.mode as u8;
    }
}

fn write_bits(area: &mut [u8; IMAGE_BYTES], field: usize, is_on: impl Fn(usize) -> bool) {
    for bit in (0..32).filter(|&bit| is_on(bit)) {
        area[field + bit / 8] |= 1 << (bit % 8);
    }
}

fn write_two(area: &mut [u8; IMAGE_BYTES], place: usize, number: usize) {
    area[place] = (number % 256) as u8;
    area[place + 1] = (number / 256) as u8;
}

/// A kernel as the fields say, not yet known to be sound; None if no kernel can be read at all.
fn read(area: &[u8; IMAGE_BYTES]) -> Option<Kernel> {
    let bit = |field: usize, number: usize| area[field + number / 8] >> (number % 8) & 1 == 1;
    let two = |place: usize| usize::from(area[place]) + 256 * usize::from(area[place + 1]);
    let message = |first: usize| Some(Message { buffers: chain(area, first)?, bytes: vec![0; two(LENGTH + 2 * first)] });

    let mut kernel = Kernel { slice: u32::from(area[SLICE]), ..Kernel::fresh() };
    kernel.running = usize::from(area[RUNNING]);
    kernel.births.copy_from_slice(&area[BIRTH_COUNT..SLICE]);
    for number in (1..PROCESSES).filter(|&number| !bit(UNUSED_BITS, number)) {
        let hand = if bit(FULL_BITS, number) { Some(message(usize::from(area[HAND + number]))?) } else { None };
        let class = usize::from(area[CLASS + number]);
        let ticks = u32::from(area[TICKS + number]);
        kernel.processes[number] = Some(Process { class, ticks, hand });
    }
    for class in 0..CLASSES {
        kernel.ready[class] = ring(area, PROCESS_NEXT, class)?;
    }
    for number in 0..MAILBOXES {
        let first_buffers = ring(area, MESSAGE_NEXT, number)?;
        kernel.mailboxes[number].messages = first_buffers.into_iter().map(message).collect::<Option<_>>()?;
        kernel.mailboxes[number].waiters = ring(area, PROCESS_NEXT, CLASSES + number)?;
        kernel.mailboxes[number].capacity = usize::from(area[CAPACITY + number]);
        kernel.mailboxes[number].mode = u32::from(area[MODE + number]);
    }
    for number in 0..SEMAPHORES {
        kernel.semaphores[number].count = two(COUNT + 2 * number) as u32;
        kernel.semaphores[number].waiters = ring(area, PROCESS_NEXT, CLASSES + MAILBOXES + number)?;
    }
    Some(kernel)
}

/// Who stands in a queue, by the table of next nodes; None if it doesn't lead back to the head over members alone.
fn ring(area: &[u8; IMAGE_BYTES], next: usize, queue: usize) -> Option<VecDeque<usize>> {
    let head = FIRST_HEAD + queue;
    let mut members = VecDeque::new();
    let mut node = usize::from(area[next + head]);
    while node != head {
        if node >= FIRST_HEAD || members.contains(&node) {
            return None;
        }
        members.push_back(node);
        node = usize::from(area[next + node]);
    }
    Some(members)
}

/// The buffers of a message by its first one; None if they don't lead to one that leads to itself.
fn chain(area: &[u8; IMAGE_BYTES], first: usize) -> Option<Vec<usize>> {
    let mut buffers = vec![];
    let mut buffer = first;
    while buffer < BUFFERS && !buffers.contains(&buffer) {
        buffers.push(buffer);
        let next = usize::from(area[CHAIN + buffer]);
        if next == buffer {
            return Some(buffers);
        }
        buffer = next;
    }
    None
}
