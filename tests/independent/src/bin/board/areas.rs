//! Areas that may or may not hold a sound state.

use independent::image::{image, BIRTH_COUNT, CAPACITY, CHAIN, IMAGE_BYTES, LENGTH, MODE, SLICE};
use independent::kernel::*;
use independent::lengths::{edges, MOST_BUFFERS};
use independent::random::Random;

/// How many values are tried in the place of a byte; its own is left out.
const CHANGES_A_BYTE: usize = 12;

/// Values to put in the place of a byte.
fn other_values(byte: u8, random: &mut Random) -> Vec<u8> {
    let mut values = vec![byte.wrapping_add(1), byte.wrapping_sub(1), 0, 255, byte ^ 1 << random.below(8), byte ^ 0x80, 3, 36];
    while values.len() < CHANGES_A_BYTE {
        values.push(random.below(80) as u8);
    }
    values.retain(|value| *value != byte);
    values
}

/// The image with every byte changed in turn, several times each.
pub fn every_byte_changed(sound: &[u8], random: &mut Random) -> Vec<Vec<u8>> {
    let mut areas = vec![];
    for at in 0..sound.len() {
        for value in other_values(sound[at], random) {
            let mut area = sound.to_vec();
            area[at] = value;
            areas.push(area);
        }
    }
    areas
}

/// The image with each of its bits flipped in turn, bit by bit and byte by byte.
pub fn every_bit_flipped(sound: &[u8]) -> Vec<Vec<u8>> {
    let flipped = |bit: usize| {
        let mut area = sound.to_vec();
        area[bit / 8] ^= 1 << (bit % 8);
        area
    };
    (0..8 * sound.len()).map(flipped).collect()
}

pub fn random_bytes(random: &mut Random) -> Vec<u8> {
    random.bytes(IMAGE_BYTES)
}

/// A sound image with several bytes changed, exchanged, or taken from another sound image.
pub fn damaged(images: &[Vec<u8>], random: &mut Random) -> Vec<u8> {
    let mut area = images[random.below(images.len())].clone();
    for _ in 0..random.between(1, 4) {
        let (at, other) = (random.below(area.len()), random.below(area.len()));
        match random.below(12) {
            0 => area[at] = random.next() as u8,
            1 => area[at] = random.below(70) as u8,
            2 => area[at] ^= 1 << random.below(8),
            3 => area.swap(at, other),
            4 => area[SLICE] = random.below(8) as u8,
            5 => area[BIRTH_COUNT + random.below(3)] = random.next() as u8,
            6 => area[CAPACITY + random.below(MAILBOXES)] = random.below(36) as u8,
            7 => area[MODE + random.below(MAILBOXES)] = random.below(4) as u8,
            8 => area[CHAIN + random.below(BUFFERS)] = random.below(BUFFERS + 1) as u8,
            9 => area.swap(CHAIN + random.below(BUFFERS), CHAIN + random.below(BUFFERS)),
            10 => area[LENGTH + 1 + 2 * random.below(BUFFERS)] = random.below(18) as u8,
            _ => {
                let from = &images[random.below(images.len())];
                let end = (at + random.between(1, 70)).min(area.len());
                area[at..end].copy_from_slice(&from[at..end]);
            }
        }
    }
    area
}

/// A state with a few things out of place, all of its fields in step with each other, as an image. A decision that looks
/// at bytes one by one would take it.
pub fn out_of_place(sound: &Kernel, random: &mut Random) -> Vec<u8> {
    let mut kernel = sound.clone();
    for _ in 0..random.between(1, 2) {
        displace(&mut kernel, random);
    }
    let mut area = image(&kernel).to_vec();
    if random.one_in(4) {
        splice(&mut area, PROCESS_LINKS, random);
    }
    if random.one_in(4) {
        splice(&mut area, MESSAGE_LINKS, random);
    }
    area
}

/// Where the two tables of a kind of rings begin, and how many nodes they have.
type Links = (usize, usize, usize);
const PROCESS_LINKS: Links = (65, 134, 69);
const MESSAGE_LINKS: Links = (211, 259, 48);

/// Exchanges what follows two nodes: one ring becomes two, perhaps one without a head, or two become one with two heads.
fn splice(area: &mut [u8], (next, before, nodes): Links, random: &mut Random) {
    let (one, other) = (random.below(nodes), random.below(nodes));
    area.swap(next + one, next + other);
    for node in [one, other] {
        area[before + usize::from(area[next + node])] = node as u8;
    }
}

/// Moves one thing to where it may not be, or may.
fn displace(kernel: &mut Kernel, random: &mut Random) {
    let number = random.between(1, PROCESSES - 1);
    let (mailbox, other) = (random.below(MAILBOXES), random.below(MAILBOXES));
    let class = random.below(CLASSES);
    let queued = kernel.mailboxes[other].messages.pop_back();
    match random.below(26) {
        0 => kernel.ready[class].push_back(kernel.running),
        1 => kernel.mailboxes[mailbox].waiters.push_back(kernel.running),
        2 => kernel.semaphores[mailbox].waiters.push_front(kernel.running),
        3 => kernel.running = number,
        4 => {
            let ran = std::mem::take(&mut kernel.running);
            kernel.ready[class].push_back(ran);
        }
        5 => kernel.processes[number] = None,
        6 => kernel.processes[number] = Some(Process { class, ticks: kernel.slice, hand: queued.clone() }),
        7 => crowd(kernel, mailbox),
        8 => kernel.semaphores[mailbox].count = 1,
        9 => {
            let next = kernel.ready[class].pop_front();
            kernel.mailboxes[mailbox].waiters.extend(next);
        }
        10 => {
            let next = kernel.ready[class].pop_front();
            kernel.semaphores[mailbox].waiters.extend(next);
        }
        11 => {
            let next = kernel.ready[class].pop_front();
            kernel.ready[random.below(CLASSES)].extend(next);
        }
        12 => kernel.mailboxes[mailbox].messages.extend(queued.clone()),
        13 => kernel.slice = random.below(8) as u32,
        14 => kernel.births[0] = random.below(3) as u8,
        15 => kernel.births[number] = random.next() as u8,
        16 => kernel.mailboxes[mailbox].capacity = random.below(LARGEST_CAPACITY + 4),
        17 => kernel.mailboxes[mailbox].mode = random.below(4) as u32,
        18 => kernel.mailboxes[mailbox].capacity = (kernel.mailboxes[mailbox].messages.len() + random.below(2)).saturating_sub(1),
        19..=22 => disarrange(kernel, random),
        _ => {
            let Some(process) = &mut kernel.processes[number] else { return };
            match random.below(4) {
                0 => process.ticks = random.below(kernel.slice as usize + 2) as u32,
                1 => process.class = random.below(CLASSES + 1),
                2 => process.hand = queued.clone(),
                _ => process.hand = Some(any_message(random)),
            }
        }
    }
    // Now and then the message is free now, or in two places.
    if random.one_in(2) {
        kernel.mailboxes[other].messages.extend(queued);
    }
}

/// A message of a length at which another buffer is needed, mostly with as many as it needs, some of them perhaps twice.
fn any_message(random: &mut Random) -> Message {
    let length = random.pick(&edges()).unwrap_or(0);
    let needed = buffers_needed(length);
    let buffers = if random.one_in(4) { random.between(1, MOST_BUFFERS + 1) } else { needed };
    let first = random.below(BUFFERS);
    let step = random.pick(&[1, 1, 1, 5, 11, 31]).unwrap_or(1);
    Message { buffers: (0..buffers).map(|number| (first + step * number) % BUFFERS).collect(), bytes: vec![0; length] }
}

/// Changes the buffers or the length of a message, one of several buffers if there is any.
fn disarrange(kernel: &mut Kernel, random: &mut Random) {
    let pages = kernel.held().filter(|message| message.buffers.len() > 1).count();
    let (least, count) = if pages > 0 { (2, pages) } else { (1, kernel.held().count()) };
    let chosen = random.below(count.max(1));
    let Some(message) = kernel.held_mut().filter(|message| message.buffers.len() >= least).nth(chosen) else { return };
    let (one, other) = (random.below(message.buffers.len()), random.below(message.buffers.len()));
    match random.below(6) {
        0 => message.buffers.swap(one, other),
        1 => message.buffers[one] = random.below(BUFFERS),
        2 => message.buffers.insert(one, random.below(BUFFERS)),
        3 if message.buffers.len() > 1 => drop(message.buffers.remove(one)),
        4 => {
            message.buffers.truncate(one + 1);
            message.bytes.truncate(BUFFER_BYTES * (one + 1));
        }
        _ => message.bytes.resize(random.pick(&edges()).unwrap_or(0), 0),
    }
}

/// All messages of all mailboxes, up to one too many, into one.
fn crowd(kernel: &mut Kernel, mailbox: usize) {
    let all: Vec<Message> = kernel.mailboxes.iter_mut().flat_map(|from| from.messages.drain(..)).collect();
    let one_too_many = kernel.mailboxes[mailbox].capacity + 1;
    kernel.mailboxes[mailbox].messages.extend(all.into_iter().take(one_too_many));
}

/// Capacities and modes to put in the place of another: all that may be, those beside them, and some that look alike in fewer
/// bits.
fn sizes() -> (Vec<u8>, Vec<u8>) {
    let capacities = (0..=40).chain([63, 64, 65, 127, 128, 129, 136, 160, 254, 255]);
    (capacities.collect(), vec![0, 1, 2, 3, 4, 32, 127, 128, 129, 254, 255])
}

/// The image of a sound state with another capacity or mode for each mailbox in turn, and whether that is one too: the capacity
/// is 1 to 32 and not less than the mailbox holds, the mode 0 or 1.
pub fn every_size_changed(sound: &Kernel) -> Vec<(Vec<u8>, bool)> {
    let (capacities, modes) = sizes();
    let with = |place: usize, byte: u8| {
        let mut area = image(sound).to_vec();
        area[place] = byte;
        area
    };
    let mut areas = vec![];
    for (number, mailbox) in sound.mailboxes.iter().enumerate() {
        let least = mailbox.messages.len().max(1);
        areas.extend(capacities.iter().map(|&byte| (with(CAPACITY + number, byte), (least..=32).contains(&usize::from(byte)))));
        areas.extend(modes.iter().map(|&byte| (with(MODE + number, byte), byte <= 1)));
    }
    areas
}

/// Mailboxes of 1, 5, 8 and 18, all of them full, so that no buffer is free.
pub fn full_mailboxes() -> Kernel {
    let mut kernel = Kernel::fresh();
    for (mailbox, capacity, mode) in [(0, 1, DROPS), (6, 5, REFUSES), (9, 8, DROPS), (15, 18, REFUSES)] {
        kernel.mailbox(mailbox, capacity, mode);
        for number in 0..capacity {
            kernel.send(mailbox, &[number as u8]);
        }
    }
    kernel
}
