//! Which states are sound: "Where everything stands" of document 01, sentence by sentence, with the slice, the birth counts,
//! the sizes of mailboxes and the messages over several buffers of document 02.

use crate::kernel::*;

/// Whether a kernel value, built from anything whatever, is a sound state.
/// What the type cannot say, such as a class at process 0, isn't asked here.
pub fn is_sound(kernel: &Kernel) -> bool {
    places_are_right(kernel)
        && the_right_one_runs(kernel)
        && numbers_are_right(kernel)
        && buffers_are_right(kernel)
        && queues_are_right(kernel)
        && sizes_are_right(kernel)
        && the_name_of_0_is_right(kernel)
}

/// Each process 1 to 31 is in exactly one place: unused, running, ready in the queue of its own class, waiting at one
/// mailbox, or waiting at one semaphore. Process 0 is never on a queue and has no block. Exactly one process runs.
fn places_are_right(kernel: &Kernel) -> bool {
    let queues = || kernel.ready.iter().chain(waiters_at_mailboxes(kernel)).chain(waiters_at_semaphores(kernel));
    let times_queued = |process: usize| queues().flatten().filter(|&&queued| queued == process).count();
    let places = |process: usize| {
        usize::from(kernel.processes[process].is_none()) + usize::from(kernel.running == process) + times_queued(process)
    };
    let in_own_class = |class: usize| kernel.ready[class].iter().all(|&ready| class_of(kernel, ready) == Some(class));
    kernel.running < PROCESSES
        && queues().flatten().all(|&queued| queued < PROCESSES)
        && (1..PROCESSES).all(|process| places(process) == 1)
        && times_queued(0) == 0
        && kernel.processes[0].is_none()
        && (0..CLASSES).all(in_own_class)
}

/// If a process other than 0 runs, no queue of a higher class has anyone. If 0 runs, all five queues are empty.
fn the_right_one_runs(kernel: &Kernel) -> bool {
    match class_of(kernel, kernel.running) {
        Some(running_class) => (0..CLASSES).all(|class| class <= running_class || kernel.ready[class].is_empty()),
        None => kernel.ready.iter().all(|queue| queue.is_empty()),
    }
}

/// The slice is 1 to 255. Classes are 0 to 4. Ticks left are 1 to the slice for the running and the ready, the slice for a
/// waiter. Counts are 0 to 65,535.
fn numbers_are_right(kernel: &Kernel) -> bool {
    let is_waiter = |number: usize| waiters_at_mailboxes(kernel).chain(waiters_at_semaphores(kernel)).any(|queue| queue.contains(&number));
    let block_is_right = |number: usize| match &kernel.processes[number] {
        None => true,
        Some(process) if is_waiter(number) => process.class < CLASSES && process.ticks == kernel.slice,
        Some(process) => process.class < CLASSES && (1..=kernel.slice).contains(&process.ticks),
    };
    (1..=LONGEST_SLICE).contains(&kernel.slice)
        && (1..PROCESSES).all(block_is_right)
        && kernel.semaphores.iter().all(|semaphore| semaphore.count <= COUNT_LIMIT)
}

/// Each buffer is free or belongs to one message, which is queued in one mailbox or in the hand of one process; none twice.
/// Mailbox waiters have empty hands. A message has 0 to 4,096 bytes, and as many buffers as it needs.
fn buffers_are_right(kernel: &Kernel) -> bool {
    let times_held = |buffer: usize| kernel.held().flat_map(|message| &message.buffers).filter(|&&held| held == buffer).count();
    let message_is_right = |message: &Message| {
        let length = message.bytes.len();
        length <= LONGEST_MESSAGE && message.buffers.len() == buffers_needed(length) && message.buffers.iter().all(|&buffer| buffer < BUFFERS)
    };
    kernel.held().all(message_is_right)
        && (0..BUFFERS).all(|buffer| times_held(buffer) <= 1)
        && waiters_at_mailboxes(kernel).flatten().all(|&waiter| kernel.hand_of(waiter).is_none())
}

/// No more messages are queued in a mailbox than its capacity, and none where a process waits. A semaphore where a process
/// waits counts 0.
fn queues_are_right(kernel: &Kernel) -> bool {
    let mailbox_is_right = |mailbox: &Mailbox| {
        mailbox.messages.len() <= mailbox.capacity && (mailbox.messages.is_empty() || mailbox.waiters.is_empty())
    };
    kernel.mailboxes.iter().all(mailbox_is_right)
        && kernel.semaphores.iter().all(|semaphore| semaphore.count == 0 || semaphore.waiters.is_empty())
}

/// Each capacity is 1 to 32, and each mode 0 or 1.
fn sizes_are_right(kernel: &Kernel) -> bool {
    let size_is_right = |mailbox: &Mailbox| (1..=LARGEST_CAPACITY).contains(&mailbox.capacity) && [REFUSES, DROPS].contains(&mailbox.mode);
    kernel.mailboxes.iter().all(size_is_right)
}

/// Process 0's name is 0. The birth counts of all others may be anything.
fn the_name_of_0_is_right(kernel: &Kernel) -> bool {
    kernel.name(0) == 0
}

fn class_of(kernel: &Kernel, process: usize) -> Option<usize> {
    Some(kernel.processes[process].as_ref()?.class)
}

fn waiters_at_mailboxes(kernel: &Kernel) -> impl Iterator<Item = &std::collections::VecDeque<usize>> {
    kernel.mailboxes.iter().map(|mailbox| &mailbox.waiters)
}

fn waiters_at_semaphores(kernel: &Kernel) -> impl Iterator<Item = &std::collections::VecDeque<usize>> {
    kernel.semaphores.iter().map(|semaphore| &semaphore.waiters)
}
