//! Images: of known states by hand, there and back for deep states, and which damaged ones are still sound.

use independent::chains::pages_everywhere;
use independent::image::*;
use independent::kernel::*;
use independent::listing::{AT_MAILBOX, AT_SEMAPHORE, READY, RUNNING};
use independent::random::Random;
use independent::scripts::Script;
use independent::sound::is_sound;

/// States after random scripts, one per seed.
fn deep_states(seeds: std::ops::Range<u64>) -> Vec<Kernel> {
    let state = |seed: u64| {
        let mut script = Script::new(seed, 100 + 37 * seed % 300);
        while script.next_line().is_some() {}
        script.kernel().clone()
    };
    seeds.map(state).collect()
}

#[test]
fn fresh_image() {
    let area = image(&Kernel::fresh());
    let mut expected = vec![0; 65];
    expected.extend(0..69);
    expected.extend(0..69);
    expected.extend([0, 0, 0, 0]);
    expected.extend([0xfe, 0xff, 0xff, 0xff]);
    expected.extend(0..48);
    expected.extend(0..48);
    expected.extend([0; 32]);
    expected.extend([0, 0, 0, 0]);
    expected.extend([0; 64]);
    expected.extend([0xff, 0xff, 0xff, 0xff]);
    expected.extend(0..32);
    expected.extend([0; 32]);
    expected.extend([0; 32]);
    expected.push(5);
    expected.extend([8; 16]);
    expected.extend([0; 16]);
    assert_eq!(area[..], expected[..]);
    assert_eq!(decide(&area), Some(Kernel::fresh()));
    for slice in [1, 3, 4, 200, 255] {
        expected[507] = slice;
        let kernel = Kernel::fresh_slice(slice.into());
        assert_eq!(kernel.as_ref().map(|kernel| image(kernel).to_vec()), Some(expected.clone()));
        assert_eq!(decide(&expected), kernel);
    }
    expected[507] = 0;
    assert_eq!(decide(&expected), None);
}

/// Of class 2, processes 4 and then 7 are ready, and nobody else is; 1 runs. A slice has 3 ticks.
fn example() -> Kernel {
    let mut kernel = Kernel::fresh_slice(3).unwrap();
    (1..=7).for_each(|_| assert_eq!(kernel.create(2).code, 0));
    [2, 3, 5, 6].into_iter().for_each(|number| assert_eq!(kernel.stop(256 + number).code, 0));
    kernel
}

#[test]
fn example_of_the_page() {
    let area = image(&example());
    assert_eq!([area[65 + 34], area[65 + 4], area[65 + 7]], [4, 7, 34]);
    assert_eq!([area[134 + 34], area[134 + 7], area[134 + 4]], [7, 4, 34]);
    assert_eq!(area[203..207], [4, 0, 0, 0]);
    assert_eq!(area[207..211], [0b0110_1100, 0xff, 0xff, 0xff]);
    assert_eq!([area[0], area[1 + 1], area[1 + 4], area[1 + 7], area[1 + 2]], [1, 2, 2, 2, 0]);
    assert_eq!([area[33 + 1], area[33 + 4], area[33 + 7], area[33 + 2]], [3, 3, 3, 0]);
    assert_eq!(area[475..507], [&[0][..], &[1; 7], &[0; 24]].concat());
    assert_eq!(area[507], 3);
    assert_eq!(area[508..], [[8; 16], [0; 16]].concat());
    assert_eq!(decide(&area), Some(example()));
}

#[test]
fn messages_and_counts_by_hand() {
    let mut kernel = Kernel::fresh();
    kernel.send(3, &[1; 258]);
    kernel.send(3, &[2; 2]);
    kernel.send(3, &[3; 512]);
    kernel.create(1);
    kernel.receive(3); // buffer 0 is in the hand of 1, buffers 1 and 2 are queued in mailbox 3
    (0..513).for_each(|_| assert_eq!(kernel.signal(15).code, 0));
    let area = image(&kernel);
    assert_eq!([area[211 + 35], area[211 + 1], area[211 + 2], area[211]], [1, 2, 35, 0]);
    assert_eq!([area[259 + 35], area[259 + 2], area[259 + 1], area[259]], [2, 1, 35, 0]);
    assert_eq!(area[307..339], [0; 32]);
    assert_eq!(area[339..343], [2, 0, 0, 0]);
    assert_eq!(area[343..351], [2, 1, 2, 0, 0, 2, 0, 0]);
    assert_eq!(area[407..411], [0b1111_1000, 0xff, 0xff, 0xff]);
    assert_eq!(area[411..443], (0..32).collect::<Vec<u8>>());
    assert_eq!(area[471..475], [0, 0, 1, 2]);
}

/// A page in buffers 1, 3, 4 and 5 is in the hand of 1. A message in buffer 2 and a page in 6 and 7 are queued in mailbox 3, and one
/// in buffer 0 in mailbox 9.
#[test]
fn pages_by_hand() {
    let mut kernel = Kernel::fresh();
    kernel.create(1);
    kernel.send(9, &[1]);
    kernel.send(8, &[1]);
    kernel.send(3, &[]);
    kernel.receive(8); // buffer 1
    kernel.release();
    kernel.send(8, &[2; 2_048]);
    kernel.receive(8);
    kernel.send(3, &[3; 513]);
    let area = image(&kernel);
    assert_eq!([area[211 + 35], area[211 + 2], area[211 + 6], area[211 + 7], area[211 + 1]], [2, 6, 35, 7, 1]);
    assert_eq!([area[259 + 35], area[259 + 6], area[259 + 2], area[259 + 7], area[259 + 3]], [6, 2, 35, 7, 3]);
    assert_eq!(area[307..311], [0, 1, 0, 0]);
    assert_eq!(area[339..343], [2, 0, 0, 0]);
    assert_eq!(area[343..361], [1, 0, 0, 8, 0, 0, 0, 0, 0, 0, 0, 0, 1, 2, 0, 0, 0, 0]);
    assert_eq!(area[407..411], [0, 0xff, 0xff, 0xff]);
    assert_eq!(area[411..421], [0, 3, 2, 4, 5, 5, 7, 7, 8, 9]);
    assert_eq!(decide(&area).map(|kernel| image(&kernel)), Some(area));
}

/// Where each byte of a page lies in the store.
#[test]
fn bytes_of_pages_by_hand() {
    let mut kernel = Kernel::fresh();
    kernel.create(1);
    kernel.processes[1].as_mut().unwrap().hand = Some(Message { buffers: vec![31, 4, 9], bytes: vec![0; 1_030] });
    assert!(is_sound(&kernel));
    let mut store = vec![0; STORE_BYTES];
    for (place, byte) in [(31 * 512, 1), (31 * 512 + 511, 2), (4 * 512, 3), (4 * 512 + 511, 4), (9 * 512, 5), (9 * 512 + 5, 6), (9 * 512 + 6, 7)] {
        store[place] = byte;
    }
    take_bytes(&mut kernel, &store);
    let bytes = kernel.hand_of(1).unwrap().bytes.clone();
    assert_eq!([0, 511, 512, 1_023, 1_024, 1_029].map(|i| bytes[i]), [1, 2, 3, 4, 5, 6]);
    assert_eq!(bytes.iter().filter(|byte| **byte != 0).count(), 6);
    let mut laid = vec![9; STORE_BYTES];
    lay_bytes(&kernel, &mut laid);
    assert!((0..STORE_BYTES).all(|place| match place / 512 {
        31 | 4 => laid[place] == store[place],
        9 if place % 512 < 6 => laid[place] == store[place],
        _ => laid[place] == 9,
    }));
}

/// Births survive stop and end; the state of a number that was born and is unused again has no other trace of that.
#[test]
fn births_by_hand() {
    let mut kernel = Kernel::fresh();
    (0..31).for_each(|_| assert_eq!(kernel.create(3).code, 0));
    assert_eq!(image(&kernel)[475..507], [&[0][..], &[1; 31]].concat());
    (257..=287).for_each(|name| assert_eq!(kernel.stop(name).code, 0));
    let mut expected = image(&Kernel::fresh());
    expected[476..507].fill(1);
    assert_eq!(image(&kernel), expected);
    assert_eq!(decide(&expected), Some(kernel.clone()));
    for _ in 2..=255 {
        kernel.create(0);
        kernel.end();
    }
    expected[476] = 255;
    assert_eq!(image(&kernel), expected);
    assert_eq!(kernel.create(0).number, 1);
    kernel.end();
    expected[476] = 0;
    assert_eq!(image(&kernel), expected);
    expected[475] = 1;
    assert_eq!(decide(&expected), None);
}

/// Sizes stand alone: the rest of the image is the fresh one.
#[test]
fn sizes_by_hand() {
    let mut kernel = Kernel::fresh_slice(3).unwrap();
    let mut expected = image(&kernel);
    for (mailbox, capacity, mode) in [(0, 1, 1), (1, 32, 0), (9, 32, 1), (14, 7, 0), (15, 1, 0)] {
        assert_eq!(kernel.mailbox(mailbox, capacity.into(), mode.into()).code, 0);
        expected[508 + mailbox as usize] = capacity;
        expected[524 + mailbox as usize] = mode;
    }
    assert_eq!(image(&kernel), expected);
    assert_eq!(decide(&expected), Some(kernel.clone()));
    // Set again, also to what it is.
    assert_eq!(kernel.mailbox(9, 32, 1).code, 0);
    assert_eq!(image(&kernel), expected);
    assert_eq!(kernel.mailbox(9, 8, 0).code, 0);
    (expected[517], expected[533]) = (8, 0);
    assert_eq!(image(&kernel), expected);
}

#[test]
fn there_and_back() {
    for seed in 0..40 {
        let mut script = Script::new(seed, 600);
        let mut store = Random::new(seed).bytes(STORE_BYTES);
        for line in 0.. {
            // Of the very many lines that drive a count to its limit, a few will do.
            if line % 97 == 0 || (line < 2_000 && line % 3 == 0) {
                lay_bytes(script.kernel(), &mut store);
                assert!(is_sound(script.kernel()));
                let mut back = decide(&image(script.kernel())).expect("a sound state's image");
                take_bytes(&mut back, &store);
                assert!(back == *script.kernel(), "seed {seed}, line {line}");
            }
            if script.next_line().is_none() {
                break;
            }
        }
    }
}

#[test]
fn other_lengths() {
    let area = image(&Kernel::fresh());
    assert_eq!(decide(&[]), None);
    assert_eq!(decide(&area[..539]), None);
    assert_eq!(decide(&area[..538]), None);
    assert_eq!(decide(&area[..508]), None);
    // Without chains, and without birth counts.
    assert_eq!(decide(&[&area[..411], &area[443..]].concat()), None);
    assert_eq!(decide(&[&area[..475], &area[507..]].concat()), None);
    assert_eq!(decide(&[&area[..], &[0]].concat()), None);
    assert_eq!(decide(&[0; 540]), None);
    assert_eq!(decide(&[255; 540]), None);
}

/// Whether an area stays an image of a sound state when one byte of it changes, by the meaning of that byte alone.
/// Links, bits and hands are written twice over, so that one byte of them can't change alone; nor can a link between the buffers
/// of a message, whose number its length says. There is one exception: two bits of full hands in one byte, which move a message
/// from one hand to another, where its first buffer is 0, which stands there already.
fn stays_sound(kernel: &Kernel, area: &[u8], place: usize, byte: u8) -> bool {
    let highest_ready = (0..CLASSES).rev().find(|&class| !kernel.ready[class].is_empty()).unwrap_or(0);
    let mut changed = area.to_vec();
    changed[place] = byte;
    let two = |field: usize, entry: usize| u32::from(changed[field + 2 * entry]) + 256 * u32::from(changed[field + 2 * entry + 1]);
    match place {
        1..=32 => match kernel.row(place - 1).place {
            RUNNING if place - 1 != 0 => usize::from(byte) >= highest_ready && byte <= 4,
            AT_MAILBOX | AT_SEMAPHORE => byte <= 4,
            _ => false,
        },
        33..=64 => match kernel.row(place - 33).place {
            RUNNING if place - 33 != 0 => (1..=kernel.slice).contains(&byte.into()),
            READY => (1..=kernel.slice).contains(&byte.into()),
            _ => false,
        },
        339..=342 => {
            let flipped: Vec<usize> = (0..8).filter(|bit| (area[place] ^ byte) >> bit & 1 == 1).map(|bit| 8 * (place - 339) + bit).collect();
            let gives = |process: usize| kernel.hand_of(process).is_some_and(|message| message.first() == 0);
            let takes = |process: usize| {
                process != 0 && kernel.hand_of(process).is_none() && [RUNNING, READY, AT_SEMAPHORE].contains(&kernel.row(process).place)
            };
            matches!(flipped[..], [one, other] if gives(one) && takes(other) || gives(other) && takes(one))
        }
        343..=406 => {
            let first = (place - 343) / 2;
            let length = two(343, first) as usize;
            let takes = |buffers: usize| length <= 512 * buffers && (buffers == 1 || length > 512 * (buffers - 1));
            kernel.held().any(|message| message.first() == first && takes(message.buffers.len()))
        }
        443..=474 => kernel.semaphores[(place - 443) / 2].waiters.is_empty(),
        476..=506 => true,
        507 => {
            let fits = |process: usize| match kernel.row(process) {
                row if [AT_MAILBOX, AT_SEMAPHORE].contains(&row.place) => false,
                row => row.ticks <= byte.into(),
            };
            byte != 0 && (0..PROCESSES).all(fits)
        }
        508..=523 => (1..=32).contains(&byte) && kernel.mailboxes[place - 508].messages.len() <= byte.into(),
        524..=539 => byte <= 1,
        _ => false,
    }
}

#[test]
fn every_change_of_one_byte() {
    let mut still_sound = 0;
    for kernel in deep_states(2..5).into_iter().chain([Kernel::fresh(), example(), pages_everywhere()]) {
        let area = image(&kernel);
        for place in 0..IMAGE_BYTES {
            for byte in (0..=255).filter(|&byte| byte != area[place]) {
                let mut changed = area;
                changed[place] = byte;
                let sound = decide(&changed).is_some();
                assert_eq!(sound, stays_sound(&kernel, &area, place, byte), "byte {place} from {} to {byte}", area[place]);
                still_sound += u32::from(sound);
            }
        }
    }
    assert!(still_sound > 10_000);
}

/// A state with someone in every kind of place, and a slice of 3 ticks. 1 waits at mailbox 9, 2 at semaphore 15 with buffer 0 in hand, 3 behind 1,
/// 4 runs with buffer 1 in hand in class 2, 5 and 6 are ready in class 1, 7 in class 0; buffers 2 and 3 are in mailbox 0.
fn busy() -> Kernel {
    let mut kernel = Kernel::fresh_slice(3).unwrap();
    kernel.create(4);
    kernel.receive(9);
    kernel.create(3);
    kernel.send(2, b"hand");
    kernel.receive(2);
    kernel.wait(15);
    kernel.create(4);
    kernel.receive(9);
    kernel.create(2);
    [1, 1, 0].into_iter().for_each(|class| assert_eq!(kernel.create(class).running, 4));
    (0..3).for_each(|_| assert_eq!(kernel.send(0, b"").code, 0));
    kernel.receive(0);
    kernel.tick();
    kernel
}

fn damaged(damage: impl Fn(&mut Kernel)) -> bool {
    let mut kernel = busy();
    damage(&mut kernel);
    let sound = is_sound(&kernel);
    let decided = decide(&image(&kernel));
    // A damaged state may have the image of a sound one, but never of itself.
    assert!(decided.is_none() || sound);
    sound
}

fn block(kernel: &mut Kernel, process: usize) -> &mut Process {
    kernel.processes[process].as_mut().unwrap()
}

#[test]
fn every_line_of_where_everything_stands() {
    assert!(damaged(|_| ()));
    // In one place, and in the queue of its own class.
    assert!(!damaged(|kernel| kernel.processes[5] = None));
    assert!(!damaged(|kernel| kernel.ready[1].truncate(1)));
    assert!(!damaged(|kernel| kernel.ready[1].push_back(4)));
    assert!(!damaged(|kernel| kernel.ready[1].push_back(8)));
    assert!(!damaged(|kernel| kernel.ready[0].push_back(0)));
    assert!(!damaged(|kernel| kernel.semaphores[3].waiters.push_back(7)));
    assert!(!damaged(|kernel| kernel.mailboxes[3].waiters.push_back(1)));
    assert!(!damaged(|kernel| kernel.running = 0));
    assert!(!damaged(|kernel| kernel.running = 5));
    assert!(!damaged(|kernel| kernel.running = 8));
    assert!(!damaged(|kernel| block(kernel, 7).class = 1));
    assert!(damaged(|kernel| kernel.ready[1].rotate_left(1)));
    // The right one runs.
    assert!(damaged(|kernel| block(kernel, 4).class = 1));
    assert!(!damaged(|kernel| block(kernel, 4).class = 0));
    assert!(!damaged(|kernel| {
        kernel.processes[4] = None;
        kernel.running = 0;
    }));
    // Ticks and classes.
    for (process, ticks, sound) in [(4, 1, true), (4, 0, false), (4, 4, false), (5, 1, true), (6, 2, true), (6, 0, false), (7, 4, false)] {
        assert_eq!(damaged(|kernel| block(kernel, process).ticks = ticks), sound);
    }
    for slice in [0, 1, 2, 4, 255, 256] {
        assert!(!damaged(|kernel| kernel.slice = slice));
    }
    // Names.
    for count in [1, 2, 128, 255] {
        assert!(!damaged(|kernel| kernel.births[0] = count));
        assert!((1..32).all(|number| damaged(|kernel| kernel.births[number] = count)));
    }
    assert!(damaged(|kernel| kernel.births = [0; 32]));
    // 1, 2 and 3 wait; 4 has 2 ticks left, 5, 6 and 7 have 3.
    for (slice, sound) in [(2, false), (3, true), (4, true), (255, true), (256, false)] {
        let retuned = |kernel: &mut Kernel| {
            kernel.slice = slice;
            (1..=3).for_each(|waiter| block(kernel, waiter).ticks = slice);
        };
        assert_eq!(damaged(retuned), sound);
    }
    for waiter in 1..=3 {
        assert!(!damaged(|kernel| block(kernel, waiter).ticks = 2));
        assert!(damaged(|kernel| block(kernel, waiter).class = 0));
        assert!(!damaged(|kernel| block(kernel, waiter).class = 5));
    }
    assert!(!damaged(|kernel| block(kernel, 4).class = 5));
    // Buffers.
    let held = |buffer: usize, length: usize| Message { buffers: vec![buffer], bytes: vec![0; length] };
    assert!(damaged(|kernel| block(kernel, 5).hand = Some(held(31, 512))));
    assert!(!damaged(|kernel| block(kernel, 5).hand = Some(held(31, 513))));
    assert!(!damaged(|kernel| block(kernel, 5).hand = Some(held(0, 4))));
    assert!(!damaged(|kernel| block(kernel, 5).hand = Some(held(2, 0))));
    assert!(!damaged(|kernel| block(kernel, 1).hand = Some(held(31, 1))));
    assert!(damaged(|kernel| block(kernel, 2).hand = None));
    assert!(!damaged(|kernel| kernel.mailboxes[1].messages.push_back(held(3, 0))));
    assert!(!damaged(|kernel| kernel.mailboxes[1].messages.push_back(held(1, 0))));
    let page = |buffers: &[usize], length: usize| Message { buffers: buffers.to_vec(), bytes: vec![0; length] };
    for (buffers, length, sound) in [
        (&[30, 31][..], 513, true),
        (&[30, 31], 1_024, true),
        (&[31, 30], 1_024, true),
        (&[30, 31], 512, false),
        (&[30, 31], 0, false),
        (&[30, 31], 1_025, false),
        (&[10, 31, 4], 1_025, true),
        (&[10, 31, 10], 1_025, false),
        (&[10, 31, 2], 1_025, false),
        (&[3, 30], 600, false),
        (&[0, 30], 600, false),
        (&[4, 5, 6, 7, 8, 9, 10, 11], 4_096, true),
        (&[4, 5, 6, 7, 8, 9, 10, 11], 3_585, true),
        (&[4, 5, 6, 7, 8, 9, 10, 11], 3_584, false),
        (&[4, 5, 6, 7, 8, 9, 10, 11], 4_097, false),
        (&[4, 5, 6, 7, 8, 9, 10, 11, 12], 4_097, false),
    ] {
        assert_eq!(damaged(|kernel| block(kernel, 5).hand = Some(page(buffers, length))), sound, "{length} bytes in {buffers:?}");
        assert_eq!(damaged(|kernel| kernel.mailboxes[1].messages.push_back(page(buffers, length))), sound, "{length} bytes in {buffers:?}");
    }
    assert!(!damaged(|kernel| block(kernel, 1).hand = Some(page(&[30, 31], 600))));
    // Mailboxes and semaphores.
    assert!(damaged(|kernel| kernel.mailboxes[1].messages.extend((10..18).map(|buffer| held(buffer, 1)))));
    assert!(!damaged(|kernel| kernel.mailboxes[1].messages.extend((10..19).map(|buffer| held(buffer, 1)))));
    assert!(!damaged(|kernel| kernel.mailboxes[9].messages.push_back(held(10, 1))));
    assert!(!damaged(|kernel| kernel.semaphores[15].count = 1));
    assert!(damaged(|kernel| kernel.semaphores[14].count = 65_535));
}

/// As many messages as the mailbox's own capacity. Mailbox 0 has two, mailbox 9 waiters, and mailbox 4 nothing.
#[test]
fn every_line_of_sizes() {
    let filled = |kernel: &mut Kernel, messages: usize, capacity: usize| {
        kernel.mailboxes[1].messages.extend((10..10 + messages).map(|buffer| Message { buffers: vec![buffer], bytes: vec![0] }));
        kernel.mailboxes[1].capacity = capacity;
    };
    for (messages, capacity, sound) in [(1, 1, true), (2, 1, false), (9, 9, true), (9, 8, false), (22, 22, true), (22, 32, true), (22, 21, false)] {
        assert_eq!(damaged(|kernel| filled(kernel, messages, capacity)), sound, "{messages} of {capacity}");
    }
    for (mailbox, capacity, sound) in [(0, 1, false), (0, 2, true), (9, 1, true), (9, 0, false), (4, 0, false), (4, 32, true), (4, 33, false)] {
        assert_eq!(damaged(|kernel| kernel.mailboxes[mailbox].capacity = capacity), sound, "mailbox {mailbox} of {capacity}");
    }
    for mailbox in [0, 4, 9, 15] {
        assert!((0..=1).all(|mode| damaged(|kernel| kernel.mailboxes[mailbox].mode = mode)));
        assert!([2, 3, 128, 255].iter().all(|&mode| !damaged(|kernel| kernel.mailboxes[mailbox].mode = mode)));
    }
}

/// Changes some bytes of the image of `busy`; whether it is still an image of a sound state.
fn rewritten(changes: &[(usize, u8)]) -> bool {
    let mut area = image(&busy());
    for &(place, byte) in changes {
        area[place] = byte;
    }
    decide(&area).is_some()
}

#[test]
fn bytes_by_hand() {
    let (next, before) = (65, 134);
    assert!(rewritten(&[]));
    // 6 before 5 in class 1, linked rightly and then in one direction alone.
    let swapped = [(next + 33, 6), (next + 6, 5), (next + 5, 33), (before + 33, 5), (before + 5, 6), (before + 6, 33)];
    assert!(rewritten(&swapped));
    assert!(!rewritten(&swapped[..3]));
    assert!(!rewritten(&swapped[3..]));
    // 7 leaves class 0, but is then nowhere; unused with all that belongs to it, it is right.
    let alone = [(next + 32, 32), (next + 7, 7), (before + 32, 32), (before + 7, 7), (203, 0b10)];
    assert!(!rewritten(&alone));
    assert!(rewritten(&[&alone[..], &[(33 + 7, 0), (207, 0x80)]].concat()));
    assert!(!rewritten(&[&alone[..], &[(33 + 7, 0)]].concat()));
    assert!(!rewritten(&[&alone[..], &[(207, 0x80)]].concat()));
    // A ring that doesn't reach its head, that reaches another head, or that has a node out of range.
    assert!(!rewritten(&[(next + 6, 5)]));
    assert!(!rewritten(&[(next + 6, 6)]));
    assert!(!rewritten(&[(next + 6, 34), (before + 34, 6)]));
    assert!(!rewritten(&[(next + 34, 35), (next + 35, 34), (before + 34, 35), (before + 35, 34)]));
    assert!(!rewritten(&[(next + 6, 69)]));
    assert!(!rewritten(&[(next + 6, 255)]));
    // Process 0 and an unused one carry zeros, as does the hand where its bit is off.
    assert!(!rewritten(&[(1, 1)]));
    assert!(!rewritten(&[(33, 3)]));
    assert!(!rewritten(&[(1 + 31, 1)]));
    assert!(!rewritten(&[(33 + 31, 3)]));
    assert!(!rewritten(&[(307 + 5, 31)]));
    assert!(!rewritten(&[(307, 31)]));
    // A hand takes a free buffer with all its bits; the same in the hand of an unused process or of 0.
    let full = |process: u8| [(307 + usize::from(process), 31), (339 + usize::from(process / 8), 0), (410, 0x7f)];
    let bits = |process: u8| (339 + usize::from(process / 8), image(&busy())[339 + usize::from(process / 8)] | 1 << (process % 8));
    for (process, sound) in [(5, true), (7, true), (1, false), (3, false), (0, false), (31, false)] {
        assert_eq!(rewritten(&[&full(process)[..], &[bits(process)]].concat()), sound, "hand of {process}");
    }
    // The slice: none, or another than the waiters 1, 2 and 3 have, or fewer ticks than 5, 6 and 7 have left.
    assert!(!rewritten(&[(507, 0)]));
    assert!(!rewritten(&[(507, 2)]));
    assert!(!rewritten(&[(507, 4)]));
    let waiters = |ticks: u8| [(33 + 1, ticks), (33 + 2, ticks), (33 + 3, ticks)];
    let ready = |ticks: u8| [(33 + 5, ticks), (33 + 6, ticks), (33 + 7, ticks)];
    assert!(rewritten(&[&waiters(4)[..], &[(507, 4)]].concat()));
    assert!(rewritten(&[&waiters(255)[..], &ready(254), &[(507, 255)]].concat()));
    assert!(!rewritten(&[&waiters(2)[..], &[(507, 2)]].concat()));
    assert!(rewritten(&[&waiters(2)[..], &ready(2), &[(507, 2)]].concat()));
    assert!(!rewritten(&[&waiters(0)[..], &ready(0), &[(507, 0)]].concat()));
    // The birth count of 0 is 0; every other one may be anything.
    for count in [1, 127, 128, 255] {
        assert!(!rewritten(&[(475, count)]));
        assert!((476..507).all(|place| rewritten(&[(place, count)])));
    }
    // Bits that disagree with the places.
    assert!(!rewritten(&[(203, 0b1)]));
    assert!(!rewritten(&[(203, 0b111)]));
    assert!(!rewritten(&[(203 + 3, 0x80)]));
    assert!(!rewritten(&[(207, image(&busy())[207] | 1)]));
    assert!(!rewritten(&[(407, image(&busy())[407] | 4)]));
    // Lengths: 4 in the hand of 2; a free buffer has 0.
    assert!(rewritten(&[(343, 0), (344, 2)]));
    assert!(!rewritten(&[(343, 1), (344, 2)]));
    assert!(!rewritten(&[(343 + 62, 1)]));
}

/// Buffers 0 and 1 are in hands, 2 and 3 are in mailbox 0, and the others free.
#[test]
fn bytes_of_chains_by_hand() {
    let chain = 411;
    let bytes_600 = |buffer: usize| [(343 + 2 * buffer, 88), (344 + 2 * buffer, 2)];
    // 600 bytes from buffer 0 on go over to 31, which is not free then, and has no length and no other link.
    let over_31 = [&bytes_600(0)[..], &[(chain, 31), (410, 0x7f)]].concat();
    assert!(rewritten(&over_31));
    assert!(!rewritten(&over_31[..2]));
    assert!(!rewritten(&over_31[..3]));
    assert!(!rewritten(&over_31[2..]));
    assert!(!rewritten(&[(410, 0x7f)]));
    assert!(!rewritten(&[&over_31[..], &[(343 + 62, 1)]].concat()));
    // Longer, back to its first, into another message, and past all buffers.
    for to in [0, 1, 2, 30, 32, 255] {
        assert!(!rewritten(&[&over_31[..], &[(chain + 31, to)]].concat()), "31 leads to {to}");
    }
    assert!(!rewritten(&[&bytes_600(0)[..], &[(chain, 1)]].concat()));
    assert!(!rewritten(&[&bytes_600(0)[..], &[(chain, 3)]].concat()));
    assert!(!rewritten(&[&bytes_600(0)[..], &[(chain, 32)]].concat()));
    // A second one beside it, over the same buffer and over another.
    let both = |to: u8, bits: u8| [&over_31[..], &bytes_600(3), &[(chain + 3, to), (410, bits)]].concat();
    assert!(!rewritten(&both(31, 0x7f)));
    assert!(rewritten(&both(30, 0x3f)));
    // A free buffer leads to itself.
    assert!(!rewritten(&[(chain + 31, 30)]));
    assert!(!rewritten(&[(chain + 31, 0)]));
    assert!(!rewritten(&[(chain + 31, 30), (chain + 30, 31)]));
    // Two that are not free and lead to each other belong to nobody.
    assert!(!rewritten(&[(chain + 31, 30), (chain + 30, 31), (410, 0x3f)]));
}

#[test]
fn bytes_of_sizes_by_hand() {
    // Mailbox 0 has two messages, mailbox 9 waiters, the others nothing.
    for (place, byte, sound) in [(508, 1, false), (508, 2, true), (517, 1, true), (509, 0, false), (523, 32, true), (523, 33, false)] {
        assert_eq!(rewritten(&[(place, byte)]), sound, "{byte} at {place}");
    }
    for mode in 524..540 {
        assert!(rewritten(&[(mode, 1)]));
        assert!(!rewritten(&[(mode, 2)]));
        assert!(!rewritten(&[(mode, 255)]));
    }
}
