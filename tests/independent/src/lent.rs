//! Calls as the board's firmware makes them: the state lies as an image in a lent area, the messages in a lent store.
//! Here codes 14, 15 and 16 are given. An area that is refused, and a store that isn't written, stay as they are.

use crate::answer::*;
use crate::call::{Call, Told};
use crate::image::*;
use crate::kernel::{Kernel, STORE_BYTES};
use crate::listing::Row;

const STATE_REFUSED: Answer = Answer { code: NOT_SOUND, number: 0, running: 0 };
const SLICE_REFUSED: Answer = Answer { code: NO_SUCH_SLICE, number: 0, running: 0 };
const FRESH_WRITTEN: Answer = Answer { code: DONE, number: 0, running: 0 };

/// Writes a fresh image where no slice is named.
pub fn fresh(area: &mut [u8]) -> Answer {
    begin(area, Some(Kernel::fresh()))
}

/// Writes a fresh image with a slice.
pub fn fresh_slice(area: &mut [u8], slice: u32) -> Answer {
    begin(area, Kernel::fresh_slice(slice))
}

/// What the area holds is not read, so who ran in it isn't told either.
fn begin(area: &mut [u8], kernel: Option<Kernel>) -> Answer {
    if area.len() != IMAGE_BYTES {
        return STATE_REFUSED;
    }
    let Some(kernel) = kernel else {
        return SLICE_REFUSED;
    };
    area.copy_from_slice(&image(&kernel));
    FRESH_WRITTEN
}

/// Does a call. Only a send and a read are lent a store; the others don't look at it.
/// A message that was read is what goes to the start of the room.
pub fn call(area: &mut [u8], store: &mut [u8], call: &Call) -> (Answer, Option<Told>) {
    let Some(mut kernel) = decide(area) else {
        return (STATE_REFUSED, None);
    };
    let uses_store = matches!(call, Call::Send(..) | Call::Read(..));
    if uses_store && store.len() != STORE_BYTES {
        return (kernel.answer(NOT_A_STORE, 0), None);
    }
    if uses_store {
        take_bytes(&mut kernel, store);
    }
    let reply = kernel.apply(call);
    if uses_store {
        lay_bytes(&kernel, store);
    }
    area.copy_from_slice(&image(&kernel));
    reply
}

/// Lists the processes into a lent table of rows.
pub fn listing(area: &[u8], table: &mut [Row]) -> Answer {
    match decide(area) {
        Some(kernel) => kernel.listing(table),
        None => STATE_REFUSED,
    }
}

#[cfg(test)]
mod tests {
    use super::*;
    use crate::grammar::parse;
    use crate::random::Random;
    use crate::scripts::Script;
    use crate::why::Reason;

    #[test]
    fn as_the_kernel_alone() {
        for seed in 0..8 {
            let slice = 1 + 36 * seed as u32;
            let mut area = vec![0; IMAGE_BYTES];
            fresh_slice(&mut area, slice);
            let mut store = Random::new(seed).bytes(STORE_BYTES);
            let mut kernel = Kernel::fresh_slice(slice).unwrap();
            let mut script = Script::new(seed + 8, 400);
            while let Some(line) = script.next_line() {
                let Some(asked) = parse(&line) else { continue };
                let before = store.clone();
                let buffers = if let Call::Send(mailbox, bytes) = &asked { kernel.buffers_for(*mailbox, bytes.len()) } else { None };
                let expected = kernel.apply(&asked);
                assert_eq!(call(&mut area, &mut store, &asked), expected, "seed {seed}, {asked:?}");
                assert_eq!(area[..], image(&kernel));
                // A send writes its own bytes in its buffers, byte i in number i / 512 of them, and no other.
                let mut after = before;
                if let (Call::Send(_, bytes), Some(buffers), DONE) = (&asked, buffers, expected.0.code) {
                    bytes.iter().enumerate().for_each(|(i, byte)| after[512 * buffers[i / 512] + i % 512] = *byte);
                }
                assert!(store == after);
            }
        }
    }

    #[test]
    fn states_refused() {
        let mut store = vec![7; STORE_BYTES];
        for length in [0, 1, 411, 443, 475, 476, 507, 508, 509, 524, 539, 541] {
            let mut area = vec![5; length];
            assert_eq!(fresh(&mut area), STATE_REFUSED);
            // 14 comes before 16.
            for slice in [0, 1, 3, 255, 256, u32::MAX] {
                assert_eq!(fresh_slice(&mut area, slice), STATE_REFUSED);
            }
            assert_eq!(call(&mut area, &mut store, &Call::Tick), (STATE_REFUSED, None));
            assert_eq!(listing(&area, &mut [Row::default(); 32]), STATE_REFUSED);
            assert!(area.iter().all(|&byte| byte == 5));
        }
        let mut area = vec![0; IMAGE_BYTES];
        // 14 comes before 15 and 9.
        assert_eq!(call(&mut area, &mut [], &Call::Read(0)), (STATE_REFUSED, None));
        assert_eq!(listing(&area, &mut []), STATE_REFUSED);
        assert!(area.iter().all(|&byte| byte == 0));
        assert_eq!(fresh(&mut area), FRESH_WRITTEN);
        assert_eq!(call(&mut area, &mut store, &Call::Tick).0.code, DONE);
    }

    #[test]
    fn slices() {
        let mut area = vec![0; IMAGE_BYTES];
        fresh(&mut area);
        let usual = area.clone();
        assert_eq!(usual[507], 5);
        // Whatever the area holds, also where 1 runs in it.
        call(&mut area, &mut [], &Call::Create(2));
        for content in [area, vec![0; IMAGE_BYTES], vec![255; IMAGE_BYTES]] {
            for slice in [0, 256, 257, 511, 65_535, 65_536, 65_541, 0x8000_0005, u32::MAX] {
                let mut area = content.clone();
                assert_eq!(fresh_slice(&mut area, slice), Answer { code: 16, number: 0, running: 0 });
                assert_eq!(area, content);
            }
            for slice in 1..=255 {
                let mut area = content.clone();
                assert_eq!(fresh_slice(&mut area, slice), FRESH_WRITTEN);
                assert_eq!(area[..507], usual[..507]);
                assert_eq!(u32::from(area[507]), slice);
                assert_eq!(area[508..], usual[508..]);
            }
        }
    }

    #[test]
    fn questions() {
        let mut area = vec![0; IMAGE_BYTES];
        let refused = |code: u32| (Answer { code, number: 0, running: 0 }, None);
        // 14 comes before 1, and by itself.
        assert_eq!(call(&mut area, &mut [], &Call::Why(32)), refused(NOT_SOUND));
        assert_eq!(call(&mut area, &mut [], &Call::Why(31)), refused(NOT_SOUND));
        assert_eq!(call(&mut area[..539], &mut [], &Call::Why(32)), refused(NOT_SOUND));
        fresh(&mut area);
        assert_eq!(call(&mut area, &mut [], &Call::Why(32)), refused(NO_SUCH_PROCESS));
        call(&mut area, &mut [], &Call::Create(2));
        let before = area.clone();
        let told = |reason: Reason| (Answer { code: DONE, number: 0, running: 1 }, Some(Told::Reason(reason)));
        assert_eq!(call(&mut area, &mut [], &Call::Why(0)), told(Reason::Behind(1)));
        assert_eq!(call(&mut area, &mut [], &Call::Why(257)), told(Reason::Running));
        assert_eq!(area, before);
    }

    #[test]
    fn names() {
        let mut area = vec![0; IMAGE_BYTES];
        fresh(&mut area);
        let answer = |code: u32, number: u32, running: u32| (Answer { code, number, running }, None);
        assert_eq!(call(&mut area, &mut [], &Call::Create(2)), answer(DONE, 257, 1));
        let before = area.clone();
        // Names that another width would take for that of process 1.
        for name in [1, 513, 65_793, 131_329, 0x8000_0101, 0xffff_0101] {
            assert_eq!(call(&mut area, &mut [], &Call::Stop(name)), answer(NO_SUCH_PROCESS, 0, 1));
            assert_eq!(call(&mut area, &mut [], &Call::Why(name)), answer(NO_SUCH_PROCESS, 0, 1));
        }
        assert_eq!(area, before);
        assert_eq!(call(&mut area, &mut [], &Call::Stop(257)), answer(DONE, 0, 0));
        assert_eq!(area[475..508], [&[0, 1][..], &[0; 30], &[5]].concat());
        assert_eq!(call(&mut area, &mut [], &Call::Create(2)), answer(DONE, 513, 1));
        assert_eq!(area[476], 2);
        // 14 comes before 1, and 0 has no birth count.
        area[475] = 1;
        for name in [0, 256, 257, 513] {
            assert_eq!(call(&mut area, &mut [], &Call::Why(name)), (STATE_REFUSED, None));
            assert_eq!(call(&mut area, &mut [], &Call::Stop(name)), (STATE_REFUSED, None));
        }
        assert_eq!(listing(&area, &mut [Row::default(); 32]), STATE_REFUSED);
        fresh(&mut area);
        assert_eq!(area[475..507], [0; 32]);
    }

    #[test]
    fn mailboxes() {
        let mut area = vec![0; IMAGE_BYTES];
        let answer = |code: u32| (Answer { code, number: 0, running: 0 }, None);
        // 14 comes before 3 and 17.
        assert_eq!(call(&mut area, &mut [], &Call::Mailbox(16, 33, 2)), (STATE_REFUSED, None));
        fresh(&mut area);
        let usual = area.clone();
        assert_eq!(usual[508..], [[8; 16], [0; 16]].concat());
        // Numbers that another width would take for right ones.
        for over in [256, 65_536, 0x8000_0000, 0xffff_ff00] {
            assert_eq!(call(&mut area, &mut [], &Call::Mailbox(over + 5, 3, 1)), answer(NO_SUCH_MAILBOX));
            assert_eq!(call(&mut area, &mut [], &Call::Mailbox(5, over + 3, 1)), answer(NO_SUCH_SIZE));
            assert_eq!(call(&mut area, &mut [], &Call::Mailbox(5, 3, over + 1)), answer(NO_SUCH_SIZE));
        }
        assert_eq!(call(&mut area, &mut [], &Call::Mailbox(u32::MAX, 3, 1)), answer(NO_SUCH_MAILBOX));
        assert_eq!(call(&mut area, &mut [], &Call::Mailbox(5, u32::MAX, 1)), answer(NO_SUCH_SIZE));
        assert_eq!(call(&mut area, &mut [], &Call::Mailbox(5, 3, u32::MAX)), answer(NO_SUCH_SIZE));
        assert_eq!(area, usual);
        assert_eq!(call(&mut area, &mut [], &Call::Mailbox(5, 3, 1)), answer(DONE));
        let mut expected = usual.clone();
        (expected[508 + 5], expected[524 + 5]) = (3, 1);
        assert_eq!(area, expected);
        // Both fresh starts put it back.
        fresh_slice(&mut area, 5);
        assert_eq!(area, usual);
        fresh(&mut expected);
        assert_eq!(expected, usual);
    }

    /// Buffer 0 is free, 1 and 2 are in mailbox 5, which holds 2 and drops.
    #[test]
    fn what_a_drop_writes() {
        let mut area = vec![0; IMAGE_BYTES];
        fresh(&mut area);
        let mut store = vec![7; STORE_BYTES];
        let mut done = |area: &mut [u8], asked: Call| {
            let before = store.clone();
            assert_eq!(call(area, &mut store, &asked).0.code, DONE);
            (0..STORE_BYTES).filter(|&place| store[place] != before[place]).collect::<Vec<usize>>()
        };
        done(&mut area, Call::Mailbox(5, 2, 1));
        done(&mut area, Call::Create(1));
        for mailbox in [0, 5, 5] {
            done(&mut area, Call::Send(mailbox, vec![1; 3]));
        }
        done(&mut area, Call::Receive(0));
        done(&mut area, Call::Release);
        // The oldest is dropped, and the new one lies in buffer 0, which is lower; the next one in the buffer that was freed then.
        assert_eq!(done(&mut area, Call::Send(5, vec![2; 4])), [0, 1, 2, 3]);
        assert_eq!(area[407], 0b1111_1010);
        assert_eq!([area[211 + 32 + 5], area[211 + 2], area[211]], [2, 0, 37]);
        assert_eq!(area[343..349], [4, 0, 0, 0, 3, 0]);
        assert_eq!(done(&mut area, Call::Send(5, vec![3; 2])), [512, 513]);
        assert_eq!(area[407], 0b1111_1100);
        assert_eq!([area[211 + 32 + 5], area[211], area[211 + 1]], [0, 1, 37]);
        assert_eq!(area[343..349], [4, 0, 2, 0, 0, 0]);
    }

    /// A page lies in buffers 0, 2 and 3, since 1 is in mailbox 5. What is behind its end in its last buffer stays.
    #[test]
    fn what_a_page_writes() {
        let mut area = vec![0; IMAGE_BYTES];
        fresh(&mut area);
        let mut store = vec![7; STORE_BYTES];
        call(&mut area, &mut [], &Call::Create(1));
        for asked in [Call::Send(0, vec![1]), Call::Send(5, vec![2; 512]), Call::Receive(0), Call::Release] {
            assert_eq!(call(&mut area, &mut store, &asked).0.code, DONE);
        }
        let bytes: Vec<u8> = (0..1_500).map(|i| (i % 251) as u8).collect();
        let mut expected = store.clone();
        expected[..512].copy_from_slice(&bytes[..512]);
        expected[1_024..2_012].copy_from_slice(&bytes[512..]);
        assert_eq!(call(&mut area, &mut store, &Call::Send(5, bytes.clone())).0.code, DONE);
        assert!(store == expected);
        assert_eq!([area[211 + 32 + 5], area[211 + 1], area[211]], [1, 0, 37]);
        assert_eq!(area[343..351], [220, 5, 0, 2, 0, 0, 0, 0]);
        assert_eq!(area[407], 0b1111_0000);
        assert_eq!(area[411..416], [2, 1, 3, 3, 4]);
        // Read, it is whole, and so are the state and the store.
        for asked in [Call::Receive(5), Call::Release, Call::Receive(5)] {
            assert_eq!(call(&mut area, &mut store, &asked).0.code, DONE);
        }
        let before = area.clone();
        let answer = |code: u32| Answer { code, number: 1_500, running: 1 };
        assert_eq!(call(&mut area, &mut store, &Call::Read(1_499)), (answer(TOO_LITTLE_ROOM), None));
        assert_eq!(call(&mut area, &mut store, &Call::Read(4_096)), (answer(DONE), Some(Told::Message(bytes))));
        assert!(store == expected && area == before);
        // Given back, its buffers lead to themselves and have no length.
        assert_eq!(call(&mut area, &mut store, &Call::Release).0.code, DONE);
        assert_eq!(area[343..351], [0; 8]);
        assert_eq!(area[407..416], [255, 255, 255, 255, 0, 1, 2, 3, 4]);
        assert!(store == expected);
    }

    #[test]
    fn stores_refused() {
        let mut area = vec![0; IMAGE_BYTES];
        fresh(&mut area);
        for length in [0, 16_383, 16_385] {
            let mut store = vec![7; length];
            // 15 comes before 5, 3 and 6.
            let refused = Answer { code: NOT_A_STORE, number: 0, running: 0 };
            assert_eq!(call(&mut area, &mut store, &Call::Read(0)), (refused, None));
            assert_eq!(call(&mut area, &mut store, &Call::Send(16, vec![1; 4_097])), (refused, None));
            assert_eq!(call(&mut area, &mut store, &Call::Receive(0)).0.code, NULL_RUNS);
            assert!(store.iter().all(|&byte| byte == 7));
        }
        call(&mut area, &mut [], &Call::Create(2));
        let before = area.clone();
        let refused = Answer { code: NOT_A_STORE, number: 0, running: 1 };
        assert_eq!(call(&mut area, &mut [], &Call::Send(0, vec![])), (refused, None));
        assert_eq!(area, before);
    }
}
