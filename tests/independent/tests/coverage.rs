//! The random scripts name a slice in every way, and reach every code, every kind of reason, every kind of name, all that can be
//! met at mailboxes and done with buffers, and every deep state, with fixed seeds; and each seed gives one script.

use independent::coverage::Coverage;
use independent::scripts::{script, Questioned, Script};

/// What 16 scripts reach, of those that tests/scripts compares.
fn reached() -> Coverage {
    let mut all = Coverage::default();
    (0..16).for_each(|seed| all.add(seed, 2_000));
    all
}

#[test]
fn everything_is_reached() {
    let all = reached();
    assert!(all.missing().is_empty(), "not reached: {:?}\n{all}", all.missing());
    assert_eq!(all.styles.len(), 8);
}

#[test]
fn a_seed_gives_one_script() {
    for seed in 0..16 {
        assert_eq!(script(seed, 300), script(seed, 300));
        assert_ne!(script(seed, 300), script(seed + 16, 300));
    }
}

#[test]
fn as_many_lines_as_asked_for() {
    // Seeds 5 and 69 drive a count to its limit on top of their lines.
    let count = |mut script: Script| std::iter::from_fn(|| script.next_line()).count();
    for seed in (0..100).filter(|seed| ![5, 69].contains(seed)) {
        // The first lines, which may name a slice, come on top.
        let first_lines = count(Script::new(seed, 0));
        assert_eq!(count(Script::new(seed, 50)), first_lines + 50, "seed {seed}");
    }
    assert!(script(5, 50).len() > 65_535 * "signal 0\n".len());
}

#[test]
fn some_scripts_end_without_newline() {
    let open = |seed: &u64| script(*seed, 20).last() != Some(&b'\n');
    let count = (0..100).filter(open).count();
    assert!((5..60).contains(&count), "{count} of 100");
}

#[test]
fn every_kind_of_reason_is_wanted() {
    let nothing = Coverage::default().missing();
    for kind in 0..6 {
        assert!(nothing.contains(&format!("a reason of kind {kind}")), "{nothing:?}");
    }
    assert!(nothing.contains(&"a refused question".to_string()), "{nothing:?}");
}

/// Of the 16 ways to begin a script, each comes 8 times in 128 seeds.
#[test]
fn slices_are_named_in_known_proportions() {
    let mut all = Coverage::default();
    (0..128).for_each(|seed| all.add(seed, 1));
    let times = |line: &str| all.first_lines.get(line).copied().unwrap_or(0);
    // Beside the scripts that name none are those whose second line would.
    assert_eq!(times("another"), 8 + 8);
    assert_eq!(times("slice 0"), 8 + 8);
    for line in ["slice 1", "slice 2", "slice 3", "slice 4", "slice 5", "slice 255", "slice 256", "slice 65535", "slice 65536", "slice 03"] {
        assert_eq!(times(line), 8, "{line}");
    }
    // Each time another slice that is longer than the usual one, or another line that nearly names one.
    assert!((6..=13).all(|slice| times(&format!("slice {slice}")) == 1));
    assert!(["slice", "slice ", "slice -", "slice 00", "slice 3 3"].iter().all(|line| times(line) == 1));
}

#[test]
fn every_slice_is_wanted() {
    let nothing = Coverage::default().missing();
    for what in [
        "code 16",
        "a script with the first line: another",
        "a script with the first line: slice 1",
        "a script with the first line: slice 255",
        "a script with the first line: slice 0",
        "a script with the first line: slice 65536",
        "a script with the first line: slice 03",
        "a slice named later, after a slice",
        "a slice named later, after a refused slice",
        "a slice named later, after a call",
        "a slice named later, after a bad line",
        "a slice of 5 used up",
        "a slice of 255 used up",
    ] {
        assert!(nothing.contains(&what.to_string()), "{what}: {nothing:?}");
    }
}

#[test]
fn every_kind_of_name_is_wanted() {
    let nothing = Coverage::default().missing();
    for call in ["stop", "why"] {
        for what in [
            "a process",
            "a process whose name an earlier one had, 256 births ago",
            "an unused number, by the last name that it had",
            "a number that never was a process",
            "a process, by a name that an earlier one had",
            "an unused number, by a name that an earlier process had",
            "a number alone, though it has a birth count",
            "a number with a birth count that it has not reached",
            "a number over 31",
            "process 0",
            "process 0 with a birth count",
        ] {
            assert!(nothing.contains(&format!("{call} of {what}")), "{call} of {what}: {nothing:?}");
        }
    }
}

/// Of 16 seeds one has a number that is born 258 times and is looked at closely the last times, which takes 567 lines.
#[test]
fn names_return_in_few_scripts() {
    let lines = |seed: u64| script(seed, 0).split(|&byte| byte == b'\n').filter(|line| line.starts_with(b"create 0")).count();
    let reborn: Vec<u64> = (0..64).filter(|&seed| lines(seed) >= 258).collect();
    assert_eq!(reborn, [4, 20, 36, 52]);
    let mut opening = Script::new(4, 0);
    assert!(std::iter::from_fn(|| opening.next_line()).count() < 600);
}

#[test]
fn every_kind_at_mailboxes_is_wanted() {
    let nothing = Coverage::default().missing();
    for what in [
        "code 17",
        "code 18",
        "a mailbox with 32 messages",
        "at a mailbox: set to refuse at 1",
        "at a mailbox: set to refuse at 2",
        "at a mailbox: set to refuse at 3 to 7",
        "at a mailbox: set to refuse at 8",
        "at a mailbox: set to refuse at 9 to 31",
        "at a mailbox: set to refuse at 32",
        "at a mailbox: set to drop at 1",
        "at a mailbox: set to drop at 32",
        "at a mailbox: set while 0 runs",
        "at a mailbox: set while a process runs",
        "at a mailbox: set to what it is",
        "at a mailbox: set back to what it was, after it was full",
        "at a mailbox: 3 for mailbox 16",
        "at a mailbox: 3 for a mailbox over 16",
        "at a mailbox: 3 where the capacity is wrong too",
        "at a mailbox: 3 where the mode is wrong too",
        "at a mailbox: 17 for a capacity of 0",
        "at a mailbox: 17 for a capacity of 33",
        "at a mailbox: 17 for a capacity over 255",
        "at a mailbox: 17 for a mode of 2",
        "at a mailbox: 17 for a mode over 255",
        "at a mailbox: 17 for a capacity, with messages",
        "at a mailbox: 17 for a capacity, with waiters",
        "at a mailbox: 17 for a mode, with messages",
        "at a mailbox: 17 for a mode, with waiters",
        "at a mailbox: 18 for messages",
        "at a mailbox: 18 for messages, where nothing would change",
        "at a mailbox: 18 for waiters",
        "at a mailbox: 18 for waiters, where nothing would change",
        "at a mailbox: 18 while 0 runs",
        "at a mailbox: 11 at 1",
        "at a mailbox: 11 at 32",
        "at a mailbox: 11 with no buffer free",
        "at a mailbox: a drop at 1",
        "at a mailbox: a drop at 8",
        "at a mailbox: a drop at 32",
        "at a mailbox: a drop with no other buffer free, at less than 32",
        "at a mailbox: a drop with a lower buffer free",
        "at a mailbox: a drop with only higher buffers free",
        "at a mailbox: a drop while 0 runs",
        "at a mailbox: 6 at a full mailbox that drops",
        "at a mailbox: 12 at a full mailbox that drops",
        "at a mailbox: 12 at an empty mailbox that drops",
        "at a mailbox: 12 at a mailbox with messages that drops",
        "at a mailbox: 12 at a mailbox with waiters that drops",
        "at a mailbox: to a waiter, at a mailbox that drops",
        "at a mailbox: received, a message that a drop spared",
        "at a mailbox: received, the oldest message, which 12 left at a full mailbox that drops",
        "the bad line: mailbox",
        "the bad line: mailbox 5 3",
        "the bad line: mailbox 5 3 1 0",
        "the bad line: mailbox 5 03 1",
        "the bad line: mailbox 5 65539 1",
        "the bad line: Mailbox 5 3 1",
    ] {
        assert!(nothing.contains(&what.to_string()), "{what}: {nothing:?}");
    }
}

/// Where one kind did not come, or one bad line, that is missing and nothing else.
#[test]
fn a_missing_kind_at_mailboxes_is_found() {
    let all = reached();
    assert_eq!((all.mailboxes.len(), all.near_mailboxes.len()), (83, 32));
    for kind in all.mailboxes.keys() {
        let mut without = all.clone();
        without.mailboxes.remove(kind);
        assert_eq!(without.missing(), [format!("at a mailbox: {kind}")]);
    }
    for line in &all.near_mailboxes {
        let mut without = all.clone();
        without.near_mailboxes.remove(line);
        assert_eq!(without.missing(), [format!("the bad line: {line}")]);
    }
}

/// Of 16 seeds one fills mailboxes of 32, of 8 and of another size, and reads what is in them.
#[test]
fn mailboxes_are_filled_in_few_scripts() {
    let of_32 = |seed: u64| script(seed, 0).split(|&byte| byte == b'\n').any(|line| line == b"mailbox 15 32 1");
    let filled: Vec<u64> = (0..64).filter(|&seed| of_32(seed)).collect();
    assert_eq!(filled, [2, 18, 34, 50]);
    let mut opening = Script::new(2, 0);
    assert!(std::iter::from_fn(|| opening.next_line()).count() < 600);
}

#[test]
fn every_kind_with_buffers_is_wanted() {
    let nothing = Coverage::default().missing();
    assert!(nothing.contains(&"32 buffers held by pages".to_string()), "{nothing:?}");
    for length in [0, 1, 511, 512, 513, 1_023, 1_024, 1_025, 1_535, 1_536, 1_537, 2_048, 2_049, 2_560, 2_561, 3_072, 3_073, 3_584, 3_585, 4_095, 4_096] {
        for what in ["sent", "read"] {
            assert!(nothing.contains(&format!("with buffers: {what}, {length} bytes")), "{what}, {length}: {nothing:?}");
        }
    }
    for what in [
        "6 for 4097 bytes",
        "6 for 4200 bytes",
        "a page while 0 runs",
        "a page that is queued",
        "a page to a waiter",
        "a page in buffers side by side",
        "a page in buffers that are not side by side",
        "a page of 8 buffers in three stretches or more",
        "a page in all buffers that were free",
        "a drop of a page",
        "a drop of a page of 8 buffers",
        "a drop that gives back three or more, of which the message takes some, and others",
        "a drop that gives back more than are taken",
        "a drop that gives back fewer than are taken",
        "a drop without which there would be too few",
        "a drop of which nothing is taken, for a page",
        "12 by one buffer, with others free",
        "12 by more than one buffer, with others free",
        "12 for a page, with no buffer free",
        "12 for a page to a waiter",
        "12 by one buffer, with a drop",
        "12 by more than one buffer, with a drop",
        "12 with a drop that would give back three or more",
        "7 with a page in hand",
        "9 for a page, by one byte",
        "9 for a page, in a room of a buffer",
        "9 for a page, in no room",
        "released, a page",
        "released, a page in buffers that are not side by side",
        "stopped with a page in hand, running",
        "stopped with a page in hand, ready",
        "stopped with a page in hand, at a semaphore",
        "ended with a page in hand",
    ] {
        assert!(nothing.contains(&format!("with buffers: {what}")), "{what}: {nothing:?}");
    }
}

/// Where one kind did not come, that is missing and nothing else.
#[test]
fn a_missing_kind_with_buffers_is_found() {
    let all = reached();
    assert_eq!(all.buffers.len(), 89);
    for kind in all.buffers.keys() {
        let mut without = all.clone();
        without.buffers.remove(kind);
        assert_eq!(without.missing(), [format!("with buffers: {kind}")]);
    }
}

/// Of 16 seeds one begins with pages: each edge of lengths is sent and read, and pages fill the store, are given back and dropped.
#[test]
fn pages_come_first_in_few_scripts() {
    let is_long = |line: &&[u8]| line.len() > 8_192;
    let paged = |seed: u64| script(seed, 0).split(|&byte| byte == b'\n').filter(is_long).count() > 10;
    assert_eq!((0..64).filter(|&seed| paged(seed)).collect::<Vec<u64>>(), [6, 22, 38, 54]);
    let mut opening = Script::new(6, 0);
    assert!(std::iter::from_fn(|| opening.next_line()).count() < 600);
    assert!(script(6, 0).len() < 400_000);
}

#[test]
fn questions_come_on_top() {
    // Seed 5 drives a count to its limit on top of its lines.
    for seed in (0..16).filter(|seed| *seed != 5) {
        let mut plain = Script::new(seed, 300);
        let mut with_questions = Questioned::new(seed, 300);
        let mut next = plain.next_line();
        let (mut lines, mut questions) = (0, 0);
        while let Some(line) = with_questions.next_line() {
            if next.as_ref() == Some(&line) {
                next = plain.next_line();
                lines += 1;
            } else {
                questions += 1;
            }
        }
        assert_eq!(next, None, "seed {seed}: the lines of the script, in order");
        assert!((lines / 20..lines / 4).contains(&questions), "seed {seed}: {questions} questions between {lines} lines");
    }
}
