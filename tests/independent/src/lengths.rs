//! Random messages, by their lengths: short ones, and those that need about so many buffers.

use crate::grammar::SENT_BYTES;
use crate::kernel::{BUFFER_BYTES, LONGEST_MESSAGE};
use crate::random::Random;

/// The most buffers that a message needs.
pub const MOST_BUFFERS: usize = LONGEST_MESSAGE / BUFFER_BYTES;

/// Lengths from which on a message needs another buffer or is too long, with those before and after them, and the longest that
/// can be sent.
pub fn edges() -> Vec<usize> {
    let around = |buffers: usize| [BUFFER_BYTES * buffers - 1, BUFFER_BYTES * buffers, BUFFER_BYTES * buffers + 1];
    [0, 1].into_iter().chain((1..=MOST_BUFFERS).flat_map(around)).chain([SENT_BYTES]).collect()
}

/// Mostly short; now and then of about so many buffers, about the longest or too long, or of any length.
pub fn message(random: &mut Random) -> Vec<u8> {
    let length = match random.below(60) {
        0 => random.between(0, SENT_BYTES),
        1 | 2 => random.pick(&edges()).unwrap_or(0),
        3 => random.between(LONGEST_MESSAGE - 1, SENT_BYTES),
        4..=6 => random.between(BUFFER_BYTES - 2, BUFFER_BYTES + 2),
        7..=9 => 0,
        10..=20 => random.between(1, 40),
        _ => return short_message(random),
    };
    random.bytes(length)
}

pub fn short_message(random: &mut Random) -> Vec<u8> {
    let length = random.below(6);
    random.bytes(length)
}

/// A message that needs so many buffers: as few bytes as that needs, as many as there is room for, or any number between.
pub fn message_of(random: &mut Random, buffers: usize) -> Vec<u8> {
    let (least, most) = (BUFFER_BYTES * (buffers - 1) + usize::from(buffers > 1), BUFFER_BYTES * buffers);
    let length = match random.below(4) {
        0 => least,
        1 => most,
        2 => random.between(most - 2, most),
        _ => random.between(least, most),
    };
    random.bytes(length)
}

#[cfg(test)]
mod tests {
    use super::*;
    use crate::kernel::buffers_needed;

    #[test]
    fn at_the_edges() {
        let edges = edges();
        assert_eq!(edges[..8], [0, 1, 511, 512, 513, 1_023, 1_024, 1_025]);
        assert_eq!(edges[edges.len() - 4..], [4_095, 4_096, 4_097, 4_200]);
        assert_eq!(edges.len(), 27);
    }

    #[test]
    fn needed() {
        for (length, buffers) in [(0, 1), (1, 1), (511, 1), (512, 1), (513, 2), (1_024, 2), (1_025, 3), (3_584, 7), (3_585, 8), (4_096, 8)] {
            assert_eq!(buffers_needed(length), buffers, "{length} bytes");
        }
    }

    #[test]
    fn of_so_many_buffers() {
        let mut random = Random::new(7);
        for buffers in 1..=MOST_BUFFERS {
            let lengths: Vec<usize> = (0..200).map(|_| message_of(&mut random, buffers).len()).collect();
            assert!(lengths.iter().all(|&length| buffers_needed(length) == buffers));
            let least = if buffers == 1 { 0 } else { 512 * (buffers - 1) + 1 };
            assert!(lengths.contains(&least) && lengths.contains(&(512 * buffers)), "{buffers} buffers");
        }
    }

    /// One in fifteen needs more than one buffer, or is too long.
    #[test]
    fn mostly_short() {
        let mut random = Random::new(8);
        let lengths: Vec<usize> = (0..6_000).map(|_| message(&mut random).len()).collect();
        let long = lengths.iter().filter(|&&length| length > BUFFER_BYTES).count();
        assert!((200..500).contains(&long), "{long} of 6,000");
        assert!(edges().iter().all(|length| lengths.contains(length)));
    }
}
