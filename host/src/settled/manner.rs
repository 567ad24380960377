//! How large the jobs are and what their boards do. Frozen: see the module
//! above.

use super::sheet::{BUFFERED, READY, STANDARD, SYNCHRONOUS};
use crate::random::Random;

/// How large a job is and what its boards do. Shares are out of a hundred.
#[derive(Clone)]
pub struct Manner {
    pub boards: usize,
    pub messages: usize,
    pub payload: usize,
    /// Of a message, at most the payload.
    pub longest: usize,
    pub communicators: usize,
    pub tags: usize,
    pub kinds: &'static [u8],
    /// Boards whose attached buffer does not cover all their buffered sends.
    pub scarce: usize,
    pub nonblocking: usize,
    /// A wait before the next operation of a board that holds a slot.
    pub waits: usize,
    /// Slots are still held at the end, which request K7 refuses.
    pub held: bool,
    pub any_source: usize,
    pub any_tag: usize,
    pub to_oneself: usize,
    /// Receives with less capacity than their message's length.
    pub cut: usize,
    /// Messages with one end left out.
    pub stray: usize,
    /// Ends of messages that change places with a later one.
    pub exchanged: usize,
    /// Probes and queries, which only request K9 brings.
    pub probes: usize,
}

/// Two of them differ only in the high byte.
pub const TAGS: [u16; 4] = [0, 256, 1, 32_767];

/// The kinds of sends that a job draws from. Ready sends, which stop most jobs
/// early, stand in the last three only.
const KINDS: [&[u8]; 10] = [
    &[SYNCHRONOUS],
    &[STANDARD],
    &[STANDARD, SYNCHRONOUS],
    &[BUFFERED],
    &[BUFFERED, STANDARD, SYNCHRONOUS],
    &[BUFFERED, SYNCHRONOUS],
    &[BUFFERED, STANDARD],
    &[STANDARD, SYNCHRONOUS, STANDARD, SYNCHRONOUS, READY],
    &[STANDARD, SYNCHRONOUS, READY],
    &[BUFFERED, BUFFERED, STANDARD, SYNCHRONOUS, BUFFERED, READY],
];

impl Manner {
    pub fn small(random: &mut Random) -> Manner {
        Manner {
            boards: random.pick(&[1, 2, 2, 2, 3, 3, 4, 4, 5, 6]),
            messages: random.between(0, 12),
            payload: random.between(0, 40),
            longest: random.pick(&[0, 3, 12, 12, 40]),
            communicators: random.pick(&[1, 1, 1, 2, 3, 8]),
            tags: random.between(1, TAGS.len()),
            kinds: random.pick(&KINDS),
            scarce: random.pick(&[0, 0, 30, 100]),
            nonblocking: random.pick(&[0, 0, 20, 50, 80, 100]),
            waits: random.pick(&[0, 20, 50, 80]),
            held: random.chance(25),
            any_source: random.pick(&[0, 0, 0, 20, 60, 100]),
            any_tag: random.pick(&[0, 0, 20, 60]),
            to_oneself: random.pick(&[0, 0, 0, 5, 20]),
            cut: random.pick(&[0, 0, 0, 10, 30]),
            stray: random.pick(&[0, 0, 0, 0, 5, 20]),
            exchanged: random.pick(&[0, 0, 0, 0, 10, 40]),
            probes: 0,
        }
    }

    /// Less is scarce or goes astray than in small ones, so that jobs get far.
    pub fn medium(random: &mut Random) -> Manner {
        Manner {
            boards: random.between(2, 16),
            messages: random.between(8, 60),
            payload: random.between(100, 2000),
            longest: random.pick(&[4, 12, 200, 900]),
            kinds: KINDS[random.below(8)],
            scarce: random.pick(&[0, 0, 5]),
            any_source: random.pick(&[0, 0, 0, 5, 100]),
            to_oneself: random.pick(&[0, 0, 5]),
            stray: random.pick(&[0, 0, 0, 1, 5]),
            exchanged: random.pick(&[0, 0, 0, 1, 5]),
            ..Manner::small(random)
        }
    }

    /// Up to 1,024 operations: each message has at most two ends and a wait
    /// for each.
    pub fn large(random: &mut Random) -> Manner {
        let nonblocking = random.pick(&[0, 0, 40]);
        Manner {
            boards: random.pick(&[2, 5, 11, 16, 16]),
            messages: match nonblocking {
                0 => random.pick(&[200, 400, 512, 512]),
                _ => random.between(100, 256),
            },
            payload: random.pick(&[1000, 16_384]),
            longest: random.pick(&[4, 30, 4096]),
            communicators: random.between(1, 8),
            kinds: KINDS[random.below(7)],
            scarce: 0,
            nonblocking,
            any_source: random.pick(&[0, 0, 0, 1]),
            to_oneself: 0,
            stray: random.pick(&[0, 0, 0, 1]),
            exchanged: random.pick(&[0, 0, 0, 1]),
            ..Manner::small(random)
        }
    }
}
