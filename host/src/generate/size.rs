//! How large a generated sheet becomes. Most are small, so that many can be
//! tried; some reach the limits of document 01.

use crate::layout;
use crate::random::Random;

pub struct Size {
    pub boards: usize,
    pub communicators: u16,
    pub operations: usize,
    pub payload: usize,
    /// All inboxes together.
    pub inboxes: usize,
}

pub fn small(random: &mut Random) -> Size {
    Size {
        boards: match random.chance(10) {
            true => layout::MOST_BOARDS,
            false => random.between(1, 4),
        },
        communicators: communicators(random),
        operations: random.between(0, 24),
        payload: random.between(0, 64),
        inboxes: random.between(0, 200),
    }
}

pub fn medium(random: &mut Random) -> Size {
    Size {
        boards: random.between(1, layout::MOST_BOARDS),
        communicators: communicators(random),
        operations: random.between(0, 200),
        payload: random.between(0, 1024),
        inboxes: random.between(0, 4096),
    }
}

/// Every number is often at its limit.
pub fn large(random: &mut Random) -> Size {
    Size {
        boards: up_to(random, 1, layout::MOST_BOARDS),
        communicators: communicators(random),
        operations: up_to(random, 0, layout::MOST_OPERATIONS),
        payload: up_to(random, 0, layout::MOST_PAYLOAD),
        inboxes: up_to(random, 0, layout::MOST_INBOX_TOTAL),
    }
}

/// Mostly small, at times medium, seldom large.
pub fn any(random: &mut Random) -> Size {
    match random.below(100) {
        0..=84 => small(random),
        85..=98 => medium(random),
        _ => large(random),
    }
}

fn communicators(random: &mut Random) -> u16 {
    random.between(1, layout::MOST_COMMUNICATORS) as u16
}

fn up_to(random: &mut Random, low: usize, limit: usize) -> usize {
    if random.chance(40) {
        limit
    } else {
        random.between(low, limit)
    }
}
