//! Rooms filled with bytes other than zero: of just the size needed, longer,
//! or short in one place or several.

use crate::desk::Desk;
use crate::judge::{Needs, SCRATCH_ROOM};
use crate::layout::Edition;
use crate::random::Random;

/// Bytes other than zero to fill rooms with.
pub struct Filler {
    pool: Vec<u8>,
}

const POOL: usize = 1 << 17;
/// What is lent above what is asked for, and the longest room: scratch.
const MOST_EXCESS: usize = 5000;
const LONGEST: usize = SCRATCH_ROOM + MOST_EXCESS;

impl Filler {
    pub fn new(seed: u64) -> Filler {
        let mut random = Random::new(seed);
        Filler {
            pool: (0..POOL).map(|_| random.between(1, 255) as u8).collect(),
        }
    }

    fn room(&self, length: usize, random: &mut Random) -> Vec<u8> {
        let start = random.below(POOL - LONGEST);
        self.pool[start..start + length].to_vec()
    }

    /// Rooms of these lengths, in the order of refusal 8.
    fn desk(&self, edition: Edition, lengths: [usize; 4], random: &mut Random) -> Desk {
        let [inbox, report, order_out, scratch] = lengths.map(|length| self.room(length, random));
        Desk {
            edition,
            inbox,
            report,
            order_out,
            scratch,
        }
    }

    pub fn exact(&self, needs: &Needs, random: &mut Random) -> Desk {
        self.desk(needs.edition, lengths(needs), random)
    }

    /// Mostly enough, at times with some left over, at times short.
    pub fn rooms(&self, needs: &Needs, random: &mut Random) -> Desk {
        let mut lengths = lengths(needs);
        match random.below(10) {
            0..=4 => {}
            5..=7 => lengths
                .iter_mut()
                .for_each(|length| *length += random.pick(&[0, 0, 1, 7, 100, MOST_EXCESS])),
            // Enough for a report of edition 1.
            8 if needs.edition == Edition::Second && random.chance(40) => {
                lengths[1] = Edition::First.report_bytes(needs.boards, needs.operations);
            }
            // Order out, which run alone asks for, as often as the others
            // together.
            8 => {
                let length = &mut lengths[random.pick(&[0, 1, 2, 2, 2, 3])];
                *length = length.saturating_sub(1);
            }
            _ => shorten(&mut lengths, random),
        }
        self.desk(needs.edition, lengths, random)
    }

    /// For a sheet that is refused: any rooms, also none.
    pub fn any_rooms(&self, random: &mut Random) -> Desk {
        let mut lengths = [0; 4];
        for length in &mut lengths {
            *length = random.pick(&[0, 0, 1, 50, 500, SCRATCH_ROOM]);
        }
        self.desk(Edition::First, lengths, random)
    }
}

fn lengths(needs: &Needs) -> [usize; 4] {
    [needs.inbox, needs.report(), needs.order_out(), SCRATCH_ROOM]
}

/// One room or several become shorter, the others stay or become longer. A
/// room of which nothing is needed cannot be short.
fn shorten(lengths: &mut [usize; 4], random: &mut Random) {
    let chosen = random.below(lengths.len());
    let others = random.pick(&[0, 0, 50]);
    for (at, length) in lengths.iter_mut().enumerate() {
        if at == chosen || random.chance(others) {
            *length = match random.below(4) {
                0 => 0,
                // Of scratch, document 01's 32,768 bytes.
                1 => *length / 2,
                2 => random.below(*length + 1),
                _ => length.saturating_sub(1),
            };
        } else if random.chance(20) {
            *length += 9;
        }
    }
}
