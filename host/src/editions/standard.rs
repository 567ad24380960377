//! The standard sends of a board together, and its room.

use crate::layout::{kind, operation};
use crate::requests_left::reading::script;
use crate::sheet::{field_of, kind_of, room_of};

pub struct Standard {
    pub lengths: usize,
    pub longest: usize,
    /// 0 in edition 1, which has no rooms.
    pub room: usize,
}

impl Standard {
    pub fn of(sheet: &[u8], rank: usize) -> Standard {
        let standard = |&index: &usize| kind_of(sheet, index) == kind::STANDARD;
        let sends = script(sheet, rank).filter(standard);
        let lengths = sends.map(|index| field_of(sheet, index, operation::LENGTH));
        let lengths: Vec<usize> = lengths.collect();
        Standard {
            lengths: lengths.iter().sum(),
            longest: lengths.iter().copied().max().unwrap_or(0),
            room: room_of(sheet, rank),
        }
    }

    /// The room is above 0 and does not hold all of them.
    pub fn uncovered(&self) -> bool {
        self.room > 0 && self.lengths > self.room
    }
}
