//! Request slots, the areas of receives, and refusal 7 (document 01, Slots
//! and Areas; document 02, K7 and K9). One pass; a receive is compared with at
//! most 32 held areas.

use super::boards::Boards;
use super::header::Header;
use super::operations::{self, Operation};
use crate::layout::{kind, SLOTS};

/// The slots of one board: a bit a slot. `receives` marks the held slots of
/// receives whose area is not empty; only those can share a byte.
struct Requests {
    held: u32,
    receives: u32,
    areas: [Area; SLOTS],
    /// Of a held slot, the operation of the script that took it.
    takers: [u16; SLOTS],
}

#[derive(Clone, Copy)]
struct Area {
    start: u32,
    end: u32,
}

impl Requests {
    fn new() -> Requests {
        Requests {
            held: 0,
            receives: 0,
            areas: [Area { start: 0, end: 0 }; SLOTS],
            takers: [0; SLOTS],
        }
    }

    /// Takes up the next operation, number `index` of the script; false if it
    /// breaks a rule.
    fn take(&mut self, index: usize, operation: &Operation) -> bool {
        let slot = 1 << operation.slot;
        if operation.kind == kind::WAIT {
            let held = self.held & slot != 0;
            self.held &= !slot;
            self.receives &= !slot;
            return held;
        }
        // It frees nothing (document 02, K9). A probe has neither slot nor
        // area, and passes all below.
        if operation.kind == kind::QUERY {
            return self.held & slot != 0;
        }
        if operation.flag == 1 && self.held & slot != 0 {
            return false;
        }
        let start = u32::from(operation.offset);
        let area = Area {
            start,
            end: start + u32::from(operation.length),
        };
        let occupies = operation.kind == kind::RECEIVE && operation.length > 0;
        if occupies && self.shares(area) {
            return false;
        }
        if operation.flag == 1 {
            self.held |= slot;
            self.takers[usize::from(operation.slot)] = index as u16;
            if occupies {
                self.receives |= slot;
                self.areas[usize::from(operation.slot)] = area;
            }
        }
        true
    }

    fn shares(&self, area: Area) -> bool {
        let mut left = self.receives;
        while left != 0 {
            let other = self.areas[left.trailing_zeros() as usize];
            if area.start < other.end && other.start < area.end {
                return true;
            }
            left &= left - 1;
        }
        false
    }

    /// At the script's end: the first operation whose slot is still held.
    fn forgotten(&self) -> Option<usize> {
        let mut left = self.held;
        let mut first = None;
        while left != 0 {
            let taker = usize::from(self.takers[left.trailing_zeros() as usize]);
            first = Some(first.map_or(taker, |first: usize| first.min(taker)));
            left &= left - 1;
        }
        first
    }
}

/// The place of refusal 7 if it applies; the fields are right (refusal 6). A
/// request that is forgotten is told only where no operation of the whole
/// sheet breaks another rule (document 02, K7).
pub fn check(sheet: &[u8], header: &Header, boards: &Boards) -> Result<(), u64> {
    let table = header.operation_entries(sheet);
    let mut forgotten = None;
    for board in boards.in_rank_order() {
        let mut requests = Requests::new();
        for (index, row) in operations::rows(table, board).enumerate() {
            if !requests.take(index, &Operation::read(row)) {
                return Err((board.first + index) as u64);
            }
        }
        let first = || requests.forgotten().map(|index| board.first + index);
        forgotten = forgotten.or_else(first);
    }
    forgotten.map_or(Ok(()), |place| Err(place as u64))
}
