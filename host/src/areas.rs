//! Areas of matched receives of accepted sheets: the cases around a capacity
//! that the differential tests have to make (document 02, K5). A message is
//! shorter than the area, fills it, or is cut.

use crate::desk::row;
use crate::layout::{board, kind, operation, word};
use crate::sheet::{boards, entry_of, field_of, kind_of};

/// What `left` finds.
pub const LEFT: [&str; 7] = [
    "capacity 0, an empty message",
    "capacity 0, cut",
    "cut by one byte",
    "cut by more, and not to nothing",
    "cut in the middle of an inbox",
    "as long as the capacity",
    "one byte shorter than the capacity",
];

/// Which cases a report on an accepted sheet shows.
pub fn left(sheet: &[u8], report: &[u8]) -> [bool; LEFT.len()] {
    let mut found = [false; LEFT.len()];
    for rank in 0..boards(sheet) {
        let inbox = entry_of(sheet, rank, board::INBOX);
        let first = entry_of(sheet, rank, board::FIRST);
        for index in first..first + entry_of(sheet, rank, board::COUNT) {
            let row = row(sheet, report, index);
            if kind_of(sheet, index) == kind::RECEIVE && row[0] == 3 {
                let length = field_of(sheet, usize::from(word(row, 2)), operation::LENGTH);
                let start = field_of(sheet, index, operation::OFFSET);
                let capacity = field_of(sheet, index, operation::LENGTH);
                let shows = cases(length, start, capacity, inbox);
                for (found, shown) in found.iter_mut().zip(shows) {
                    *found |= shown;
                }
            }
        }
    }
    found
}

fn cases(length: usize, start: usize, capacity: usize, inbox: usize) -> [bool; LEFT.len()] {
    let front = length > capacity && capacity > 0;
    [
        length == 0 && capacity == 0,
        length > 0 && capacity == 0,
        front && length == capacity + 1,
        front && length > capacity + 1,
        front && start > 0 && start + capacity < inbox,
        length > 0 && length == capacity,
        length > 0 && length + 1 == capacity,
    ]
}
