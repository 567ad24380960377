//! Slots and areas as the bytes of a sheet have them. Its header and board
//! table are right; fields of operations may be wrong, and then name no slot.

use crate::desk;
use crate::layout::{board, header, kind, operation, word, SLOTS};
use crate::sheet::{boards, entry_of, field_of, kind_of, operation_at};
use std::ops::Range;

/// An operation whose slot no later wait of its script frees.
pub struct Left {
    pub rank: usize,
    pub index: usize,
    pub slot: usize,
}

/// All operations of a sheet.
pub fn operations(sheet: &[u8]) -> Range<usize> {
    0..usize::from(word(sheet, header::OPERATIONS))
}

/// The operations of a board.
pub fn script(sheet: &[u8], rank: usize) -> Range<usize> {
    let first = entry_of(sheet, rank, board::FIRST);
    first..first + entry_of(sheet, rank, board::COUNT)
}

pub fn rank_of(sheet: &[u8], index: usize) -> usize {
    let holds = |&rank: &usize| script(sheet, rank).contains(&index);
    (0..boards(sheet)).find(holds).expect("the counts total N")
}

pub fn slot_of(sheet: &[u8], index: usize) -> usize {
    field_of(sheet, index, operation::SLOT)
}

pub fn waits(sheet: &[u8], index: usize) -> bool {
    kind_of(sheet, index) == kind::WAIT && slot_of(sheet, index) < SLOTS
}

/// A query of a slot (document 02, K9).
pub fn queries(sheet: &[u8], index: usize) -> bool {
    kind_of(sheet, index) == kind::QUERY && slot_of(sheet, index) < SLOTS
}

pub fn takes(sheet: &[u8], index: usize) -> bool {
    let flag = sheet[operation_at(sheet, index) + operation::FLAG];
    let transfer = (kind::STANDARD..=kind::RECEIVE).contains(&kind_of(sheet, index));
    transfer && flag == 1 && slot_of(sheet, index) < SLOTS
}

pub fn receives(sheet: &[u8], index: usize) -> bool {
    kind_of(sheet, index) == kind::RECEIVE
}

/// All requests that are left, in the order of the table. Each script is read
/// from its end, so that the waits behind an operation are known.
pub fn left(sheet: &[u8]) -> Vec<Left> {
    let mut left = Vec::new();
    for rank in (0..boards(sheet)).rev() {
        let mut freed = [false; SLOTS];
        for index in script(sheet, rank).rev() {
            let slot = slot_of(sheet, index);
            if waits(sheet, index) {
                freed[slot] = true;
            } else if takes(sheet, index) && !freed[slot] {
                left.push(Left { rank, index, slot });
            }
        }
    }
    left.reverse();
    left
}

/// The operation that holds a slot just before another of its board.
pub fn holder(sheet: &[u8], slot: usize, index: usize) -> Option<usize> {
    let before = script(sheet, rank_of(sheet, index)).start..index;
    let names = |&at: &usize| slot_of(sheet, at) == slot && (waits(sheet, at) || takes(sheet, at));
    let last = before.rev().find(names);
    last.filter(|&at| takes(sheet, at))
}

fn breaks_slot_rule(sheet: &[u8], index: usize) -> bool {
    let held = || holder(sheet, slot_of(sheet, index), index).is_some();
    let names = waits(sheet, index) || queries(sheet, index);
    names && !held() || takes(sheet, index) && held()
}

/// A receive that shares a byte with a held one.
fn breaks_area_rule(sheet: &[u8], index: usize) -> bool {
    let area = |at| {
        let start = field_of(sheet, at, operation::OFFSET);
        (start, start + field_of(sheet, at, operation::LENGTH))
    };
    let (start, end) = area(index);
    let shares = |held: usize| {
        let (from, to) = area(held);
        start.max(from) < end.min(to)
    };
    let holders = (0..SLOTS).filter_map(|slot| holder(sheet, slot, index));
    let mut held = holders.filter(|&at| receives(sheet, at));
    receives(sheet, index) && held.any(shares)
}

/// Why a place was told with refusal 7.
#[derive(Clone, Copy, PartialEq, Eq)]
pub enum Seven {
    Slot,
    Area,
    Forgotten,
}

impl Seven {
    pub fn at(sheet: &[u8], place: usize) -> Seven {
        if breaks_slot_rule(sheet, place) {
            Seven::Slot
        } else if breaks_area_rule(sheet, place) {
            Seven::Area
        } else {
            Seven::Forgotten
        }
    }
}

/// The state of an operation in a report.
pub fn state_of(sheet: &[u8], report: &[u8], index: usize) -> u8 {
    desk::row(sheet, report, index)[0]
}

/// Whether a board of a right sheet holds all 32 slots at once, and whether one
/// takes a slot again that it has freed.
pub fn held_at_once_and_again(sheet: &[u8]) -> (bool, bool) {
    let (mut at_once, mut again) = (false, false);
    for rank in 0..boards(sheet) {
        let (mut held, mut freed) = ([false; SLOTS], [false; SLOTS]);
        for index in script(sheet, rank) {
            let slot = slot_of(sheet, index);
            if waits(sheet, index) {
                held[slot] = false;
                freed[slot] = true;
            } else if takes(sheet, index) {
                held[slot] = true;
                at_once |= held == [true; SLOTS];
                again |= freed[slot];
            }
        }
    }
    (at_once, again)
}
