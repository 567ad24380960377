//! What a report on a sheet of edition 2 shows.

use crate::command::note;
use crate::desk::{figure, row};
use crate::judge;
use crate::layout::board_row::{IN_USE, STANDARD_PEAK, STANDARD_USE};
use crate::layout::{board, kind, operation, word, BSEND_OVERHEAD};
use crate::requests_left::reading::{holder, operations, queries, rank_of, script};
use crate::requests_left::reading::{slot_of, state_of, takes, waits};
use crate::sheet::{boards, entry_of, field_of, kind_of, room_of};

pub const REPORTED: [&str; ACCOUNTS + STATES + ASKING] = [
    "both accounts of a board in use",
    "standard use 0, and a peak",
    "standard peak is the room",
    "overflow, the room would hold it",
    "no room, the buffer would hold it",
    "verdict 0, a standard message in a room",
    "verdict 1, a standard message in a room",
    "verdict 2, a standard message in a room",
    "stopped, a standard message in a room",
    "waited for while in a room",
    "query of one in a room, complete",
    "query of one that found no room, not complete",
    "query of one with room 0, not complete",
    "probe tells a standard message in a room",
];

const ACCOUNTS: usize = 5;
const STATES: usize = 4;
const ASKING: usize = 5;

/// Which cases the report on an accepted order of such a sheet shows.
pub fn reported(sheet: &[u8], order: &[u8], report: &[u8]) -> [bool; REPORTED.len()] {
    let mut found = [false; REPORTED.len()];
    let (of_accounts, rest) = found.split_at_mut(ACCOUNTS);
    let (states, asking) = rest.split_at_mut(STATES);
    for rank in 0..boards(sheet) {
        note(of_accounts, &accounts(sheet, report, rank));
    }
    let held = |index: &usize| in_room(sheet, report, *index);
    if operations(sheet).any(|index| held(&index)) {
        states[usize::from(report[0]).min(STATES - 1)] = true;
        note(asking, &[waited(sheet, report)]);
        judge::each_probe(sheet, order, |probe| {
            asking[ASKING - 1] |= held(&probe.message);
        });
    }
    for index in operations(sheet).filter(|&index| queries(sheet, index)) {
        note(&mut asking[1..], &queried(sheet, report, index));
    }
    found
}

/// A pending standard message that is buffered.
fn in_room(sheet: &[u8], report: &[u8], index: usize) -> bool {
    kind_of(sheet, index) == kind::STANDARD && state_of(sheet, report, index) == 2
}

fn accounts(sheet: &[u8], report: &[u8], rank: usize) -> [bool; ACCOUNTS] {
    let number = |place| figure(sheet, report, rank, place);
    let (in_use, standard) = (number(IN_USE), number(STANDARD_USE));
    let (peak, room) = (number(STANDARD_PEAK), room_of(sheet, rank));
    let length = |index| field_of(sheet, index, operation::LENGTH);
    let overflow = report[0] == 3 && usize::from(report[1]) == rank;
    let stopped = || length(usize::from(word(report, 2)));
    let left = entry_of(sheet, rank, board::ATTACHED) - in_use;
    let pending = |&index: &usize| {
        kind_of(sheet, index) == kind::STANDARD && state_of(sheet, report, index) == 1
    };
    let would_fit = |index| length(index) + BSEND_OVERHEAD <= left;
    [
        in_use > 0 && standard > 0,
        standard == 0 && peak > 0,
        room > 0 && peak == room,
        overflow && standard + stopped() + BSEND_OVERHEAD <= room,
        room > 0 && script(sheet, rank).filter(pending).any(would_fit),
    ]
}

/// Whether the wait for a message in a room is finished.
fn waited(sheet: &[u8], report: &[u8]) -> bool {
    let ended = |&index: &usize| waits(sheet, index) && state_of(sheet, report, index) == 5;
    let of = |index| holder(sheet, slot_of(sheet, index), index);
    let mut awaited = operations(sheet).filter(ended).filter_map(of);
    awaited.any(|index| takes(sheet, index) && in_room(sheet, report, index))
}

/// A query of a standard send that is finished: the send is in a room, it found
/// none, or its board has none.
fn queried(sheet: &[u8], report: &[u8], index: usize) -> [bool; 3] {
    let of = holder(sheet, slot_of(sheet, index), index).expect("the sheet is right");
    let told = row(sheet, report, index);
    if told[0] != 5 || kind_of(sheet, of) != kind::STANDARD {
        return [false; 3];
    }
    let complete = word(told, 8) == 1;
    let room = room_of(sheet, rank_of(sheet, of));
    [
        complete && in_room(sheet, report, of),
        !complete && room > 0,
        !complete && room == 0,
    ]
}
