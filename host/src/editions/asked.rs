//! What the answers of check and premise show.

use super::Standard;
use crate::buffers::Buffered;
use crate::command::note;
use crate::layout::{board, header, kind, word, Edition};
use crate::layout::{HEADER_BYTES, MOST_ATTACHED, MOST_INBOX_TOTAL, MOST_ROOM, OPERATION_BYTES};
use crate::probes;
use crate::sheet::{boards, edition, entry_of, room_of};
use jamturret::lent::Answer;

/// What `asked` finds: of accepted sheets, of refusal 3, of refusal 5, of the
/// refusals behind it, and of premise's answers to accepted sheets of edition 2.
pub const ASKED: [&str; ACCEPTED + THREE + FIVE + OTHERS + PREMISE] = [
    "accepted, edition 1",
    "accepted, edition 2",
    "accepted, edition 2, no operations",
    "accepted, edition 2, all rooms 0",
    "accepted, a room of 16,384",
    "refused 3, operation table at 16+9P",
    "refused 3, entries of 9 bytes throughout",
    "refused 3, operation table of 2, else of 1",
    "refused 3, operation table of 1, else of 2",
    "refused 3, payload of 2, else of 1",
    "refused 3, payload of 1, else of 2",
    "refused 3, length of 2, else of 1",
    "refused 3, length of 1, else of 2",
    "refused 5, room 16,385, first of several boards",
    "refused 5, room 16,385, last of several",
    "refused 5, room 16,385, between them",
    "refused 5, room above 32,767",
    "refused 5, room and first operation",
    "refused 5, room and attached size",
    "refused 5, room and inbox",
    "refused 5, room, then another number",
    "refused 5, another number, then a room",
    "refused 5, the first of two rooms",
    "refused 5, another number, edition 2",
    "refused 5, the total, edition 2",
    "refused 4, edition 2",
    "refused 6, edition 2",
    "refused 7, edition 2",
    "premise 0, a room covers",
    "premise 0, a room is filled to its last byte",
    "premise 0, room 0, standard sends",
    "premise 0, room 0 beside one that covers",
    "premise 24, first of several boards",
    "premise 24, last of several",
    "premise 24, between them",
    "premise 24, one byte is missing",
    "premise 24, each send alone is covered",
    "premise 24, the first of two boards",
    "premise 24, with a probe",
    "premise 24, with a covered buffer",
    "premise 20, a room is short",
    "premise 21, a room is short",
    "premise 22, a room is short",
    "premise 23, a room is short",
];

const ACCEPTED: usize = 5;
const THREE: usize = 8;
const FIVE: usize = 12;
const OTHERS: usize = 3;
const PREMISE: usize = 16;

/// Which cases the answers of check and premise make.
pub fn asked(sheet: &[u8], check: Answer, premise: Answer) -> [bool; ASKED.len()] {
    let mut found = [false; ASKED.len()];
    let second = edition(sheet) == Edition::Second;
    let (first, rest) = found.split_at_mut(ACCEPTED);
    let (three, rest) = rest.split_at_mut(THREE);
    let (five, rest) = rest.split_at_mut(FIVE);
    let (others, of_premise) = rest.split_at_mut(OTHERS);
    match check.number {
        0 => {
            note(first, &accepted(sheet));
            if second {
                note(of_premise, &order_matters(sheet, premise));
            }
        }
        3 => note(three, &misplaced(sheet)),
        5 if second => note(five, &wrong_entry(sheet, check.place as usize)),
        number => note(others, &[4, 6, 7].map(|other| second && number == other)),
    }
    found
}

fn operations(sheet: &[u8]) -> usize {
    usize::from(word(sheet, header::OPERATIONS))
}

fn accepted(sheet: &[u8]) -> [bool; ACCEPTED] {
    let second = edition(sheet) == Edition::Second;
    let room = |rank| room_of(sheet, rank);
    let mut ranks = 0..boards(sheet);
    [
        !second,
        second,
        second && operations(sheet) == 0,
        second && ranks.clone().all(|rank| room(rank) == 0),
        ranks.any(|rank| room(rank) == MOST_ROOM),
    ]
}

/// How long entries would be that give the operation table's offset, the
/// payload's, and the sheet's length. The numbers are in their ranges.
fn misplaced(sheet: &[u8]) -> [bool; THREE] {
    let number = |place| usize::from(word(sheet, place));
    let table = OPERATION_BYTES * operations(sheet);
    let behind = table + number(header::PAYLOAD_LENGTH);
    let ends = [
        Some(number(header::OPERATION_TABLE)),
        number(header::PAYLOAD).checked_sub(table),
        sheet.len().checked_sub(behind),
    ];
    let entry = |end: Option<usize>| {
        let bytes = end?.checked_sub(HEADER_BYTES)?;
        (bytes % boards(sheet) == 0).then(|| bytes / boards(sheet))
    };
    let are = |bytes: [usize; 3]| ends.map(entry) == bytes.map(Some);
    let right = number(header::BOARD_TABLE) == HEADER_BYTES;
    let others = [[9, 9, 9], [10, 8, 8], [8, 10, 10]];
    let one = [[8, 10, 8], [10, 8, 10], [8, 8, 10], [10, 10, 8]];
    let mut found = [false; THREE];
    found[0] = right && entry(ends[0]) == Some(9);
    note(&mut found[1..], &others.map(|bytes| right && are(bytes)));
    note(&mut found[4..], &one.map(|bytes| right && are(bytes)));
    found
}

/// Which numbers of an entry are wrong: first operation, attached size, inbox,
/// room.
fn wrong(sheet: &[u8], rank: usize) -> [bool; 4] {
    let number = |rank, field| entry_of(sheet, rank, field);
    let before: usize = (0..rank).map(|rank| number(rank, board::COUNT)).sum();
    let inboxes: usize = (0..=rank).map(|rank| number(rank, board::INBOX)).sum();
    [
        number(rank, board::FIRST) != before,
        number(rank, board::ATTACHED) > MOST_ATTACHED,
        inboxes > MOST_INBOX_TOTAL,
        number(rank, board::ROOM) > MOST_ROOM,
    ]
}

fn wrong_entry(sheet: &[u8], place: usize) -> [bool; FIVE] {
    let mut found = [false; FIVE];
    let last = boards(sheet) - 1;
    if place > last {
        found[FIVE - 1] = true;
        return found;
    }
    let [first, attached, inbox, room] = wrong(sheet, place);
    let others = first || attached || inbox;
    let size = entry_of(sheet, place, board::ROOM);
    let alone = room && !others && size == MOST_ROOM + 1;
    // Of an entry behind, where the first operation and the running total
    // follow from what is wrong before.
    let behind = || (place + 1..=last).map(|rank| wrong(sheet, rank));
    let shows = [
        alone && place == 0 && last > 0,
        alone && place == last && last > 0,
        alone && 0 < place && place < last,
        room && size > 32_767,
        room && first,
        room && attached,
        room && inbox,
        room && !others && behind().any(|[_, attached, _, room]| attached && !room),
        !room && behind().any(|[.., room]| room),
        room && behind().any(|[.., room]| room),
        !room,
    ];
    note(&mut found, &shows);
    found
}

/// Of an accepted sheet of edition 2.
fn order_matters(sheet: &[u8], premise: Answer) -> [bool; PREMISE] {
    let last = boards(sheet) - 1;
    let all: Vec<Standard> = (0..=last).map(|rank| Standard::of(sheet, rank)).collect();
    let is = |number| premise.number == number;
    let place = premise.place as usize;
    let covers = |of: &Standard| of.room > 0 && of.lengths > 0;
    let filled = |of: &Standard| covers(of) && of.lengths == of.room;
    let none = |of: &Standard| of.room == 0 && of.lengths > 0;
    let (covering, empty) = (all.iter().any(covers), all.iter().any(none));
    let short = all.iter().filter(|of| of.uncovered()).count();
    let told = is(24).then(|| &all[place]);
    let buffered = |rank| Buffered::of(sheet, rank).charges > 0;
    [
        is(0) && covering,
        is(0) && all.iter().any(filled),
        is(0) && empty,
        is(0) && empty && covering,
        is(24) && place == 0 && last > 0,
        is(24) && place == last && last > 0,
        is(24) && 0 < place && place < last,
        told.is_some_and(|of| of.lengths == of.room + 1),
        told.is_some_and(|of| of.longest <= of.room),
        is(24) && short > 1,
        is(24) && probes::has(sheet, kind::PROBE),
        is(24) && buffered(place),
        is(20) && short > 0,
        is(21) && short > 0,
        is(22) && short > 0,
        is(23) && short > 0,
    ]
}
