//! Damages to the bytes of a right sheet: a field set to a wrong value or to
//! the edge of its range. The CRC is mended by the caller, save in `crc`.

use super::{size, valid};
use crate::layout::{self, board, header as head, kind, operation as op, word};
use crate::layout::{Edition, HEADER_BYTES};
use crate::random::Random;
use crate::sheet::{add_word, edition, entry_at, entry_of, operation_at, set_word};

pub type Damage = fn(&mut Vec<u8>, &mut Random);

/// P, C, N or L, with the rest of the sheet left as it was.
pub fn header(sheet: &mut Vec<u8>, random: &mut Random) {
    let (at, limits) = random.pick(&[
        (head::BOARDS, [0, 1, 16, 17, 256]),
        (head::COMMUNICATORS, [0, 1, 8, 9, 256]),
        (head::OPERATIONS, [0, 1, 2048, 2049, 256]),
        (head::PAYLOAD_LENGTH, [0, 1, 16_384, 16_385, 256]),
    ]);
    match random.below(4) {
        0 => add_word(sheet, at, random.pick(&[-1, 1, 256, -256])),
        1 => set_word(sheet, at, random.word()),
        _ => set_word(sheet, at, random.pick(&limits)),
    }
}

/// One of the three offsets, or bytes missing or left over at the end.
pub fn offset_or_length(sheet: &mut Vec<u8>, random: &mut Random) {
    let near = [-16, -8, -2, -1, 1, 2, 8, 16, 256, -256, 0x4000];
    match random.below(7) {
        0 => add_word(sheet, head::BOARD_TABLE, random.pick(&near)),
        1 => add_word(sheet, head::OPERATION_TABLE, random.pick(&near)),
        2 => add_word(sheet, head::PAYLOAD, random.pick(&near)),
        3 => {
            let extra = random.between(1, 17);
            sheet.extend(random.bytes(extra));
        }
        4 | 5 => other_table(sheet, random),
        _ => {
            let kept = sheet.len().saturating_sub(random.between(1, 17));
            sheet.truncate(kept.max(HEADER_BYTES));
        }
    }
}

/// The operation table as entries of 8, 9 or 10 bytes would place it (document
/// 02, K6), at times with the payload's offset or the sheet's length of such
/// entries.
fn other_table(sheet: &mut Vec<u8>, random: &mut Random) {
    let boards = usize::from(word(sheet, head::BOARDS)).min(layout::MOST_BOARDS);
    let table = HEADER_BYTES + random.pick(&[8, 9, 9, 10]) * boards;
    let moved = table as i32 - i32::from(word(sheet, head::OPERATION_TABLE));
    let [mut offset, mut payload, mut length] = [true, false, false];
    match random.below(5) {
        0 => payload = true,
        1 => length = true,
        2 => (payload, length) = (true, true),
        3 => (offset, payload) = (false, true),
        _ => {}
    }
    if offset {
        set_word(sheet, head::OPERATION_TABLE, table as u16);
    }
    if payload {
        add_word(sheet, head::PAYLOAD, moved);
    }
    if length {
        let bytes = (sheet.len() as i32 + moved).max(HEADER_BYTES as i32);
        sheet.resize(bytes as usize, 0);
    }
}

/// A right sheet with a wrong CRC, made in the ways that programs get it
/// wrong, or with a bit flipped somewhere and the CRC not mended.
pub fn crc(random: &mut Random) -> Vec<u8> {
    let size = size::any(random);
    let mut sheet = valid::sheet(random, &size).bytes();
    let right = word(&sheet, head::CRC);
    match random.below(6) {
        0 => set_word(&mut sheet, head::CRC, right.swap_bytes()),
        1 => set_word(&mut sheet, head::CRC, !right),
        2 => set_word(&mut sheet, head::CRC, right ^ 1 << random.below(16)),
        3 => set_word(&mut sheet, head::CRC, random.word()),
        _ => flip_bit(&mut sheet, random),
    }
    sheet
}

pub fn flip_bit(sheet: &mut [u8], random: &mut Random) {
    if !sheet.is_empty() {
        let at = random.below(sheet.len());
        sheet[at] ^= 1 << random.below(8);
    }
}

/// P as the header says it, if the board table stands in the sheet.
fn boards(sheet: &[u8]) -> Option<usize> {
    let boards = usize::from(word(sheet, head::BOARDS));
    (boards > 0 && entry_at(sheet, boards) <= sheet.len()).then_some(boards)
}

/// One field of a board entry, or several that belong together.
pub fn board(sheet: &mut Vec<u8>, random: &mut Random) {
    let Some(boards) = boards(sheet) else { return };
    let rank = random.below(boards);
    let at = entry_at(sheet, rank);
    let near = random.pick(&[-1, 1, 2, 256]);
    if edition(sheet) == Edition::Second && random.chance(40) {
        return room(sheet, boards, rank, random);
    }
    match random.below(9) {
        0 => add_word(sheet, at + board::FIRST, near),
        1 => add_word(sheet, at + board::COUNT, near),
        2 => set_word(sheet, at + board::FIRST, random.word()),
        3 => set_word(sheet, at + board::COUNT, random.pick(&[0, 2048, 65_535])),
        4 => {
            let sizes = [0, 16_383, 16_384, 16_385, 32_768, 65_535];
            set_word(sheet, at + board::ATTACHED, random.pick(&sizes));
        }
        5 => set_word(sheet, at + board::INBOX, random.pick(&[0, 16_384, 65_535])),
        6 => inbox_total(sheet, boards, rank, random),
        7 => counts(sheet, boards, rank, near),
        _ => {
            let last = entry_at(sheet, boards - 1);
            add_word(sheet, last + board::COUNT, near);
        }
    }
}

/// A room at its limit or above it (document 02, K6), at times beside another
/// wrong number of the entry, or of another one.
fn room(sheet: &mut [u8], boards: usize, rank: usize, random: &mut Random) {
    let rank = random.pick(&[0, boards - 1, rank]);
    let [at, other] = [rank, random.below(boards)].map(|rank| entry_at(sheet, rank));
    let sizes = [
        16_383, 16_384, 16_384, 16_385, 16_385, 16_385, 32_768, 65_535,
    ];
    set_word(sheet, at + board::ROOM, random.pick(&sizes));
    let beside = random.pick(&[at, other]);
    match random.below(8) {
        0 => set_word(sheet, beside + board::ATTACHED, 16_385),
        1 => add_word(sheet, beside + board::FIRST, 1),
        2 => set_word(sheet, beside + board::INBOX, 16_385),
        3 => set_word(sheet, other + board::ROOM, 16_385),
        _ => {}
    }
}

/// Brings the running total at a rank to the limit or just above it.
fn inbox_total(sheet: &mut [u8], boards: usize, rank: usize, random: &mut Random) {
    let inbox = |of: usize| entry_of(sheet, of, board::INBOX);
    let before: usize = (0..rank).map(inbox).sum();
    let after: usize = (rank + 1..boards).map(inbox).sum();
    let beside = if random.chance(50) {
        before
    } else {
        before + after
    };
    let wanted = layout::MOST_INBOX_TOTAL + random.below(2);
    if let Some(size) = wanted.checked_sub(beside) {
        let at = entry_at(sheet, rank);
        set_word(sheet, at + board::INBOX, size as u16);
    }
}

/// Changes a count and every later first operation with it, so that only the
/// total is wrong.
fn counts(sheet: &mut [u8], boards: usize, rank: usize, amount: i32) {
    let of = edition(sheet);
    add_word(sheet, of.entry_at(rank) + board::COUNT, amount);
    for later in rank + 1..boards {
        add_word(sheet, of.entry_at(later) + board::FIRST, amount);
    }
}

/// Where a random operation starts, if there is one.
fn some_operation(sheet: &[u8], random: &mut Random) -> Option<usize> {
    boards(sheet)?;
    let operations = usize::from(word(sheet, head::OPERATIONS));
    if operations == 0 || operation_at(sheet, operations) > sheet.len() {
        return None;
    }
    let index = match random.below(6) {
        0 => 0,
        1 => operations - 1,
        _ => random.below(operations),
    };
    Some(operation_at(sheet, index))
}

/// One field of an operation.
pub fn operation(sheet: &mut Vec<u8>, random: &mut Random) {
    let Some(at) = some_operation(sheet, random) else {
        return;
    };
    let boards = word(sheet, head::BOARDS);
    let communicators = word(sheet, head::COMMUNICATORS);
    match random.below(11) {
        0 => sheet[at + op::KIND] = random.pick(&[0, 1, 2, 3, 4, 5, 6, 7, 8, 9, 255]),
        1 => sheet[at + op::FLAG] = random.pick(&[0, 1, 2, 255]),
        2 => {
            let peers = [0, boards - 1, boards, boards + 256, 65_534, 65_535];
            set_word(sheet, at + op::PEER, random.pick(&peers));
        }
        3 => {
            let around = [communicators.wrapping_sub(1), communicators, 256, 65_535];
            set_word(sheet, at + op::COMMUNICATOR, random.pick(&around));
        }
        4 => set_word(sheet, at + op::ZERO, random.pick(&[1, 256, 65_535])),
        5 => {
            let tags = [0, 32_767, 32_768, 65_534, 65_535];
            set_word(sheet, at + op::TAG, random.pick(&tags));
        }
        6 | 7 => end_of_area(sheet, at, random),
        8 => {
            let lengths = [0, 1, 4095, 4096, 4097, 65_535];
            set_word(sheet, at + op::LENGTH, random.pick(&lengths));
        }
        9 => slot(sheet, random),
        _ => set_word(
            sheet,
            at + op::SLOT,
            random.pick(&[0, 1, 31, 32, 256, 65_535]),
        ),
    }
}

/// Another small slot, which is a right field and may break the slot rule.
pub fn slot(sheet: &mut Vec<u8>, random: &mut Random) {
    if let Some(at) = some_operation(sheet, random) {
        let names = [kind::WAIT, kind::QUERY].contains(&sheet[at + op::KIND]);
        if names || sheet[at + op::FLAG] == 1 {
            set_word(sheet, at + op::SLOT, random.below(layout::SLOTS) as u16);
        }
    }
}

/// Offset plus length at the end of a payload or inbox, one above, or above
/// 65,535.
fn end_of_area(sheet: &mut [u8], at: usize, random: &mut Random) {
    let boards = usize::from(word(sheet, head::BOARDS));
    let room = match random.chance(50) {
        true => word(sheet, head::PAYLOAD_LENGTH),
        false => entry_of(sheet, random.below(boards), board::INBOX) as u16,
    };
    let length = word(sheet, at + op::LENGTH);
    let end = room.wrapping_sub(length);
    let offsets = [end, end.wrapping_add(1), 65_535, length.wrapping_neg()];
    match random.below(3) {
        0 => set_word(sheet, at + op::LENGTH, room.wrapping_add(1)),
        _ => set_word(sheet, at + op::OFFSET, random.pick(&offsets)),
    }
}
