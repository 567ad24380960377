//! Sheets that *check* refuses, from right ones: a field set to a wrong value
//! or to the edge of its range. The CRC is mended by the caller. Frozen: see
//! the module above.

use super::sheet::{mend_crc, set_word, word};
use super::sheet::{BOARDS, BOARD_TABLE, COMMUNICATORS, CRC, OPERATIONS};
use super::sheet::{OPERATION_TABLE, PAYLOAD, PAYLOAD_LENGTH, RECEIVE, WAIT};
use crate::random::Random;

pub type Damage = fn(&mut Vec<u8>, &mut Random);

/// Refusal 1.
pub fn short(sheet: &mut Vec<u8>, random: &mut Random) {
    sheet.truncate(random.below(16));
}

/// Refusal 2: P, C, N or L.
pub fn header(sheet: &mut Vec<u8>, random: &mut Random) {
    let (at, values) = random.pick(&[
        (BOARDS, [0, 17, 18, 257, 65_535]),
        (COMMUNICATORS, [0, 9, 10, 257, 65_535]),
        (OPERATIONS, [1025, 2048, 2049, 32_768, 65_535]),
        (PAYLOAD_LENGTH, [16_385, 16_640, 32_768, 49_152, 65_535]),
    ]);
    set_word(sheet, at, random.pick(&values));
}

/// Refusal 3: an offset, or bytes missing or left over.
pub fn offset_or_length(sheet: &mut Vec<u8>, random: &mut Random) {
    let near = random.pick(&[1, 2, 8, 16, 256, 65_535, 65_528, 65_520]);
    match random.below(5) {
        0 => add(sheet, BOARD_TABLE, near),
        1 => add(sheet, OPERATION_TABLE, near),
        2 => add(sheet, PAYLOAD, near),
        3 => sheet.extend([0xA5; 3]),
        _ => {
            let kept = sheet.len() - random.between(1, 8);
            sheet.truncate(kept.max(16));
        }
    }
}

/// Refusal 4, with the CRC mended before: a bit of it, or of any byte behind
/// the header.
pub fn crc(sheet: &mut Vec<u8>, random: &mut Random) {
    mend_crc(sheet);
    let at = match random.chance(50) {
        true => CRC + random.below(2),
        false => random.between(16, sheet.len() - 1),
    };
    sheet[at] ^= 1 << random.below(8);
}

/// Refusal 5: a field of a board entry, or the last count.
pub fn board(sheet: &mut Vec<u8>, random: &mut Random) {
    let boards = usize::from(word(sheet, BOARDS));
    let at = 16 + 8 * random.below(boards);
    let near = random.pick(&[1, 2, 256, 65_535]);
    match random.below(5) {
        0 => add(sheet, at, near),
        1 => add(sheet, at + 2, near),
        2 => set_word(sheet, at + 4, random.pick(&[16_384, 16_385, 65_535])),
        3 => set_word(sheet, at + 6, random.pick(&[16_384, 16_385, 65_535])),
        _ => add(sheet, 16 + 8 * (boards - 1) + 2, near),
    }
}

/// Refusal 6: a field of an operation. Kinds 7 and 8 among the wrong ones.
pub fn operation(sheet: &mut Vec<u8>, random: &mut Random) {
    let Some(at) = some_operation(sheet, random) else {
        return;
    };
    let boards = word(sheet, BOARDS);
    let communicators = word(sheet, COMMUNICATORS);
    let any = random.pick(&[
        0, 1, 31, 32, 256, 4096, 4097, 32_767, 32_768, 65_534, 65_535,
    ]);
    match random.below(9) {
        0 => sheet[at] = random.pick(&[0, 1, 2, 3, 4, 5, 6, 7, 8, 9, 255]),
        1 => sheet[at + 1] = random.pick(&[0, 1, 2, 255]),
        2 => set_word(sheet, at + 2, random.pick(&[boards, boards + 256, 65_535])),
        3 => set_word(sheet, at + 4, random.pick(&[communicators, 256, 65_535])),
        4 => set_word(sheet, at + 6, random.pick(&[1, 256])),
        5 => set_word(sheet, at + 8, any),
        6 => set_word(sheet, at + 10, any),
        7 => set_word(sheet, at + 12, any),
        _ => set_word(sheet, at + 14, any),
    }
}

/// Refusal 7: another slot, or the area of an earlier receive again.
pub fn request(sheet: &mut Vec<u8>, random: &mut Random) {
    for _ in 0..8 {
        let Some(at) = some_operation(sheet, random) else {
            return;
        };
        if sheet[at + 1] == 1 || sheet[at] == WAIT {
            let slot = random.pick(&[0, 1, 2, 5, 6, 31]);
            set_word(sheet, at + 14, slot);
            return;
        }
        if sheet[at] == RECEIVE {
            set_word(sheet, at + 10, 0);
        }
    }
}

/// What document 02's request K6 reads: board entries with a fifth number.
pub fn second_edition(sheet: &mut Vec<u8>, random: &mut Random) {
    let boards = usize::from(word(sheet, BOARDS));
    for rank in (0..boards).rev() {
        let room: u16 = random.pick(&[0, 0, 4, 40, 16_384, 16_384, 16_385]);
        let at = 16 + 8 * rank + 8;
        sheet.splice(at..at, room.to_le_bytes());
    }
    add(sheet, OPERATION_TABLE, 2 * boards as u16);
    add(sheet, PAYLOAD, 2 * boards as u16);
}

fn add(sheet: &mut [u8], at: usize, amount: u16) {
    let sum = word(sheet, at).wrapping_add(amount);
    set_word(sheet, at, sum);
}

/// Where a random operation starts, if there is one.
fn some_operation(sheet: &[u8], random: &mut Random) -> Option<usize> {
    let operations = usize::from(word(sheet, OPERATIONS));
    if operations == 0 {
        return None;
    }
    let table = 16 + 8 * usize::from(word(sheet, BOARDS));
    Some(table + 16 * random.below(operations))
}
