//! The second edition (document 02, K6): rooms for standard sends on the boards
//! of right sheets.

use crate::layout::{kind, Edition, MOST_ROOM};
use crate::random::Random;
use crate::sheet::{Board, Sheet};

/// Makes a sheet one of edition 2. With `covering`, each room is 0 or covers all
/// standard sends of its board, so that no room lets the order of steps matter.
pub fn add_rooms(sheet: &mut Sheet, covering: bool, random: &mut Random) {
    sheet.edition = Edition::Second;
    let none = random.chance(8);
    for board in &mut sheet.boards {
        board.room = match none {
            true => 0,
            false => room(board, covering, random),
        };
    }
}

/// Often just enough for all, at times nothing or the largest; else one byte
/// short, enough for the longest alone, or little: 1 holds empty messages.
fn room(board: &Board, covering: bool, random: &mut Random) -> u16 {
    let all = board.standard_lengths();
    let enough = all.max(1);
    let size = match random.below(10) {
        0 | 1 => 0,
        _ if covering && all > MOST_ROOM => 0,
        2..=4 => enough,
        5 => MOST_ROOM,
        _ if covering => random.between(enough, MOST_ROOM),
        6 => all.saturating_sub(1),
        7 => longest_standard(board),
        8 => 1,
        _ => random.between(0, all),
    };
    size.min(MOST_ROOM) as u16
}

fn longest_standard(board: &Board) -> usize {
    let sends = board.script.iter();
    let standard = sends.filter(|each| each.kind == kind::STANDARD);
    standard
        .map(|send| usize::from(send.length))
        .max()
        .unwrap_or(0)
}
