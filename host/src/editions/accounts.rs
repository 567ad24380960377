//! What holds of the accounts of every report: what a board has in use is what
//! its messages in state 2 are charged, and those are buffered sends, or standard
//! sends of a board with a room (document 02, K2 and K6).

use crate::desk::{figure, row};
use crate::layout::board_row::{IN_USE, PEAK, STANDARD_PEAK, STANDARD_USE, STATE};
use crate::layout::{board, kind, operation, word, Edition, BSEND_OVERHEAD};
use crate::requests_left::reading::script;
use crate::sheet::{boards, edition, entry_of, field_of, kind_of, room_of};

/// Reads the accounts of the report on an accepted sheet.
pub fn accounts_agree(sheet: &[u8], report: &[u8]) -> Result<(), String> {
    for rank in 0..boards(sheet) {
        agrees(sheet, report, rank).map_err(|text| format!("accounts of rank {rank}: {text}"))?;
    }
    Ok(())
}

fn agrees(sheet: &[u8], report: &[u8], rank: usize) -> Result<(), &'static str> {
    let number = |place| figure(sheet, report, rank, place);
    let size = entry_of(sheet, rank, board::ATTACHED);
    let room = room_of(sheet, rank);
    let (mut attached, mut standard) = (0, 0);
    for index in script(sheet, rank) {
        let length = field_of(sheet, index, operation::LENGTH);
        match (row(sheet, report, index)[0], kind_of(sheet, index)) {
            (2, kind::BUFFERED) => attached += length + BSEND_OVERHEAD,
            (2, kind::STANDARD) if room > 0 => standard += length,
            (2, _) => return Err("state 2 of another operation"),
            _ => {}
        }
    }
    if number(IN_USE) != attached {
        return Err("buffer in use");
    }
    within(attached, number(PEAK), size).ok_or("peak")?;
    if word(report, edition(sheet).board_row_at(rank) + STATE) > 2 {
        return Err("state, or the zero behind it");
    }
    if edition(sheet) == Edition::First {
        return Ok(());
    }
    if number(STANDARD_USE) != standard {
        return Err("standard use");
    }
    within(standard, number(STANDARD_PEAK), room).ok_or("standard peak")
}

/// A peak is at least what is in use and at most what there is.
fn within(in_use: usize, peak: usize, most: usize) -> Option<()> {
    (in_use..=most).contains(&peak).then_some(())
}
