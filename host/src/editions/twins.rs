//! A sheet of edition 1 and its twin: the sheet of edition 2 with the same boards
//! and operations, and with rooms of 0. Nothing is buffered in them, so the twin
//! is followed and run as the first, and its report is that one with four zero
//! bytes after each board row (document 02, K6).

use crate::compare::Outcome;
use crate::desk::{Desk, FILL};
use crate::layout::{board, header, word, Edition, HEADER_BYTES};
use crate::sheet::{add_word, boards, edition, mend_crc, set_word};
use jamturret::lent::Answer;

const FIRST: Edition = Edition::First;
const SECOND: Edition = Edition::Second;

/// The twin of a sheet of edition 1 whose header is right.
pub fn twin(sheet: &[u8]) -> Vec<u8> {
    let boards = boards(sheet);
    let (entries, rest) = sheet[HEADER_BYTES..].split_at(FIRST.entry_bytes() * boards);
    let mut twin = sheet[..HEADER_BYTES].to_vec();
    for entry in entries.chunks_exact(FIRST.entry_bytes()) {
        twin.extend(entry);
        twin.extend([0; 2]);
    }
    let moved = SECOND.entry_at(boards) - FIRST.entry_at(boards);
    for place in [header::OPERATION_TABLE, header::PAYLOAD] {
        add_word(&mut twin, place, moved as i32);
    }
    twin.extend(rest);
    mend_crc(&mut twin);
    twin
}

/// A right sheet of edition 2 with all its rooms set to 0.
pub fn without_rooms(sheet: &[u8]) -> Vec<u8> {
    let mut emptied = sheet.to_vec();
    for rank in 0..boards(sheet) {
        set_word(&mut emptied, SECOND.entry_at(rank) + board::ROOM, 0);
    }
    mend_crc(&mut emptied);
    emptied
}

/// The rooms of a sheet of edition 1 as its twin takes them: with a report that
/// is longer by what the board rows are.
fn lent_to_twin(boards: usize, before: &Desk) -> Desk {
    let mut desk = before.clone();
    desk.edition = SECOND;
    let longer = SECOND.board_row_at(boards) - FIRST.board_row_at(boards);
    desk.report.resize(before.report.len() + longer, FILL);
    desk
}

/// Asks an outcome of a sheet of edition 1 and that of the same call of its twin
/// for the law; `ask` gives the latter.
pub fn same_as_first(
    sheet: &[u8],
    before: &Desk,
    first: &Outcome,
    ask: impl FnOnce(&[u8], &Desk) -> Result<Outcome, String>,
) -> Result<(), String> {
    assert_eq!(edition(sheet), FIRST, "only such a sheet has a twin");
    let boards = boards(sheet);
    let second = ask(&twin(sheet), &lent_to_twin(boards, before))?;
    if second.answer != first.answer {
        let (one, other) = (first.answer, second.answer);
        return Err(format!("edition 1 {one}, edition 2 without rooms {other}"));
    }
    let (one, other) = (&first.desk, &second.desk);
    // What lies behind a report, and what a refusal leaves, is not the law's.
    let operations = usize::from(word(sheet, header::OPERATIONS));
    let [narrow, wide] = Edition::BOTH.map(|edition| edition.report_bytes(boards, operations));
    let report = || widened(boards, &one.report[..narrow]) == other.report[..wide];
    let same = [
        ("inbox", one.inbox == other.inbox),
        ("order out", one.order_out == other.order_out),
        ("scratch", one.scratch == other.scratch),
        ("report", first.answer != Answer::SUCCESS || report()),
    ];
    match same.iter().find(|(_, same)| !same) {
        Some((room, _)) => Err(format!("{room} of edition 1 and of 2 without rooms")),
        None => Ok(()),
    }
}

/// A report of edition 1 with four zero bytes after each board row.
fn widened(boards: usize, report: &[u8]) -> Vec<u8> {
    let (header, rest) = report.split_at(FIRST.board_row_at(0));
    let (rows, rest) = rest.split_at(FIRST.board_row_bytes() * boards);
    let mut wide = header.to_vec();
    for row in rows.chunks_exact(FIRST.board_row_bytes()) {
        wide.extend(row);
        wide.extend([0; 4]);
    }
    wide.extend(rest);
    wide
}
