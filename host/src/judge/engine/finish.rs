//! What an accepted order leaves: deliveries and the report, both made from
//! the rows.

use super::job::{set_word, state, Job};
use crate::layout::board_row::{FINISHED, STATE};
use crate::layout::{board, kind, operation as at, word, REPORT_HEADER_BYTES};

/// Copies the message of every matched receive. A delivery is lent its own
/// area and nothing else (document 01, Delivery).
pub fn deliver(job: &Job, inbox: &mut [u8]) {
    let mut rest = inbox;
    for (rank, entry) in job.view.boards().iter().enumerate() {
        let (own, others) = rest.split_at_mut(usize::from(word(entry, board::INBOX)));
        rest = others;
        let first = job.view.first(rank);
        for index in first..first + job.view.count(rank) {
            let row = &job.rows[index];
            let operation = &job.view.operations[index];
            if operation[at::KIND] == kind::RECEIVE && row[0] == state::MATCHED {
                let start = usize::from(word(operation, at::OFFSET));
                let capacity = usize::from(word(operation, at::LENGTH));
                let message = usize::from(word(row, 2));
                copy(job, message, &mut own[start..start + capacity]);
            }
        }
    }
}

/// Of a message that is longer than the area, its front (document 02, K5).
fn copy(job: &Job, message: usize, area: &mut [u8]) {
    let sent = &job.view.operations[message];
    let from = usize::from(word(sent, at::OFFSET));
    let length = usize::from(word(sent, at::LENGTH)).min(area.len());
    area[..length].copy_from_slice(&job.view.payload[from..from + length]);
}

/// Document 01, The report; board rows of edition 2: document 02, K6.
pub fn report(job: &Job, room: &mut [u8]) {
    let bytes = job.view.edition.board_row_bytes();
    let (header, rest) = room.split_at_mut(REPORT_HEADER_BYTES);
    let (boards, rest) = rest.split_at_mut(bytes * job.places.len());
    let mut able = false;
    let mut all_finished = true;
    for (rank, row) in boards.chunks_exact_mut(bytes).enumerate() {
        let state = board_row(job, rank, row);
        able |= state == 1;
        all_finished &= state == 2;
    }
    let rows = job.rows.as_flattened();
    rest[..rows.len()].copy_from_slice(rows);
    let (verdict, rank, operation) = match job.stop {
        Some(stop) => (stop.verdict, stop.rank, stop.operation),
        None if all_finished => (1, 255, 65_535),
        None if !able => (2, 255, 65_535),
        None => (0, 255, 65_535),
    };
    header[0] = verdict;
    header[1] = rank;
    let counts = [job.messages.len(), job.receives.len()].map(|count| count as u16);
    set_word(header, 2, operation);
    set_word(header, 4, job.steps as u16);
    set_word(header, 6, job.places.len() as u16);
    set_word(header, 8, job.rows.len() as u16);
    set_word(header, 10, counts[0]);
    set_word(header, 12, counts[1]);
    set_word(header, 14, job.cut);
}

/// Writes a board's row; its state: 2 finished, 1 able, 0 neither.
fn board_row(job: &Job, rank: usize, row: &mut [u8]) -> u8 {
    let place = &job.places[rank];
    let finished = word(place, FINISHED);
    let state = match usize::from(finished) == job.view.count(rank) {
        true => 2,
        false => u8::from(job.able(rank)),
    };
    // Its numbers stand in the place as they do in the row.
    row.copy_from_slice(&place[..row.len()]);
    row[STATE] = state;
    state
}
