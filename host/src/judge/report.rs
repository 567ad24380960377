//! The report's bytes (document 01, The report; board rows of edition 2:
//! document 02, K6).

use super::job::{Job, State, Stop};
use crate::layout::Edition;

const NONE: u16 = 65_535;

pub fn bytes(job: &Job) -> Vec<u8> {
    let mut out = Vec::new();
    header(job, &mut out);
    for rank in 0..job.boards.len() {
        board_row(job, rank, &mut out);
    }
    for index in 0..job.states.len() {
        operation_row(job, index, &mut out);
    }
    out
}

fn words(out: &mut Vec<u8>, numbers: &[usize]) {
    for &number in numbers {
        let number = u16::try_from(number).expect("every number of a report fits");
        out.extend(number.to_le_bytes());
    }
}

fn verdict(job: &Job) -> u8 {
    let mut ranks = 0..job.boards.len();
    match job.stop {
        Some((Stop::Overflow, _)) => 3,
        Some((Stop::NotReady, _)) => 4,
        None if ranks.clone().all(|rank| job.finished(rank)) => 1,
        None if !ranks.any(|rank| job.able(rank)) => 2,
        None => 0,
    }
}

fn header(job: &Job, out: &mut Vec<u8>) {
    let (rank, operation) = match job.stop {
        Some((_, index)) => (job.script.rank_of[index] as u8, index),
        None => (255, usize::from(NONE)),
    };
    out.extend([verdict(job), rank]);
    words(
        out,
        &[
            operation,
            job.steps,
            job.boards.len(),
            job.states.len(),
            job.messages.len(),
            job.receives.len(),
            job.cut_messages,
        ],
    );
}

fn board_row(job: &Job, rank: usize, out: &mut Vec<u8>) {
    let board = &job.boards[rank];
    let (attached, standard) = (board.attached, board.standard);
    words(out, &[board.finished, attached.in_use, attached.peak]);
    let state = match (job.finished(rank), job.able(rank)) {
        (true, _) => 2,
        (false, true) => 1,
        (false, false) => 0,
    };
    out.extend([state, 0]);
    if job.script.edition == Edition::Second {
        words(out, &[standard.in_use, standard.peak]);
    }
}

fn operation_row(job: &Job, index: usize, out: &mut Vec<u8>) {
    let (state, cut, partner) = match job.states[index] {
        State::NotEntered => (0, false, None),
        State::Pending => (1, false, None),
        State::Buffered => (2, false, None),
        State::Matched { partner, cut } => (3, cut, Some(partner)),
        State::WaitFinished | State::Probed { .. } | State::Queried { .. } => (5, false, None),
    };
    out.extend([state, u8::from(cut)]);
    words(out, &[partner.unwrap_or(usize::from(NONE))]);
    let (source, tag, length) = status(job, index);
    words(out, &[source, usize::from(tag), usize::from(length), 0]);
}

/// Source, tag and length: of a matched receive and of a finished probe the
/// message's; the length of a query is 1 where it found the operation complete
/// (document 02, K9).
fn status(job: &Job, index: usize) -> (usize, u16, u16) {
    let of_message = |message: usize| {
        let sent = &job.script.operations[message];
        (job.script.rank_of[message], sent.tag, sent.length)
    };
    match job.states[index] {
        State::Matched { partner, .. } if job.script.is_receive(index) => of_message(partner),
        State::Probed { message } => of_message(message),
        State::Queried { complete } => (usize::from(NONE), NONE, u16::from(complete)),
        _ => (usize::from(NONE), NONE, 0),
    }
}
