//! Whether the order of steps can matter for a sheet (document 01, What is
//! pinned down, the first point): refusals 1 to 7, then 20 a receive or a probe
//! from any source, 21 a ready send, 22 a board whose attached buffer does not
//! cover all its buffered sends, 23 a status query (document 02, K9), 24 a board
//! whose room is above 0 and does not cover all its standard sends (K6). One
//! pass over the scripts.

use super::boards::Boards;
use super::check::check;
use super::header::Header;
use super::operations::{rows, Operation};
use crate::layout::{kind, ANY};
use jamturret::lent::Answer;

pub fn premise(sheet: &[u8]) -> Answer {
    let checked = check(sheet);
    if checked != Answer::SUCCESS {
        return checked;
    }
    let header = Header::read(sheet).ok().expect("check reads it");
    let boards = Boards::read(sheet, &header).ok().expect("check reads them");
    first(sheet, &header, &boards)
}

/// The first place of each number, and of these the lowest number.
fn first(sheet: &[u8], header: &Header, boards: &Boards) -> Answer {
    let (mut any_source, mut ready, mut query) = (None, None, None);
    let (mut uncovered, mut room) = (None, None);
    for (rank, board) in boards.in_rank_order().iter().enumerate() {
        let (mut buffered, mut standard) = (0, 0);
        for (index, row) in rows(header.operation_entries(sheet), board).enumerate() {
            let operation = Operation::read(row);
            let place = Some((board.first + index) as u64);
            match operation.kind {
                kind::RECEIVE | kind::PROBE if operation.peer == ANY => {
                    any_source = any_source.or(place);
                }
                kind::READY => ready = ready.or(place),
                kind::BUFFERED => buffered += operation.charge(),
                kind::STANDARD => standard += usize::from(operation.length),
                kind::QUERY => query = query.or(place),
                _ => (),
            }
        }
        if buffered > board.attached {
            uncovered = uncovered.or(Some(rank as u64));
        }
        if board.room > 0 && standard > board.room {
            room = room.or(Some(rank as u64));
        }
    }
    let of_transfers = [(20, any_source), (21, ready), (22, uncovered)];
    let places = of_transfers.into_iter().chain([(23, query), (24, room)]);
    let mut answers = places.filter_map(|(number, place)| Some(Answer::refusal(number, place?)));
    answers.next().unwrap_or(Answer::SUCCESS)
}
