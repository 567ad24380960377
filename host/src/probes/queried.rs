//! What the rows of queries in a report show.

use crate::command::note;
use crate::desk::{figure, row};
use crate::layout::{board_row, kind, word};
use crate::requests_left::reading::{holder, operations, queries};
use crate::requests_left::reading::{rank_of, script, slot_of, state_of, takes, waits};
use crate::sheet::kind_of;

pub const QUERIED: [&str; 12] = [
    "query of a send, not complete",
    "query of a send, complete",
    "query of a buffered send, pending",
    "query of a receive, not complete",
    "query of a receive, complete",
    "query of a slot taken again",
    "query, then its wait",
    "query, not complete, then its wait",
    "verdict 2, at the wait behind a query",
    "two queries of one, both not complete",
    "two queries of one, complete at last",
    "two queries of one, both complete",
];

/// So many of them are of one query, the others of two.
const OF_ONE: usize = 9;

/// A finished query.
struct Query {
    index: usize,
    /// The operation that holds its slot.
    of: usize,
    complete: bool,
}

/// Which cases a report on an accepted sheet shows.
pub fn queried(sheet: &[u8], report: &[u8]) -> [bool; QUERIED.len()] {
    let mut found = [false; QUERIED.len()];
    let all = finished(sheet, report);
    for (place, query) in all.iter().enumerate() {
        note(&mut found, &alone(sheet, report, query));
        let again = all[place + 1..].iter().filter(|other| other.of == query.of);
        for other in again {
            let both = (query.complete, other.complete);
            let states = [(false, false), (false, true), (true, true)];
            note(&mut found[OF_ONE..], &states.map(|states| states == both));
        }
    }
    found
}

fn finished(sheet: &[u8], report: &[u8]) -> Vec<Query> {
    let rows = operations(sheet).filter(|&index| queries(sheet, index));
    let ended = rows.filter(|&index| state_of(sheet, report, index) == 5);
    let query = |index| Query {
        index,
        of: holder(sheet, slot_of(sheet, index), index).expect("the sheet is right"),
        complete: word(row(sheet, report, index), 8) == 1,
    };
    ended.map(query).collect()
}

fn alone(sheet: &[u8], report: &[u8], query: &Query) -> [bool; OF_ONE] {
    let slot = slot_of(sheet, query.index);
    let names = |&at: &usize| waits(sheet, at) && slot_of(sheet, at) == slot;
    let rank = rank_of(sheet, query.index);
    let own = script(sheet, rank);
    let freed = (query.index..own.end)
        .find(names)
        .expect("the sheet is right");
    let waited = state_of(sheet, report, freed) == 5;
    let finished = figure(sheet, report, rank, board_row::FINISHED);
    let kind = kind_of(sheet, query.of);
    let (buffered, receive) = (kind == kind::BUFFERED, kind == kind::RECEIVE);
    let taken = |at: usize| takes(sheet, at) && slot_of(sheet, at) == slot;
    let (no, yes) = (!query.complete, query.complete);
    [
        no && !receive,
        yes && !receive && !buffered,
        yes && buffered && state_of(sheet, report, query.of) == 2,
        no && receive,
        yes && receive,
        (own.start..query.of).any(taken),
        waited,
        waited && no,
        report[0] == 2 && own.start + finished == freed,
    ]
}
