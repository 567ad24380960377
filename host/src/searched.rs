//! Searches of a waiting list: where in the list the earliest that fits stands,
//! and by which part of the fit alone a candidate was passed, the cases that
//! the differential test of jobs has to make (document 02, K3).

use crate::compare::{Call, Outcome};
use crate::judge;

/// What `called` finds: of a receive that searches the pending messages, then
/// of a send that searches the posted receives.
pub const CALLED: [&str; 2 * OF_LIST] = [
    "message at the head of several",
    "message at the end of several",
    "message before a later one that fits",
    "no message of several fits",
    "message passed by destination alone",
    "message passed by communicator alone",
    "message passed by source alone",
    "message passed by tag alone",
    "receive at the head of several",
    "receive at the end of several",
    "receive before a later one that fits",
    "no receive of several fits",
    "receive passed by its board alone",
    "receive passed by communicator alone",
    "receive passed by source alone",
    "receive passed by tag alone",
];

const OF_LIST: usize = 8;

/// Which cases the searches of a call make that was answered with success.
pub fn called(sheet: &[u8], call: &Call, outcome: &Outcome) -> [bool; CALLED.len()] {
    let mut found = [false; CALLED.len()];
    judge::each_search(sheet, call.order(outcome), |search| {
        let from = if search.receives { 0 } else { OF_LIST };
        for (found, made) in found[from..].iter_mut().zip(cases(&search.candidates)) {
            *found |= made;
        }
    });
    found
}

fn cases(candidates: &[[bool; 4]]) -> [bool; OF_LIST] {
    let fits = |parts: &[bool; 4]| *parts == [true; 4];
    let earliest = candidates.iter().position(fits);
    let (passed, rest) = candidates.split_at(earliest.unwrap_or(candidates.len()));
    let several = candidates.len() > 1;
    let alone = |part: usize| {
        let mut others = [true; 4];
        others[part] = false;
        passed.contains(&others)
    };
    [
        several && earliest == Some(0),
        several && rest.len() == 1,
        rest.iter().skip(1).any(fits),
        several && earliest.is_none(),
        alone(0),
        alone(1),
        alone(2),
        alone(3),
    ]
}
