//! Requests that are left: slots that no wait frees before their script ends
//! (document 02, K7). The cases around them that the differential tests have
//! to make, and the promise that a finished job has left none.
//!
//! - `reading`: slots and areas, read from the bytes of a sheet without a judge.
//! - `asked`: what an answer of check and premise shows.
//! - `called`: what a call of follow or run shows.

mod asked;
mod called;
pub mod reading;

use crate::layout::{kind, word};
use crate::sheet::{kind_of, room_of};

pub use asked::{asked, ASKED};
pub use called::{called, CALLED};

/// No-request-left (document 02, K7): in a report with verdict 1 every receive
/// is matched, every send too, or in a buffer or a room (K6), every other
/// operation is finished, and no pending receive is counted.
pub fn no_request_left(sheet: &[u8], report: &[u8]) -> Result<(), String> {
    if report[0] != 1 {
        return Ok(());
    }
    let kept = |index: &usize| {
        let state = reading::state_of(sheet, report, *index);
        match kind_of(sheet, *index) {
            kind::WAIT | kind::PROBE | kind::QUERY => state == 5,
            kind::BUFFERED => state == 2 || state == 3,
            kind::STANDARD if state == 2 => room_of(sheet, reading::rank_of(sheet, *index)) > 0,
            _ => state == 3,
        }
    };
    let mut operations = 0..usize::from(word(report, 8));
    let pending = word(report, 12);
    match operations.find(|index| !kept(index)) {
        Some(index) => Err(format!("No-request-left: state of operation {index}")),
        None if pending > 0 => Err(format!("No-request-left: {pending} pending receives")),
        None => Ok(()),
    }
}
