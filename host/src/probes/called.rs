//! What a call of *follow* or *run* shows.

use super::has;
use super::pairs::{paired, PAIRS};
use super::queried::{queried, QUERIED};
use super::standing::{refused, standing, REFUSED, STANDING};
use super::told::{told, TOLD};
use crate::command::names;
use crate::compare::{Call, Outcome};
use crate::judge;
use crate::layout::kind;

const ALL: usize = TOLD.len() + PAIRS.len() + QUERIED.len() + STANDING.len() + REFUSED.len();

/// What `called` finds.
pub const CALLED: [&str; ALL] = names([&TOLD, &PAIRS, &QUERIED, &STANDING, &REFUSED]);

/// Which cases the outcome of a call makes.
pub fn called(sheet: &[u8], call: &Call, outcome: &Outcome) -> [bool; ALL] {
    let answer = outcome.answer;
    let spoken_of = || has(sheet, kind::PROBE) || has(sheet, kind::QUERY);
    match (answer.number, call) {
        (0, _) if spoken_of() => accepted(sheet, call.order(outcome), &outcome.desk.report),
        (9, Call::Follow(order)) if spoken_of() => {
            let mut found = [false; ALL];
            let cases = refused(sheet, order, answer.place as usize);
            found[ALL - REFUSED.len()..].copy_from_slice(&cases);
            found
        }
        _ => [false; ALL],
    }
}

fn accepted(sheet: &[u8], order: &[u8], report: &[u8]) -> [bool; ALL] {
    let after = judge::after(sheet, order);
    let found = [
        &told(sheet, order)[..],
        &paired(sheet, order, report),
        &queried(sheet, report),
        &standing(sheet, report, &after),
        &[false; REFUSED.len()],
    ];
    found.concat().try_into().expect("the parts of CALLED")
}
