//! What a call of *follow* or *run* shows.

use super::reported::{reported, REPORTED};
use super::sent::{sent, SENT};
use super::without_rooms;
use crate::command::{names, note};
use crate::compare::{self, Call, Outcome};
use crate::desk::Desk;
use crate::layout::{header, word, Edition};
use crate::sheet::{boards, edition, room_of};

const ALL: usize = SENT.len() + REPORTED.len() + CALLS.len();

/// What `called` finds.
pub const CALLED: [&str; ALL] = names([&SENT, &REPORTED, &CALLS]);

const CALLS: [&str; REFUSED + ACCEPTED] = [
    "8 at place 2, room for edition 1's report",
    "8 at place 2, one byte short, edition 2",
    "8 at place 1, edition 2",
    "8 at place 3, edition 2",
    "8 at place 4, edition 2",
    "refused 9, edition 2",
    "report room longer than edition 2's",
    "run of edition 2, all rooms 0",
    "run finishes, without rooms it hangs",
    "run hangs, rooms or not",
];

const REFUSED: usize = 6;
const ACCEPTED: usize = 4;

/// Which cases the outcome of a call makes; none if the sheet was refused.
pub fn called(sheet: &[u8], call: &Call, outcome: &Outcome) -> [bool; ALL] {
    let mut found = [false; ALL];
    let (steps, rest) = found.split_at_mut(SENT.len());
    let (reports, calls) = rest.split_at_mut(REPORTED.len());
    let number = outcome.answer.number;
    let second = edition(sheet) == Edition::Second;
    if number == 0 {
        note(steps, &sent(sheet, call.order(outcome)));
    }
    if second && number == 0 {
        let order = call.order(outcome);
        note(reports, &reported(sheet, order, &outcome.desk.report));
        note(&mut calls[REFUSED..], &accepted(sheet, call, outcome));
    } else if second && number >= 8 {
        note(calls, &refused(sheet, outcome));
    }
    found
}

fn report_bytes(sheet: &[u8], edition: Edition) -> usize {
    let operations = usize::from(word(sheet, header::OPERATIONS));
    edition.report_bytes(boards(sheet), operations)
}

fn refused(sheet: &[u8], outcome: &Outcome) -> [bool; REFUSED] {
    let short = |place| outcome.answer.number == 8 && outcome.answer.place == place;
    let lent = outcome.desk.report.len();
    [
        short(2) && lent >= report_bytes(sheet, Edition::First),
        short(2) && lent + 1 == report_bytes(sheet, Edition::Second),
        short(1),
        short(3),
        short(4),
        outcome.answer.number == 9,
    ]
}

fn accepted(sheet: &[u8], call: &Call, outcome: &Outcome) -> [bool; ACCEPTED] {
    let run = *call == Call::Run;
    let none = (0..boards(sheet)).all(|rank| room_of(sheet, rank) == 0);
    let verdict = |number| run && outcome.desk.verdict() == number;
    let hangs = || run_of(&without_rooms(sheet)) == 2;
    [
        outcome.desk.report.len() > report_bytes(sheet, Edition::Second),
        run && none,
        verdict(1) && !none && hangs(),
        verdict(2) && !none && hangs(),
    ]
}

/// The verdict of our judge's run of an accepted sheet.
fn run_of(sheet: &[u8]) -> u8 {
    let rooms = Desk::for_sheet(sheet);
    compare::efficient(sheet, &Call::Run, &rooms).desk.verdict()
}
