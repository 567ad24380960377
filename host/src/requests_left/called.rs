//! What a call of *follow* or *run* shows.

use super::reading::{held_at_once_and_again, holder, operations};
use super::reading::{script, slot_of, state_of, takes, waits, Seven};
use crate::compare::{Call, Outcome};
use crate::desk::figure;
use crate::judge::SCRATCH_ROOM;
use crate::layout::{board_row, kind, word};
use crate::sheet::{boards, kind_of};
use jamturret::lent::Answer;

/// What `called` finds: of sheets that are refused, and of reports.
pub const CALLED: [&str; REFUSED + REPORTED] = [
    "run, forgotten",
    "follow, forgotten",
    "forgotten, and scratch is short",
    "forgotten, and the order is wrong",
    "run, verdict 1, slots were taken",
    "follow, verdict 1, slots were taken",
    "verdict 1, a slot was taken again",
    "verdict 1, a buffered message is pending",
    "verdict 1, such a one was waited for",
    "verdict 2, at the wait for a receive",
    "verdict 2, at the wait for a send",
    "verdict 2, a receive is pending",
    "verdict 2, a message is pending",
    "verdict 0, at the wait for a receive",
    "verdict 0, a receive is pending",
    "verdict 0, a message is pending",
];

const REFUSED: usize = 4;
const REPORTED: usize = 12;

/// Which cases the outcome of a call makes.
pub fn called(sheet: &[u8], call: &Call, outcome: &Outcome) -> [bool; CALLED.len()] {
    let (mut first, mut second) = ([false; REFUSED], [false; REPORTED]);
    let Answer { number, place } = outcome.answer;
    match number {
        0 => second = reported(sheet, call, &outcome.desk.report),
        7 if Seven::at(sheet, place as usize) == Seven::Forgotten => {
            first = refused(sheet, call, outcome);
        }
        _ => {}
    }
    let found = [&first[..], &second].concat();
    found.try_into().expect("the parts of CALLED")
}

/// Refusals 8 and 9 would come later.
fn refused(sheet: &[u8], call: &Call, outcome: &Outcome) -> [bool; REFUSED] {
    let above = |rank: &u8| usize::from(*rank) >= boards(sheet);
    let wrong = match call {
        Call::Follow(order) => order.iter().any(above),
        Call::Run => false,
    };
    [
        *call == Call::Run,
        *call != Call::Run,
        outcome.desk.scratch.len() < SCRATCH_ROOM,
        wrong,
    ]
}

fn reported(sheet: &[u8], call: &Call, report: &[u8]) -> [bool; REPORTED] {
    let verdict = |number| report[0] == number;
    let run = *call == Call::Run;
    let taken = || operations(sheet).any(|index| takes(sheet, index));
    let again = || held_at_once_and_again(sheet).1;
    let buffered = || operations(sheet).filter(|&index| state_of(sheet, report, index) == 2);
    let for_receive = || waits_for(sheet, report, |kind| kind == kind::RECEIVE);
    let for_send = || waits_for(sheet, report, |kind| kind != kind::RECEIVE);
    let [messages, receives] = [10, 12].map(|at| word(report, at) > 0);
    [
        verdict(1) && run && taken(),
        verdict(1) && !run && taken(),
        verdict(1) && again(),
        verdict(1) && buffered().next().is_some(),
        verdict(1) && buffered().any(|index| takes(sheet, index)),
        verdict(2) && for_receive(),
        verdict(2) && for_send(),
        verdict(2) && receives,
        verdict(2) && messages,
        verdict(0) && for_receive(),
        verdict(0) && receives,
        verdict(0) && messages,
    ]
}

/// Whether a board has come to a wait for a pending operation of these kinds.
fn waits_for(sheet: &[u8], report: &[u8], wanted: fn(u8) -> bool) -> bool {
    let pending =
        |&index: &usize| wanted(kind_of(sheet, index)) && state_of(sheet, report, index) == 1;
    (0..boards(sheet)).any(|rank| {
        let script = script(sheet, rank);
        let next = script.start + figure(sheet, report, rank, board_row::FINISHED);
        let wait = script.contains(&next) && waits(sheet, next);
        let awaited = wait.then(|| holder(sheet, slot_of(sheet, next), next));
        awaited.flatten().filter(pending).is_some()
    })
}
