//! Puts one call of *follow* or *run* to the naive judge, the efficient one
//! and the library, and compares answers and every byte of the lent rooms.

use crate::desk::Desk;
use crate::guarded;
use crate::judge::{self, SCRATCH_ROOM};
use crate::random::Random;
use jamturret::lent::Answer;
use std::fmt;

#[derive(Clone, Debug, PartialEq, Eq)]
pub enum Call {
    Follow(Vec<u8>),
    Run,
}

impl Call {
    /// The order whose steps were taken, of a call that was answered with
    /// success.
    pub fn order<'a>(&'a self, outcome: &'a Outcome) -> &'a [u8] {
        match self {
            Call::Follow(order) => order,
            Call::Run => outcome.desk.order(),
        }
    }
}

impl fmt::Display for Call {
    fn fmt(&self, out: &mut fmt::Formatter) -> fmt::Result {
        match self {
            Call::Follow(order) => write!(out, "follow {order:?}"),
            Call::Run => write!(out, "run"),
        }
    }
}

/// An answer and the rooms after the call.
#[derive(Clone, Debug, PartialEq, Eq)]
pub struct Outcome {
    pub answer: Answer,
    pub desk: Desk,
}

/// The naive judge's outcome.
pub fn naive(sheet: &[u8], call: &Call, before: &Desk) -> Outcome {
    let mut desk = before.clone();
    let answer = match call {
        Call::Follow(order) => desk.naive_follow(sheet, order),
        Call::Run => desk.naive_run(sheet),
    };
    Outcome { answer, desk }
}

/// The efficient judge's outcome.
pub fn efficient(sheet: &[u8], call: &Call, before: &Desk) -> Outcome {
    let mut desk = before.clone();
    let answer = match call {
        Call::Follow(order) => judge::engine::follow(sheet, order, desk.rooms().0),
        Call::Run => {
            let (rooms, order_out) = desk.rooms();
            judge::engine::run(sheet, rooms, order_out)
        }
    };
    Outcome { answer, desk }
}

/// The library's outcome, or what it did to the guards.
pub fn library(
    sheet: &[u8],
    call: &Call,
    before: &Desk,
    random: &mut Random,
) -> Result<Outcome, String> {
    let mut desk = before.clone();
    let answer = match call {
        Call::Follow(order) => guarded::follow(sheet, order, &mut desk, random),
        Call::Run => guarded::run(sheet, &mut desk, random),
    }?;
    Ok(Outcome { answer, desk })
}

/// The outcome on which all three agree, or where one differs.
pub fn all(
    sheet: &[u8],
    call: &Call,
    before: &Desk,
    random: &mut Random,
) -> Result<Outcome, String> {
    let expected = naive(sheet, call, before);
    kept_as_promised(sheet, call, before, &expected)
        .map_err(|text| format!("naive judge: {text}"))?;
    expected
        .same(&efficient(sheet, call, before))
        .map_err(|text| format!("naive and efficient judge: {text}"))?;
    let theirs = library(sheet, call, before, random).map_err(|text| format!("library: {text}"))?;
    expected
        .same(&theirs)
        .map_err(|text| format!("judge and library: {text}"))?;
    Ok(theirs)
}

/// The same for tests: it panics where one differs.
pub fn agreed(sheet: &[u8], call: &Call, before: &Desk) -> Outcome {
    let outcome = all(sheet, call, before, &mut Random::new(sheet.len() as u64));
    outcome.unwrap_or_else(|text| panic!("{call}: {text}"))
}

/// The same in rooms of just the size that the sheet needs: what a success leaves
/// in them.
fn accepted(sheet: &[u8], call: &Call) -> Desk {
    let outcome = agreed(sheet, call, &Desk::for_sheet(sheet));
    assert_eq!(outcome.answer, Answer::SUCCESS, "{call}");
    outcome.desk
}

pub fn ran(sheet: &[u8]) -> Desk {
    accepted(sheet, &Call::Run)
}

pub fn followed(sheet: &[u8], order: &[u8]) -> Desk {
    accepted(sheet, &Call::Follow(order.to_vec()))
}

/// All agree on refusal 9 at this index.
pub fn refused(sheet: &[u8], order: &[u8], index: u64) {
    let call = Call::Follow(order.to_vec());
    let outcome = agreed(sheet, &call, &Desk::for_sheet(sheet));
    assert_eq!(outcome.answer, Answer::refusal(9, index), "{call}");
}

impl Outcome {
    /// The first difference, where there is one.
    fn same(&self, other: &Outcome) -> Result<(), String> {
        if self.answer != other.answer {
            return Err(format!("answers {} and {}", self.answer, other.answer));
        }
        for ((name, ours), (_, theirs)) in self.desk.by_name().iter().zip(other.desk.by_name()) {
            if *ours == theirs {
                continue;
            }
            let differs = (0..ours.len()).find(|&at| ours[at] != theirs[at]);
            return Err(match differs {
                Some(at) => format!("byte {at} of {name}: {} and {}", ours[at], theirs[at]),
                None => format!("lengths of {name}: {} and {}", ours.len(), theirs.len()),
            });
        }
        Ok(())
    }
}

/// Document 01, When the desk says no, the sentences below the table, asked
/// of an outcome directly.
fn kept_as_promised(
    sheet: &[u8],
    call: &Call,
    before: &Desk,
    after: &Outcome,
) -> Result<(), String> {
    let desk = &after.desk;
    let number = after.answer.number;
    let zero = || desk.scratch.iter().fold(0, |all, byte| all | byte) == 0;
    let scratch_right = match number {
        0 | 9 => zero() && desk.scratch.len() >= SCRATCH_ROOM,
        _ => desk.scratch == before.scratch,
    };
    if !scratch_right {
        return Err(format!("scratch after number {number}"));
    }
    // How much of each room a success may write.
    let (inbox, report, order_out) = match (number, judge::needs(sheet), call) {
        (0, Some(needs), Call::Follow(_)) => (needs.inbox, needs.report(), 0),
        (0, Some(needs), Call::Run) => (needs.inbox, needs.report(), desk.steps()),
        _ => (0, 0, 0),
    };
    let kept = desk.inbox[inbox..] == before.inbox[inbox..]
        && desk.report[report..] == before.report[report..]
        && desk.order_out[order_out..] == before.order_out[order_out..];
    match kept {
        true => Ok(()),
        false => Err(String::from(
            "a byte was written that has to keep its value",
        )),
    }
}
