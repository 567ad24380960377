//! *Follow* and *run* as an ordinary program that is meant to be timed: the
//! whole job stands in the lent scratch and nothing on the heap. It keeps its
//! entries as the library does, so that a comparison of times is one of code
//! and not of data structures.
//!
//! - `view`: the tables of an accepted sheet.
//! - `scratch`: where the parts of a job stand in scratch.
//! - `list`: a list of pending operations.
//! - `job`: able, and the steps.
//! - `finish`: deliveries and the report.
//!
//! A refusal 9 may come late and leaves the inboxes untouched, so steps do not
//! touch them. Deliveries are made at the end from the rows, in the order of
//! the operations: two receives of a board share bytes only if the first was
//! matched before the second was entered (document 01, Areas), so a later
//! operation's bytes are also the later ones.

mod finish;
mod job;
mod list;
mod scratch;
mod view;

use self::job::Job;
use self::view::View;
use super::check::check;
use super::rooms::Rooms;
use jamturret::lent::Answer;

pub fn follow(sheet: &[u8], order: &[u8], rooms: Rooms) -> Answer {
    let view = match accepted(sheet, &rooms, None) {
        Ok(view) => view,
        Err(answer) => return answer,
    };
    let mut job = Job::start(&view, rooms.scratch);
    let answer = match refused(&mut job, order) {
        Some(index) => Answer::refusal(9, index as u64),
        None => {
            finish::deliver(&job, rooms.inbox);
            finish::report(&job, rooms.report);
            Answer::SUCCESS
        }
    };
    rooms.scratch.fill(0);
    answer
}

/// Chooses the lowest able rank at each step and writes the order down.
pub fn run(sheet: &[u8], rooms: Rooms, order_out: &mut [u8]) -> Answer {
    let view = match accepted(sheet, &rooms, Some(order_out.len())) {
        Ok(view) => view,
        Err(answer) => return answer,
    };
    let mut job = Job::start(&view, rooms.scratch);
    while let Some(rank) = (0..view.boards().len()).find(|&rank| job.able(rank)) {
        order_out[job.steps] = rank as u8;
        job.step(rank);
    }
    finish::deliver(&job, rooms.inbox);
    finish::report(&job, rooms.report);
    rooms.scratch.fill(0);
    Answer::SUCCESS
}

/// Refusals 1 to 7, then 8.
fn accepted<'a>(
    sheet: &'a [u8],
    rooms: &Rooms,
    order_out: Option<usize>,
) -> Result<View<'a>, Answer> {
    let checked = check(sheet);
    if checked != Answer::SUCCESS {
        return Err(checked);
    }
    let view = View::read(sheet);
    match rooms.short(&view.needs(), order_out) {
        Some(place) => Err(Answer::refusal(8, place)),
        None => Ok(view),
    }
}

/// Takes the steps of an order up to the first that is refused.
fn refused(job: &mut Job, order: &[u8]) -> Option<usize> {
    for (index, &rank) in order.iter().enumerate() {
        let rank = usize::from(rank);
        if !job.able(rank) {
            return Some(index);
        }
        job.step(rank);
    }
    None
}
