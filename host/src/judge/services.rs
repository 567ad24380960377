//! *Follow* and *run* with refusals 8 and 9 (document 01, When the desk says
//! no). After a refusal inbox, report and order out are untouched; scratch is
//! untouched by 1 to 8 and all zero after 9 or success.

use super::check::check;
use super::job::Job;
use super::report;
use super::rooms::{Needs, Rooms};
use super::script::Script;
use jamturret::lent::Answer;

/// Longer room is accepted and its excess untouched.
fn write(rooms: &mut Rooms, job: &Job) {
    rooms.inbox[..job.inbox.len()].copy_from_slice(&job.inbox);
    let bytes = report::bytes(job);
    rooms.report[..bytes.len()].copy_from_slice(&bytes);
}

pub fn follow(sheet: &[u8], order: &[u8], mut rooms: Rooms) -> Answer {
    let checked = check(sheet);
    if checked != Answer::SUCCESS {
        return checked;
    }
    let script = Script::read(sheet);
    if let Some(place) = rooms.short(&script.needs(), None) {
        return Answer::refusal(8, place);
    }
    rooms.scratch.fill(0);
    let mut job = Job::new(&script, &rooms.inbox[..script.inbox_total()]);
    for (index, &rank) in order.iter().enumerate() {
        let rank = usize::from(rank);
        if rank >= job.boards.len() || !job.able(rank) {
            return Answer::refusal(9, index as u64);
        }
        job.step(rank);
    }
    write(&mut rooms, &job);
    Answer::SUCCESS
}

/// Chooses the lowest able rank at each step and writes the order down.
pub fn run(sheet: &[u8], mut rooms: Rooms, order_out: &mut [u8]) -> Answer {
    let checked = check(sheet);
    if checked != Answer::SUCCESS {
        return checked;
    }
    let script = Script::read(sheet);
    if let Some(place) = rooms.short(&script.needs(), Some(order_out.len())) {
        return Answer::refusal(8, place);
    }
    rooms.scratch.fill(0);
    let mut job = Job::new(&script, &rooms.inbox[..script.inbox_total()]);
    while let Some(rank) = (0..job.boards.len()).find(|&rank| job.able(rank)) {
        order_out[job.steps] = rank as u8;
        job.step(rank);
    }
    write(&mut rooms, &job);
    Answer::SUCCESS
}

/// What an accepted sheet needs; none if *check* refuses it.
pub fn needs(sheet: &[u8]) -> Option<Needs> {
    (check(sheet) == Answer::SUCCESS).then(|| Script::read(sheet).needs())
}
