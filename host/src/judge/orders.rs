//! Makes orders of able ranks for tests, one step at a time.

use super::job::Job;
use super::script::Script;
use crate::layout::kind;
use std::ops::Range;

/// The order that `choose` makes of an accepted sheet: it is asked before
/// each step which of the able ranks steps, and stops with none. The order
/// ends by itself when nobody is able.
pub fn order_by(sheet: &[u8], mut choose: impl FnMut(&[u8]) -> Option<u8>) -> Vec<u8> {
    let script = Script::read(sheet);
    let mut job = walk(&script, &[], |_, _, _| {});
    let mut order = Vec::new();
    loop {
        let able = able(&job);
        if able.is_empty() {
            return order;
        }
        let Some(rank) = choose(&able) else {
            return order;
        };
        order.push(rank);
        job.step(usize::from(rank));
    }
}

/// Takes the steps of an order that follow accepts. `see` is shown the job
/// before each of them, with how many were taken and whose step comes next.
fn walk<'a>(
    script: &'a Script<'a>,
    order: &[u8],
    mut see: impl FnMut(&Job, usize, usize),
) -> Job<'a> {
    let mut job = Job::new(script, &vec![0; script.inbox_total()]);
    for (steps, &rank) in order.iter().enumerate() {
        see(&job, steps, usize::from(rank));
        job.step(usize::from(rank));
    }
    job
}

/// Where an order that follow accepts leaves the boards.
pub struct After {
    /// The ranks that are able.
    pub able: Vec<u8>,
    /// The operation that each board has come to; none if it is finished.
    pub at: Vec<Option<usize>>,
    /// The operation that the next step of each board initiates, if it does.
    pub initiated: Vec<Option<usize>>,
    /// That is a standard send which its board's room does not hold.
    pub lacks_room: Vec<bool>,
    /// A step has stopped the job.
    pub stopped: bool,
}

impl After {
    fn of(job: &Job) -> After {
        let ranks = 0..job.boards.len();
        let lacks_room =
            |rank| initiated(job, rank).is_some_and(|index| job.lacks_room(rank, index));
        After {
            able: able(job),
            at: ranks.clone().map(|rank| job.at(rank)).collect(),
            initiated: ranks.clone().map(|rank| initiated(job, rank)).collect(),
            lacks_room: ranks.map(lacks_room).collect(),
            stopped: job.stop.is_some(),
        }
    }
}

pub fn after(sheet: &[u8], order: &[u8]) -> After {
    let script = Script::read(sheet);
    After::of(&walk(&script, order, |_, _, _| {}))
}

/// Where each beginning of an order that follow accepts leaves the boards, from
/// one length on up to another.
pub fn after_each(sheet: &[u8], order: &[u8], lengths: Range<usize>) -> Vec<After> {
    let script = Script::read(sheet);
    let mut all = Vec::new();
    walk(&script, &order[..lengths.end], |job, steps, _| {
        if lengths.contains(&steps) {
            all.push(After::of(job));
        }
    });
    all
}

/// The next steps of two able ranks, after an order that follow accepts.
pub struct Neighbours {
    /// The operation that each rank has come to.
    pub at: [usize; 2],
    /// The operation that each step initiates, if it does.
    pub initiated: [Option<usize>; 2],
    /// A step stops the job, in the one order of the two or in the other.
    pub stop: bool,
}

pub fn neighbours(sheet: &[u8], order: &[u8], ranks: [u8; 2]) -> Neighbours {
    let script = Script::read(sheet);
    let ranks = ranks.map(usize::from);
    let job = walk(&script, order, |_, _, _| {});
    let stops = |ranks: [usize; 2]| {
        let mut job = walk(&script, order, |_, _, _| {});
        ranks.into_iter().any(|rank| {
            job.step(rank);
            job.stop.is_some()
        })
    };
    Neighbours {
        at: ranks.map(|rank| job.at(rank).expect("the rank is able")),
        initiated: ranks.map(|rank| initiated(&job, rank)),
        stop: stops(ranks) || stops([ranks[1], ranks[0]]),
    }
}

/// A search of a waiting list by an initiating step.
pub struct Search {
    /// How many steps were taken before.
    pub steps: usize,
    /// The operation that searches, and whether it is a receive.
    pub operation: usize,
    pub receives: bool,
    /// The parts of the fit, of each that waits.
    pub candidates: Vec<[bool; 4]>,
}

/// Shows the searches of an order that follow accepts, one after the other.
pub fn each_search(sheet: &[u8], order: &[u8], mut show: impl FnMut(Search)) {
    let script = Script::read(sheet);
    walk(&script, order, |job, steps, rank| {
        if let Some((operation, list)) = job.searches(rank) {
            let receives = script.is_receive(operation);
            let parts = |&other: &usize| match receives {
                true => script.parts_of_fit(other, operation),
                false => script.parts_of_fit(operation, other),
            };
            show(Search {
                steps,
                operation,
                receives,
                candidates: list.iter().map(parts).collect(),
            });
        }
    });
}

/// The step of a probe (document 02, K9).
pub struct Probe {
    /// How many steps were taken before.
    pub steps: usize,
    pub operation: usize,
    /// The message that it tells.
    pub message: usize,
    /// Its board had come to it before that message arrived.
    pub waited: bool,
    /// The pending messages as they arrived, each with the parts of its fit.
    pub pending: Vec<(usize, [bool; 4])>,
}

/// Shows the probes' steps of an order that follow accepts, one after the
/// other.
pub fn each_probe(sheet: &[u8], order: &[u8], mut show: impl FnMut(Probe)) {
    let script = Script::read(sheet);
    // The step that entered each operation, and the last step of each rank.
    let mut entered = vec![None; script.operations.len()];
    let mut last = vec![None; script.boards.len()];
    walk(&script, order, |job, steps, rank| {
        if let Some((operation, _)) = job.searches(rank) {
            entered[operation] = Some(steps);
        } else if let Some((operation, message)) = job.probes(rank) {
            let parts = |&other: &usize| (other, script.parts_of_fit(other, operation));
            show(Probe {
                steps,
                operation,
                message,
                waited: entered[message] > last[rank],
                pending: job.messages.iter().map(parts).collect(),
            });
        }
        last[rank] = Some(steps);
    });
}

/// The initiating step of a standard send (document 02, K6).
pub struct StandardSend {
    pub rank: usize,
    pub operation: usize,
    /// It finds a receive that fits.
    pub matched: bool,
    /// What its board has in use before: standard bytes, and of its buffer.
    pub in_use: usize,
    pub buffer_in_use: usize,
}

/// Shows the standard sends of an order that follow accepts, one after the
/// other.
pub fn each_standard_send(sheet: &[u8], order: &[u8], mut show: impl FnMut(StandardSend)) {
    let script = Script::read(sheet);
    walk(&script, order, |job, _, rank| {
        let Some((operation, receives)) = job.searches(rank) else {
            return;
        };
        if script.operations[operation].kind == kind::STANDARD {
            let board = &job.boards[rank];
            show(StandardSend {
                rank,
                operation,
                matched: receives.iter().any(|&other| script.fits(operation, other)),
                in_use: board.standard.in_use,
                buffer_in_use: board.attached.in_use,
            });
        }
    });
}

/// The operation that the next step of a rank initiates, if it does.
fn initiated(job: &Job, rank: usize) -> Option<usize> {
    let at = job.at(rank)?;
    job.searches(rank).map(|_| at)
}

fn able(job: &Job) -> Vec<u8> {
    let ranks = 0..job.boards.len();
    ranks
        .filter(|&rank| job.able(rank))
        .map(|rank| rank as u8)
        .collect()
}
