//! What boards show that have come to a probe or a query, where a report or a
//! refused order leaves them.

use crate::judge::{self, After};
use crate::layout::{kind, operation, ANY};
use crate::requests_left::reading::{operations, rank_of, state_of};
use crate::sheet::{field_of, kind_of};

pub const STANDING: [&str; 8] = [
    "verdict 0, able at a probe",
    "verdict 0, not able at a probe",
    "verdict 0, at a query",
    "verdict 1, one that fits a probe is pending",
    "verdict 2, at a probe",
    "verdict 2, passed by communicator alone",
    "stopped, at a probe that a message fits",
    "stopped, at a query",
];

/// Which cases a report on an accepted sheet shows, and where the order has
/// left the boards.
pub fn standing(sheet: &[u8], report: &[u8], after: &After) -> [bool; STANDING.len()] {
    let verdict = |number| report[0] == number;
    let stopped = after.stopped;
    let able = |rank: usize| after.able.contains(&(rank as u8));
    let at = |kind| came_to(sheet, after, kind);
    let pending = |probe, parts| passed(sheet, report, probe, parts);
    let probed = || {
        let mut probes = operations(sheet).filter(|&index| kind_of(sheet, index) == kind::PROBE);
        probes.any(|probe| pending(probe, [true; 3]))
    };
    [
        verdict(0) && at(kind::PROBE).any(|(rank, _)| able(rank)),
        verdict(0) && at(kind::PROBE).any(|(rank, _)| !able(rank)),
        verdict(0) && at(kind::QUERY).next().is_some(),
        verdict(1) && probed(),
        verdict(2) && at(kind::PROBE).next().is_some(),
        verdict(2) && at(kind::PROBE).any(|(_, probe)| pending(probe, [false, true, true])),
        stopped && at(kind::PROBE).any(|(_, probe)| pending(probe, [true; 3])),
        stopped && at(kind::QUERY).next().is_some(),
    ]
}

/// The ranks that have come to an operation of this kind, and the operation.
fn came_to<'a>(
    sheet: &'a [u8],
    after: &'a After,
    kind: u8,
) -> impl Iterator<Item = (usize, usize)> + 'a {
    let ranks = after.at.iter().enumerate();
    let unfinished = ranks.filter_map(|(rank, &at)| Some((rank, at?)));
    unfinished.filter(move |&(_, at)| kind_of(sheet, at) == kind)
}

/// Whether a message is pending for a probe's board with just these parts of
/// the fit: communicator, source, tag.
fn passed(sheet: &[u8], report: &[u8], probe: usize, parts: [bool; 3]) -> bool {
    let field = |at, field| field_of(sheet, at, field);
    let any = usize::from(ANY);
    let (source, tag) = (field(probe, operation::PEER), field(probe, operation::TAG));
    let parts_of = |message: usize| {
        let communicator = field(message, operation::COMMUNICATOR);
        [
            communicator == field(probe, operation::COMMUNICATOR),
            source == any || source == rank_of(sheet, message),
            tag == any || tag == field(message, operation::TAG),
        ]
    };
    let sends = |&at: &usize| (kind::STANDARD..=kind::READY).contains(&kind_of(sheet, at));
    let pending = |&at: &usize| [1, 2].contains(&state_of(sheet, report, at));
    let to = rank_of(sheet, probe);
    let mut messages = operations(sheet).filter(sends).filter(pending);
    messages.any(|at| field(at, operation::PEER) == to && parts_of(at) == parts)
}

pub const REFUSED: [&str; 3] = [
    "refused 9 at a probe that nothing fits",
    "refused 9 at a probe after a stop",
    "refused 9 at a query after a stop",
];

/// Which cases an order makes that is refused at an index.
pub fn refused(sheet: &[u8], order: &[u8], index: usize) -> [bool; REFUSED.len()] {
    let After { at, stopped, .. } = judge::after(sheet, &order[..index]);
    let next = at.get(usize::from(order[index])).copied().flatten();
    let at = |kind| next.is_some_and(|next| kind_of(sheet, next) == kind);
    [
        !stopped && at(kind::PROBE),
        stopped && at(kind::PROBE),
        stopped && at(kind::QUERY),
    ]
}
