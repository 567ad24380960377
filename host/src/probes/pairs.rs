//! Probe-then-receive (document 02, K9): a receive behind a finished probe of
//! its board, on its communicator, that asks for the source and the tag that
//! the probe told, takes the very message that it told.

use crate::command::note;
use crate::desk::row;
use crate::judge;
use crate::layout::{kind, operation, word, ANY};
use crate::requests_left::reading::{operations, rank_of, receives, script};
use crate::sheet::{field_of, kind_of, operation_at};

/// The probes of such pairs whose receive is entered.
pub fn pairs(sheet: &[u8], report: &[u8]) -> Vec<usize> {
    let paired = |&index: &usize| {
        let (told, next) = (row(sheet, report, index), index + 1);
        let probe = kind_of(sheet, index) == kind::PROBE && told[0] == 5;
        let field = |at, field| field_of(sheet, at, field);
        probe
            && script(sheet, rank_of(sheet, index)).contains(&next)
            && receives(sheet, next)
            && field(next, operation::COMMUNICATOR) == field(index, operation::COMMUNICATOR)
            && field(next, operation::PEER) == usize::from(word(told, 4))
            && field(next, operation::TAG) == usize::from(word(told, 6))
            && row(sheet, report, next)[0] > 0
    };
    operations(sheet).filter(paired).collect()
}

/// Asks the promise of the report that follow leaves of an order; how many pairs
/// it has.
pub fn probe_then_receive(sheet: &[u8], order: &[u8], report: &[u8]) -> Result<usize, String> {
    let pairs = pairs(sheet, report);
    if pairs.is_empty() {
        return Ok(0);
    }
    for &probe in &pairs {
        let [told, next] = [probe, probe + 1].map(|at| row(sheet, report, at));
        if next[0] != 3 || next[4..10] != told[4..10] {
            return Err(format!("Probe-then-receive: rows of {probe} and the next"));
        }
    }
    let mut other = None;
    judge::each_probe(sheet, order, |probe| {
        let at = probe.operation;
        let partner = |at| usize::from(word(row(sheet, report, at), 2));
        if pairs.contains(&at) && partner(at + 1) != probe.message {
            other = Some(at);
        }
    });
    match other {
        Some(probe) => Err(format!("Probe-then-receive: the message of {probe}")),
        None => Ok(pairs.len()),
    }
}

pub const PAIRS: [&str; 8] = [
    "Probe-then-receive, of any source",
    "Probe-then-receive, of any tag",
    "Probe-then-receive, both named",
    "Probe-then-receive, blocking",
    "Probe-then-receive, nonblocking",
    "Probe-then-receive, others step between",
    "Probe-then-receive, several fitted",
    "Probe-then-receive, told in full and cut",
];

/// Which cases the pairs of a report make.
pub fn paired(sheet: &[u8], order: &[u8], report: &[u8]) -> [bool; PAIRS.len()] {
    let mut found = [false; PAIRS.len()];
    let pairs = pairs(sheet, report);
    if pairs.is_empty() {
        return found;
    }
    judge::each_probe(sheet, order, |probe| {
        let at = probe.operation;
        if !pairs.contains(&at) {
            return;
        }
        let any = |field| field_of(sheet, at, field) == usize::from(ANY);
        let flag = sheet[operation_at(sheet, at + 1) + operation::FLAG];
        let fitting = probe
            .pending
            .iter()
            .filter(|(_, parts)| *parts == [true; 4]);
        let (source, tag) = (any(operation::PEER), any(operation::TAG));
        let shows = [
            source,
            tag,
            !source && !tag,
            flag == 0,
            flag == 1,
            // The receive is the next step of its board.
            order.get(probe.steps + 1) != Some(&order[probe.steps]),
            fitting.count() > 1,
            row(sheet, report, at + 1)[1] == 1,
        ];
        note(&mut found, &shows);
    });
    found
}
