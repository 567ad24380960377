//! What the steps of probes show.

use crate::command::note;
use crate::judge::{self, Probe};
use crate::layout::{kind, operation, ANY};
use crate::requests_left::reading::rank_of;
use crate::sheet::{field_of, kind_of};

pub const TOLD: [&str; 16] = [
    "probe before its message arrives",
    "probe after its message arrived",
    "probe tells a standard message",
    "probe tells a buffered message",
    "probe tells a synchronous message",
    "probe tells an empty message",
    "probe tells its own board's message",
    "probe of any tag",
    "probe of any source",
    "probe tells the earlier of two that fit",
    "the earlier is the higher rank's",
    "probe passes by destination alone",
    "probe passes by communicator alone",
    "probe passes by source alone",
    "probe passes by tag alone",
    "two probes tell one message",
];

/// Which cases the probes' steps of an accepted order make.
pub fn told(sheet: &[u8], order: &[u8]) -> [bool; TOLD.len()] {
    let mut found = [false; TOLD.len()];
    let mut earlier = Vec::new();
    judge::each_probe(sheet, order, |probe| {
        let again = earlier.contains(&probe.message);
        earlier.push(probe.message);
        let made = [
            &message(sheet, &probe)[..],
            &choice(sheet, &probe),
            &[again],
        ];
        note(&mut found, &made.concat());
    });
    found
}

/// When the message came that is told, and what it is.
fn message(sheet: &[u8], probe: &Probe) -> [bool; 7] {
    let of_kind = |kind| kind_of(sheet, probe.message) == kind;
    [
        probe.waited,
        !probe.waited,
        of_kind(kind::STANDARD),
        of_kind(kind::BUFFERED),
        of_kind(kind::SYNCHRONOUS),
        field_of(sheet, probe.message, operation::LENGTH) == 0,
        rank_of(sheet, probe.message) == rank_of(sheet, probe.operation),
    ]
}

/// What it was chosen from: others that fit, and those that were passed by one
/// part of the fit alone.
fn choice(sheet: &[u8], probe: &Probe) -> [bool; 8] {
    let any = |field| field_of(sheet, probe.operation, field) == usize::from(ANY);
    let place = probe
        .pending
        .iter()
        .position(|&(at, _)| at == probe.message);
    let (passed, rest) = probe.pending.split_at(place.expect("it is pending"));
    let fits = |(_, parts): &&(usize, [bool; 4])| *parts == [true; 4];
    let later = || rest.iter().skip(1).filter(fits);
    let source = |at: usize| rank_of(sheet, at);
    let alone = |part: usize| {
        let mut others = [true; 4];
        others[part] = false;
        passed.iter().any(|(_, parts)| *parts == others)
    };
    [
        any(operation::TAG),
        any(operation::PEER),
        later().next().is_some(),
        later().any(|&(at, _)| source(at) < source(probe.message)),
        alone(0),
        alone(1),
        alone(2),
        alone(3),
    ]
}
