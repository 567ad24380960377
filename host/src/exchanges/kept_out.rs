//! What keeps the claim about exchanged steps from speaking of an exchange.

use super::{has_any_source, Exchange};
use crate::editions::Standard;
use crate::layout::{kind, operation};
use crate::probes;
use crate::sheet::boards;

/// What `kept_out` finds.
pub const KEPT_OUT: [&str; 5] = [
    "two sends to one any-source receiver",
    "a query",
    "an any-source probe",
    "a step that stops the job",
    "a room that does not cover",
];

impl Exchange<'_> {
    /// Which of these an exchange has. The second, the third and the last are of
    /// the sheet, wherever the steps are.
    pub fn kept_out(&self) -> [bool; KEPT_OUT.len()] {
        let sheet = self.sheet;
        let uncovered = |rank| Standard::of(sheet, rank).uncovered();
        [
            self.race(),
            probes::has(sheet, kind::QUERY),
            has_any_source(sheet, kind::PROBE),
            self.steps.stop,
            (0..boards(sheet)).any(uncovered),
        ]
    }

    /// The one thing that keeps it out, if it is one alone.
    pub fn kept_out_by(&self) -> Option<usize> {
        let found = self.kept_out();
        let mut places = (0..found.len()).filter(|&place| found[place]);
        let first = places.next();
        first.filter(|_| places.next().is_none())
    }

    /// Two sends to one board on one communicator, on which that board's script
    /// has a receive from any source.
    fn race(&self) -> bool {
        self.sends().is_some_and(|[one, other]| {
            let same = |field| self.field(one, field) == self.field(other, field);
            same(operation::PEER) && same(operation::COMMUNICATOR) && self.meets_any_source(one)
        })
    }
}
