//! What an exchange shows that the claim about exchanged steps speaks of, on a
//! sheet with a receive from any source.

use super::{from_any, has_any_source, Exchange};
use crate::buffers::Buffered;
use crate::compare::Outcome;
use crate::layout::{kind, operation, ANY};
use crate::requests_left::reading::rank_of;
use crate::sheet::{kind_of, room_of};

/// What `traded` finds: of the two steps, and of the order.
pub const TRADED: [&str; STEPS + ORDERS] = [
    "traded, a send and an any-source receive that it fits",
    "traded, two any-source receives",
    "traded, sends to one receiver, two communicators",
    "traded, sends, any source on another communicator",
    "traded, sends to two any-source receivers",
    "traded, a send, and a half of one to its receiver",
    "traded, two waiting halves",
    "traded, a ready send",
    "traded, a buffered send, not all are covered",
    "traded, a standard send of a board with a room",
    "traded, a probe",
    "traded, the order is refused",
    "traded, the order is accepted, a board is able",
    "traded, finished",
    "traded, deadlock",
    "traded, a later step stops the job",
];

const STEPS: usize = 11;
const ORDERS: usize = 5;

impl Exchange<'_> {
    /// Which cases an exchange makes, of which this is the outcome in one order
    /// and in the other.
    pub fn traded(&self, outcome: &Outcome) -> [bool; TRADED.len()] {
        if !has_any_source(self.sheet, kind::RECEIVE) {
            return [false; TRADED.len()];
        }
        let verdict = outcome.desk.report.first().copied();
        let ends = |verdicts: &[u8]| {
            outcome.answer.number == 0 && verdict.is_some_and(|verdict| verdicts.contains(&verdict))
        };
        let order = [
            outcome.answer.number == 9,
            ends(&[0]),
            ends(&[1]),
            ends(&[2]),
            ends(&[3, 4]),
        ];
        let found = [&self.of_steps()[..], &order].concat();
        found.try_into().expect("the parts of TRADED")
    }

    /// Whether one of the steps is a probe's.
    pub fn probes(&self) -> bool {
        let mut came_to = self.steps.at.into_iter();
        came_to.any(|operation| kind_of(self.sheet, operation) == kind::PROBE)
    }

    fn of_steps(&self) -> [bool; STEPS] {
        let [one, other] = self.steps.initiated;
        let both = |test: &dyn Fn(usize) -> bool| one.is_some_and(test) && other.is_some_and(test);
        let either =
            |test: &dyn Fn(usize) -> bool| one.is_some_and(test) || other.is_some_and(test);
        let any = |index| from_any(self.sheet, index, kind::RECEIVE);
        let is = |kind| move |index| kind_of(self.sheet, index) == kind;
        let [two_comms, elsewhere, two_boards] = self.of_sends();
        let board = |index| Buffered::of(self.sheet, rank_of(self.sheet, index));
        let uncovered = |index| board(index).charges > board(index).attached;
        let roomy = |index| room_of(self.sheet, rank_of(self.sheet, index)) > 0;
        [
            self.fit(),
            both(&any),
            two_comms,
            elsewhere,
            two_boards,
            self.half_beside_send(),
            one.is_none() && other.is_none(),
            either(&is(kind::READY)),
            either(&|index| is(kind::BUFFERED)(index) && uncovered(index)),
            either(&|index| is(kind::STANDARD)(index) && roomy(index)),
            self.probes(),
        ]
    }

    /// A send, and a receive from any source that it fits.
    fn fit(&self) -> bool {
        let [Some(one), Some(other)] = self.steps.initiated else {
            return false;
        };
        let fits = |send, receive| {
            let tag = self.field(receive, operation::TAG);
            let same = |field| self.field(send, field) == self.field(receive, field);
            self.is_send(send)
                && from_any(self.sheet, receive, kind::RECEIVE)
                && self.field(send, operation::PEER) == rank_of(self.sheet, receive)
                && same(operation::COMMUNICATOR)
                && (tag == usize::from(ANY) || same(operation::TAG))
        };
        fits(one, other) || fits(other, one)
    }

    /// Two sends: to one board with a receive from any source on the
    /// communicator of one of them; to one board on one communicator, whose
    /// receives from any source are on others; to two boards that both have one on
    /// the communicator of what is sent there.
    fn of_sends(&self) -> [bool; 3] {
        let Some([one, other]) = self.sends() else {
            return [false; 3];
        };
        let same = |field| self.field(one, field) == self.field(other, field);
        let met = |send| self.meets_any_source(send);
        let elsewhere = self.any_source_on(one).next().is_some() && !met(one);
        let one_board = same(operation::PEER);
        let one_communicator = same(operation::COMMUNICATOR);
        [
            one_board && !one_communicator && (met(one) || met(other)),
            one_board && one_communicator && elsewhere,
            !one_board && met(one) && met(other),
        ]
    }

    /// A send, and the waiting half of a send to the same board on the same
    /// communicator, on which that board has a receive from any source.
    fn half_beside_send(&self) -> bool {
        let [one, other] = self.steps.at;
        let (send, half) = match self.steps.initiated {
            [Some(_), None] => (one, other),
            [None, Some(_)] => (other, one),
            _ => return false,
        };
        let same = |field| self.field(send, field) == self.field(half, field);
        self.is_send(send)
            && self.is_send(half)
            && same(operation::PEER)
            && same(operation::COMMUNICATOR)
            && self.meets_any_source(send)
    }
}
