//! Two neighbouring steps of an order that trade places where receives may be
//! from any source (document 02, K14), read from the document: which exchanges
//! the claim speaks of, and the cases around them that the differential test has
//! to make.
//!
//! - `kept_out`: what keeps the claim from speaking of an exchange.
//! - `traded`: what an exchange that it speaks of shows.

mod kept_out;
mod traded;

use crate::compare::Outcome;
use crate::judge::{self, Neighbours};
use crate::layout::{kind, operation, ANY};
use crate::requests_left::reading::{operations, script};
use crate::sheet::{field_of, kind_of};
use jamturret::lent::Answer;

pub use kept_out::KEPT_OUT;
pub use traded::TRADED;

/// An order of an accepted sheet and an index in it: follow accepts what stands
/// before the index, and the next two ranks differ and are both able there.
pub struct Exchange<'a> {
    pub sheet: &'a [u8],
    pub order: &'a [u8],
    pub index: usize,
    steps: Neighbours,
}

impl<'a> Exchange<'a> {
    pub fn new(sheet: &'a [u8], order: &'a [u8], index: usize) -> Exchange<'a> {
        let ranks = [order[index], order[index + 1]];
        Exchange {
            sheet,
            order,
            index,
            steps: judge::neighbours(sheet, &order[..index], ranks),
        }
    }

    /// The order with the two ranks exchanged.
    pub fn exchanged(&self) -> Vec<u8> {
        let mut order = self.order.to_vec();
        order.swap(self.index, self.index + 1);
        order
    }

    /// The sends that both steps initiate.
    fn sends(&self) -> Option<[usize; 2]> {
        match self.steps.initiated {
            [Some(one), Some(other)] if self.is_send(one) && self.is_send(other) => {
                Some([one, other])
            }
            _ => None,
        }
    }

    fn is_send(&self, index: usize) -> bool {
        (kind::STANDARD..=kind::READY).contains(&kind_of(self.sheet, index))
    }

    fn field(&self, index: usize, field: usize) -> usize {
        field_of(self.sheet, index, field)
    }

    /// The communicators of the receives from any source in the script of the
    /// board that a send is to.
    fn any_source_on(&self, send: usize) -> impl Iterator<Item = usize> + '_ {
        let rank = self.field(send, operation::PEER);
        let receives = script(self.sheet, rank);
        receives
            .filter(|&index| from_any(self.sheet, index, kind::RECEIVE))
            .map(|index| self.field(index, operation::COMMUNICATOR))
    }

    /// Whether one of them is on the send's own communicator.
    fn meets_any_source(&self, send: usize) -> bool {
        let communicator = self.field(send, operation::COMMUNICATOR);
        self.any_source_on(send).any(|other| other == communicator)
    }
}

/// Whether an operation is of this kind and names any source.
fn from_any(sheet: &[u8], index: usize, asks: u8) -> bool {
    let any = field_of(sheet, index, operation::PEER) == usize::from(ANY);
    kind_of(sheet, index) == asks && any
}

/// Whether a sheet has an operation of this kind that names any source.
pub fn has_any_source(sheet: &[u8], asks: u8) -> bool {
    operations(sheet).any(|index| from_any(sheet, index, asks))
}

/// Whether two orders of one sheet, followed in rooms that started alike, have the
/// same answer, and with success the same report and inboxes, peaks aside.
pub fn alike(one: &Outcome, other: &Outcome) -> bool {
    one.answer == other.answer
        && (one.answer != Answer::SUCCESS || one.desk.without_peaks() == other.desk.without_peaks())
}
