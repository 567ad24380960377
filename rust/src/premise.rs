//! Whether the order of steps can matter for a sheet: the answer of
//! *premise* by name.

use crate::lent::Answer;
use crate::refusal::Refusal;
use std::fmt;

/// What *premise* says of a sheet that passes check. Where it holds, any two
/// full orders (orders after which no board is able) end alike from the same
/// inbox bytes: the same inboxes and the same report, peaks aside. Then the
/// verdict of one run is the verdict of every full order. Else the value says
/// why another order may end otherwise: the lowest number that applies, at its
/// first place.
#[derive(Clone, Copy, Debug, PartialEq, Eq, Hash)]
pub enum Premise {
    /// The outcome holds for every order.
    Holds,
    /// 20: a receive or a probe names any source.
    AnySource {
        /// The first such operation.
        operation: usize,
    },
    /// 21: a send is ready.
    ReadySend {
        /// The first such operation.
        operation: usize,
    },
    /// 22: an attached buffer does not cover all buffered sends of its board.
    Uncovered {
        /// The first such rank.
        rank: usize,
    },
    /// 23: an operation is a status query; the order decides what it tells
    /// (document 02, K9).
    StatusQuery {
        /// The first such operation.
        operation: usize,
    },
    /// 24: a standard room is above 0 and does not cover all standard sends of
    /// its board; the order decides which of them are buffered (document 02, K6).
    StandardUncovered {
        /// The first such rank.
        rank: usize,
    },
}

impl Premise {
    /// Whether the outcome holds for every order.
    pub fn holds(&self) -> bool {
        *self == Premise::Holds
    }

    /// The number of [`lent::premise`](crate::lent::premise): 0, or 20 to 24.
    pub fn number(&self) -> u32 {
        match self {
            Premise::Holds => 0,
            Premise::AnySource { .. } => 20,
            Premise::ReadySend { .. } => 21,
            Premise::Uncovered { .. } => 22,
            Premise::StatusQuery { .. } => 23,
            Premise::StandardUncovered { .. } => 24,
        }
    }

    /// The place of [`lent::premise`](crate::lent::premise): an operation, for
    /// 22 and 24 a rank; 0 where the premise holds.
    pub fn place(&self) -> u64 {
        match *self {
            Premise::Holds => 0,
            Premise::AnySource { operation: place }
            | Premise::ReadySend { operation: place }
            | Premise::Uncovered { rank: place }
            | Premise::StatusQuery { operation: place }
            | Premise::StandardUncovered { rank: place } => place as u64,
        }
    }

    /// What an answer of [`lent::premise`](crate::lent::premise) to a call
    /// with this sheet says.
    pub fn of_answer(answer: Answer, sheet: &[u8]) -> Result<Premise, Refusal> {
        match (answer.number, usize::try_from(answer.place)) {
            (20, Ok(operation)) => Ok(Premise::AnySource { operation }),
            (21, Ok(operation)) => Ok(Premise::ReadySend { operation }),
            (22, Ok(rank)) => Ok(Premise::Uncovered { rank }),
            (23, Ok(operation)) => Ok(Premise::StatusQuery { operation }),
            (24, Ok(rank)) => Ok(Premise::StandardUncovered { rank }),
            _ => answer.result(sheet).map(|()| Premise::Holds),
        }
    }
}

impl fmt::Display for Premise {
    fn fmt(&self, out: &mut fmt::Formatter) -> fmt::Result {
        let why = match self {
            Premise::Holds => return write!(out, "holds for every order"),
            Premise::AnySource { operation } => {
                format!("operation {operation} receives or probes from any source")
            }
            Premise::ReadySend { operation } => format!("operation {operation} is a ready send"),
            Premise::Uncovered { rank } => {
                format!("the attached buffer of rank {rank} does not cover its buffered sends")
            }
            Premise::StatusQuery { operation } => {
                format!("operation {operation} is a status query")
            }
            Premise::StandardUncovered { rank } => {
                format!("the standard room of rank {rank} does not cover its standard sends")
            }
        };
        let (number, place) = (self.number(), self.place());
        write!(
            out,
            "number {number}, place {place}: another order may end otherwise: {why}"
        )
    }
}
