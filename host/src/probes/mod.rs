//! Probes and status queries (document 02, K9): the cases around them that the
//! differential tests have to make, and the promise Probe-then-receive.
//!
//! - `asked`: what an answer of check and premise shows.
//! - `told`: what the steps of probes show.
//! - `queried`: what the rows of queries show.
//! - `standing`: what boards show that have come to a probe or a query.
//! - `pairs`: receives that ask for what the probe before them told.
//! - `called`: all that a call of follow or run shows.

mod asked;
mod called;
mod pairs;
mod queried;
mod standing;
mod told;

use crate::requests_left::reading::operations;
use crate::sheet::kind_of;

pub use asked::{asked, ASKED};
pub use called::{called, CALLED};
pub use pairs::probe_then_receive;

/// Whether a sheet whose tables can be read has an operation of this kind.
pub fn has(sheet: &[u8], kind: u8) -> bool {
    operations(sheet).any(|index| kind_of(sheet, index) == kind)
}
