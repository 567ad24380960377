//! The second edition and its rooms for standard sends (document 02, K6): the
//! cases around them that the differential tests have to make, what is read off
//! the accounts of every report, and what rooms of 0 leave as it was.
//!
//! - `standard`: the standard sends of a board together, and its room.
//! - `asked`: what an answer of check and premise shows.
//! - `sent`: what the initiating steps of standard sends show.
//! - `reported`: what a report shows.
//! - `called`: all that a call of follow or run shows.
//! - `accounts`: what holds of the accounts of every report.
//! - `twins`: a sheet of edition 1 beside the one of edition 2 with rooms of 0.

mod accounts;
mod asked;
mod called;
mod reported;
mod sent;
mod standard;
mod twins;

pub use accounts::accounts_agree;
pub use asked::{asked, ASKED};
pub use called::{called, CALLED};
pub use standard::Standard;
pub use twins::{same_as_first, twin, without_rooms};
