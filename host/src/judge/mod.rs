//! Our own judge, written from document 01 alone and independent of the
//! proved library.
//!
//! - `crc`: CRC-16 by table.
//! - `header`: refusals 1 to 3.
//! - `boards`: refusal 5.
//! - `operations`: refusal 6.
//! - `requests`: refusal 7.
//! - `check`: the service made of these; also the timing baseline.
//! - `premise`: whether the order of steps can matter for a sheet.
//! - `naive`: check and premise once more, after the text, for cross-checks.
//! - `rooms`: the lent rooms and refusal 8.
//! - `script`: an accepted sheet, decoded for following it.
//! - `job`: the state of a job and its steps.
//! - `report`: the report's bytes.
//! - `services`: *follow* and *run* with refusals 8 and 9, made of these;
//!   plain lists, for comparing answers.
//! - `orders`: makes orders of able ranks.
//! - `engine`: *follow* and *run* once more, in the lent scratch alone; also
//!   the timing baseline.

mod boards;
mod check;
pub mod crc;
pub mod engine;
mod header;
mod job;
pub mod naive;
mod operations;
mod orders;
mod premise;
mod report;
mod requests;
mod rooms;
mod script;
mod services;

pub use check::check;
pub use orders::{after, after_each, neighbours, order_by};
pub use orders::{each_probe, each_search, each_standard_send};
pub use orders::{After, Neighbours, Probe, Search, StandardSend};
pub use premise::premise;
pub use rooms::{Needs, Rooms, SCRATCH_ROOM};
pub use services::{follow, needs, run};
