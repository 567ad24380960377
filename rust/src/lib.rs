//! Jamturret judges job sheets of backup recorders: up to sixteen boards (MPI
//! processes) pass blocks to each other under MPI's point-to-point rules. A
//! sheet has each board's sends, receives, waits, probes and status queries; the
//! judge says what is matched, what arrives, what is left pending, how full the
//! buffers get, and whether the job finishes, deadlocks, overflows a buffer or
//! meets a ready send without a receive.
//!
//! This crate is the proved library `libjamturret.a` behind safe Rust. Every
//! answer is the library's own; the crate lays out sheets, lends the rooms and
//! puts answers and reports into names and words. No function panics, whatever
//! it is given. The rules are in `docs/RULES.md` of the repository; comments
//! call them document 01, and their part two document 02.
//!
//! # Depend on it
//!
//! The library is made first, at the root of the repository, by
//! `c/build`; it is for x86-64. Then, with the path to this
//! folder:
//!
//! ```toml
//! [dependencies]
//! jamturret = { path = "../jamturret/rust" }
//! ```
//!
//! Where the library stands in another folder than `target/staticlib` of the
//! repository, the environment variable `JAMTURRET_LIB_DIR` names it.
//!
//! # A block that nobody receives
//!
//! The same eight bytes sent buffered and sent synchronously:
//!
//! ```
//! use jamturret::limits::BSEND_OVERHEAD;
//! use jamturret::{premise, run, Board, BuildError, Mode, OperationState};
//! use jamturret::{SendOperation, Sheet, Verdict};
//!
//! fn block(mode: Mode) -> Result<Sheet, BuildError> {
//!     let send = SendOperation::new(mode, 1).tag(1).bytes(0, 8);
//!     let sender = Board::new().attached(8 + BSEND_OVERHEAD).then(send);
//!     let receiver = Board::new().inbox(8);
//!     Sheet::build(1, vec![sender, receiver], b"RECORDER")
//! }
//!
//! // Buffered: all boards finish, as if the job were safe. The block is still
//! // in the sender's buffer.
//! let outcome = run(block(Mode::Buffered)?, None)?;
//! assert_eq!(outcome.report.verdict(), Verdict::Finished);
//! assert_eq!(outcome.report.pending_messages(), 1);
//! let row = outcome.report.operation(0).ok_or("a row")?;
//! assert_eq!(row.state, OperationState::Buffered);
//! assert_eq!(outcome.report.board(0).ok_or("a row")?.in_use, 40);
//! assert_eq!(outcome.inboxes[1], [0; 8]);
//!
//! // Synchronous: the same job deadlocks.
//! let outcome = run(block(Mode::Synchronous)?, None)?;
//! assert_eq!(outcome.report.verdict(), Verdict::Deadlock);
//! assert_eq!(
//!     outcome.report.to_string(),
//!     "deadlock; steps 1, pending messages 1, pending receives 0, cut messages 0"
//! );
//!
//! // Both hold for every order.
//! assert!(premise(block(Mode::Buffered)?)?.holds());
//! assert!(premise(block(Mode::Synchronous)?)?.holds());
//! # Ok::<(), Box<dyn std::error::Error>>(())
//! ```
//!
//! **Finished is not delivered.** A buffered send is complete once it is in
//! its sender's buffer, a standard one once it is in its sender's standard
//! room, whether or not anybody takes it. Look at
//! [`Report::pending_messages`] beside the verdict. In the buffer a message
//! costs its length and [`limits::BSEND_OVERHEAD`]; without room for both the
//! job stops with [`Verdict::Overflow`]. Nothing but buffered messages can be
//! pending in a finished job, since no request is forgotten: a sheet with a
//! nonblocking operation that its board never waits for is refused with
//! [`Refusal::Request`].
//!
//! **Standard sends are buffered in edition 2 alone.** A sheet is of [`Edition`]
//! 1 or 2. In edition 2 each board has a standard room: a standard send that
//! meets no receive and fits beside the standard bytes in use is complete at
//! once, and costs its length until it is received; one that does not fit waits,
//! and never overflows. [`BoardRow::standard`] tells how full the room is.
//!
//! **A run's verdict holds for one order**, the one that [`run`] chooses. It is
//! known to hold for every full order exactly where [`premise()`] holds;
//! elsewhere another order may end otherwise.
//!
//! # What stands where
//!
//! - [`Sheet`] is built from [`Board`]s with scripts of [`Operation`]s, or
//!   parsed from bytes.
//! - [`check`], [`premise()`], [`run`] and [`follow`] take a sheet or its bytes.
//!   A [`Refusal`] says why not.
//! - [`Outcome`] has the [`Report`], the inboxes and the order.
//! - [`lent`] has the same services on the caller's own memory, without a heap.
//! - [`limits`] has the limits of a sheet and the sizes of rooms.

#![deny(missing_docs)]
#![deny(unsafe_code, unsafe_op_in_unsafe_fn)]
#![warn(clippy::all)]
// What could panic, so that it cannot come in unseen.
#![deny(clippy::arithmetic_side_effects, clippy::indexing_slicing)]
#![deny(clippy::unwrap_used, clippy::expect_used)]
#![deny(clippy::panic, clippy::unreachable, clippy::todo)]

mod build_error;
mod edition;
#[allow(unsafe_code)]
pub mod lent;
pub mod limits;
mod operation;
mod premise;
mod record;
mod refusal;
mod report;
mod rows;
mod services;
mod sheet;
mod tables;
mod words;

pub use build_error::{BoardField, BuildError, HeaderField, OperationField};
pub use edition::Edition;
pub use operation::{
    Mode, Operation, ProbeOperation, ReceiveOperation, SendOperation, Source, Tag,
};
pub use premise::Premise;
pub use refusal::{Refusal, Room};
pub use report::{Report, ReportError, Stop, Verdict};
pub use rows::{BoardRow, BoardState, OperationRow, OperationState, StandardUse, Status};
pub use services::{check, follow, premise, run, Outcome};
pub use sheet::{Board, Sheet};
