//! Settled answers: what *check*, *follow* and *run* answer and write for
//! 20,000 cases that never change, kept as digests in host/settled.txt. A
//! change that should leave every answer as it was leaves every digest as it
//! was; a change of a rule says which digests it changed, and each changed
//! case has to have what the rule speaks of.
//!
//! The cases are frozen. The differential tests' generators follow document 01
//! as it changes: its limits, kinds and editions. Here that would make other
//! cases, and other cases have other digests, so that nothing could be
//! compared. Therefore `manner`, `job`, `sheet`, `damage` and `cases` have their
//! own numbers and read none of `layout` or `generate`, and nothing in them may
//! be changed. They share with the rest `random` and the CRC, which no request
//! changes. The record keeps a digest of all inputs too, which tells a changed
//! case apart from a changed answer. What `ask` and `digest` do is as fixed.
//!
//! - `digest`: the hash.
//! - `sheet`: the bytes of a sheet of edition 1, and its tables read back.
//! - `manner`: how large the jobs are and what their boards do.
//! - `job`: sheets that *check* accepts, or refuses since slots are held at the
//!   end, and the order that they were written in.
//! - `damage`: sheets that it refuses.
//! - `cases`: sheet, order and lengths of the lent rooms for each number.
//! - `ask`: a case put to the library; the digests of its outcome, also with the
//!   inboxes set aside.
//! - `record`: the file of digests, written, read and compared.
//! - `features`: what a changed case has to have. This part is not frozen.
//! - `reached`: counts of what the cases reach.

pub mod ask;
pub mod cases;
mod damage;
mod digest;
pub mod features;
mod job;
mod manner;
pub mod reached;
pub mod record;
mod sheet;
