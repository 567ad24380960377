//! Our tests of Jamturret: a judge of our own, written from document 01 and
//! not proved, what is needed to compare the proved library with it, and
//! benchmarks. Not for customers: the library is the crate `jamturret` in
//! rust/, and this crate takes it from there.
//!
//! - `layout`: where the fields of a sheet stand, and their limits, read from
//!   document 01 once more for our judge.
//! - `judge`: our own judge, in an ordinary and in a naive form.
//! - `sheet`: builds job sheets, right ones and damaged ones.
//! - `bench_jobs`: the bench jobs of document 01 as sheets.
//! - `areas`: the cases around a receive's capacity.
//! - `buffers`: what buffered sends cost, and the cases around it.
//! - `lengths`: the cases around long scripts and their rooms.
//! - `requests_left`: the cases around requests that no wait frees.
//! - `probes`: the cases around probes and status queries.
//! - `editions`: the cases around the second edition and its rooms.
//! - `exchanges`: the cases around steps that trade places in an order.
//! - `searched`: the cases around the search of a waiting list.
//! - `random`: a seeded generator of numbers.
//! - `generate`: generators of sheets for the differential tests.
//! - `guarded`: lends buffers to the library between guard bytes.
//! - `desk`: the rooms lent to *follow* and *run*, and the report read.
//! - `compare`: one call put to both judges and the library.
//! - `trial`: a generated sheet with rooms and orders, tried on all three.
//! - `command`: what the two differential programs share.
//! - `searches`: the searches of waiting lists through the C boundary.
//! - `settled`: answers to cases that never change, kept as digests.
//! - `timing`: times of functions that are called in turn.
//! - `traffic`: the jobs that are timed.

pub mod areas;
pub mod bench_jobs;
pub mod buffers;
pub mod command;
pub mod compare;
pub mod desk;
pub mod editions;
pub mod exchanges;
pub mod generate;
pub mod guarded;
pub mod judge;
pub mod layout;
pub mod lengths;
pub mod probes;
pub mod random;
pub mod requests_left;
pub mod searched;
pub mod searches;
pub mod settled;
pub mod sheet;
pub mod timing;
pub mod traffic;
pub mod trial;
