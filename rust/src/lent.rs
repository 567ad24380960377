//! The C functions of libjamturret.a behind safe functions on lent slices: no
//! heap, every room is the caller's. The only `unsafe` of this crate stands
//! here.
//!
//! Every content and every length is accepted and answered. The library keeps
//! nothing between calls, so calls may run at once in several threads. How much
//! room a report needs is a matter of the sheet's edition:
//! [`Edition::report_room`](crate::Edition::report_room);
//! [`MOST_REPORT_ROOM`](crate::limits::MOST_REPORT_ROOM) serves every sheet.
//! [`crate::check`], [`crate::premise()`], [`crate::run`] and
//! [`crate::follow`] are the same services with rooms allocated and answers in
//! words.
//!
//! ```
//! use jamturret::lent::{self, Answer};
//! use jamturret::limits::{report_room, order_room, SCRATCH_ROOM};
//! use jamturret::{Board, Report, Sheet, Verdict};
//!
//! // One board without operations.
//! let sheet = Sheet::build(1, vec![Board::new()], &[])?;
//! let mut report = [0; report_room(1, 0)];
//! let mut order = [0; order_room(0)];
//! let mut scratch = [0; SCRATCH_ROOM];
//! let answer = lent::run(sheet.bytes(), &mut [], &mut report, &mut order, &mut scratch);
//! assert_eq!(answer, Answer::SUCCESS);
//! assert_eq!(Report::parse(&report)?.verdict(), Verdict::Finished);
//!
//! // One byte less: refusal 8, the report room is short.
//! let short = &mut report[1..];
//! let answer = lent::run(sheet.bytes(), &mut [], short, &mut order, &mut scratch);
//! assert_eq!(answer, Answer::refusal(8, 2));
//! # Ok::<(), Box<dyn std::error::Error>>(())
//! ```

use std::fmt;

/// What a service answers: number 0 and place 0, or a refusal's number and
/// its place (document 01, When the desk says no). [`Answer::result`] puts it
/// into words, [`crate::Premise::of_answer`] the answer of [`premise`].
// The layout is the one of the C interface, where it is returned by value.
#[repr(C)]
#[derive(Clone, Copy, Debug, PartialEq, Eq, Hash)]
pub struct Answer {
    /// The number: 0 for success.
    pub number: u32,
    /// What the number speaks of: a rank, an operation, a room, an index.
    pub place: u64,
}

impl Answer {
    /// Number 0, place 0.
    pub const SUCCESS: Answer = Answer::refusal(0, 0);

    /// The answer with this number and place.
    pub const fn refusal(number: u32, place: u64) -> Answer {
        Answer { number, place }
    }
}

/// Number and place in decimal, one blank between, as the program `judge`
/// prints them.
impl fmt::Display for Answer {
    fn fmt(&self, out: &mut fmt::Formatter) -> fmt::Result {
        write!(out, "{} {}", self.number, self.place)
    }
}

// A slice passes as a pointer and a length. Nothing checks these declarations
// against the library's source; the differential tests do. The same functions
// stand in c/jamturret.h.
extern "C" {
    fn jamturret_check(sheet: *const u8, sheet_len: usize) -> Answer;

    fn jamturret_premise(sheet: *const u8, sheet_len: usize) -> Answer;

    fn jamturret_crc(sheet: *const u8, sheet_len: usize) -> u16;

    fn jamturret_follow(
        sheet: *const u8,
        sheet_len: usize,
        order: *const u8,
        order_len: usize,
        inbox: *mut u8,
        inbox_len: usize,
        report: *mut u8,
        report_len: usize,
        scratch: *mut u8,
        scratch_len: usize,
    ) -> Answer;

    fn jamturret_run(
        sheet: *const u8,
        sheet_len: usize,
        inbox: *mut u8,
        inbox_len: usize,
        report: *mut u8,
        report_len: usize,
        order_out: *mut u8,
        order_out_len: usize,
        scratch: *mut u8,
        scratch_len: usize,
    ) -> Answer;
}

/// Checks a sheet. Refusals 1 to 7.
pub fn check(sheet: &[u8]) -> Answer {
    // SAFETY: the pointer and the length come from one live slice, which the
    // library reads and does not keep. It accepts every content and length.
    unsafe { jamturret_check(sheet.as_ptr(), sheet.len()) }
}

/// Says whether the order of steps can matter for a sheet. Refusals 1 to 7,
/// then 20 to 24.
pub fn premise(sheet: &[u8]) -> Answer {
    // SAFETY: as in `check`.
    unsafe { jamturret_premise(sheet.as_ptr(), sheet.len()) }
}

/// The CRC that a sheet with these bytes should carry in bytes 14 and 15, low
/// byte first: over bytes 0 to 13 and then 16 to the end. Of a sheet under 16
/// bytes: over what there is of bytes 0 to 13.
pub fn crc(sheet: &[u8]) -> u16 {
    // SAFETY: as in `check`.
    unsafe { jamturret_crc(sheet.as_ptr(), sheet.len()) }
}

/// Follows a sheet with an order of ranks, one byte a step, and fills inbox
/// and report. Refusals 1 to 9.
///
/// After a refusal inbox and report are untouched. Scratch is untouched by 1
/// to 8 and all zero after 9 or success.
pub fn follow(
    sheet: &[u8],
    order: &[u8],
    inbox: &mut [u8],
    report: &mut [u8],
    scratch: &mut [u8],
) -> Answer {
    // SAFETY: as in `check`. The library writes only to the three slices that
    // are lent as mutable, which share no byte with each other or with the
    // two it reads, and does not keep them.
    unsafe {
        jamturret_follow(
            sheet.as_ptr(),
            sheet.len(),
            order.as_ptr(),
            order.len(),
            inbox.as_mut_ptr(),
            inbox.len(),
            report.as_mut_ptr(),
            report.len(),
            scratch.as_mut_ptr(),
            scratch.len(),
        )
    }
}

/// Runs a sheet, at each step the lowest rank that is able, fills inbox and
/// report and writes the order down. Refusals 1 to 8.
///
/// After a refusal all rooms are untouched. After success scratch is all zero,
/// and bytes of `order_out` after the last step keep their values.
pub fn run(
    sheet: &[u8],
    inbox: &mut [u8],
    report: &mut [u8],
    order_out: &mut [u8],
    scratch: &mut [u8],
) -> Answer {
    // SAFETY: as in `follow`, with four slices lent as mutable.
    unsafe {
        jamturret_run(
            sheet.as_ptr(),
            sheet.len(),
            inbox.as_mut_ptr(),
            inbox.len(),
            report.as_mut_ptr(),
            report.len(),
            order_out.as_mut_ptr(),
            order_out.len(),
            scratch.as_mut_ptr(),
            scratch.len(),
        )
    }
}
