//! The numbers of the rules, each named once: the limits of a sheet (The
//! sheet, byte by byte), the sizes of its tables and of a report's rows (The
//! report), and the rooms that are lent (When the desk says no).
//!
//! The functions are those of edition 1; [`Edition`] has them for both. They
//! are total: a size above `usize` is given as `usize::MAX`.

use crate::edition::Edition;

/// Most boards of a sheet. It has at least one.
pub const MOST_BOARDS: usize = 16;
/// Most communicators of a sheet. It has at least one.
pub const MOST_COMMUNICATORS: usize = 8;
/// Most operations of a sheet, all scripts together.
pub const MOST_OPERATIONS: usize = 2_048;
/// Most payload bytes of a sheet.
pub const MOST_PAYLOAD: usize = 16_384;
/// The largest buffer that a board can have attached.
pub const MOST_ATTACHED: usize = 16_384;
/// What a message in an attached buffer costs beside its bytes, an empty one
/// too (`MPI_BSEND_OVERHEAD`; document 02, K2). In a standard room it costs its
/// bytes alone.
pub const BSEND_OVERHEAD: usize = 32;
/// The largest standard room of a board, in edition 2 (document 02, K6).
pub const MOST_STANDARD_ROOM: usize = 16_384;
/// Most inbox bytes of a sheet, all boards together.
pub const MOST_INBOXES: usize = 16_384;
/// The longest message of a send, and the largest capacity of a receive.
pub const MOST_LENGTH: usize = 4_096;
/// The largest tag.
pub const MOST_TAG: usize = 32_767;
/// The largest request slot of a board.
pub const MOST_SLOT: usize = 31;
/// Bytes of scratch that [`follow`](crate::lent::follow) and
/// [`run`](crate::lent::run) are lent, whatever the sheet.
pub const SCRATCH_ROOM: usize = 65_536;
/// The longest sheet of all.
pub const MOST_SHEET: usize =
    Edition::Second.sheet_length(MOST_BOARDS, MOST_OPERATIONS, MOST_PAYLOAD);
/// The longest report of all: a report room that serves every sheet.
pub const MOST_REPORT_ROOM: usize = Edition::Second.report_room(MOST_BOARDS, MOST_OPERATIONS);

/// In a field of a receive or probe: any source, any tag. In a report: none.
pub(crate) const ANY: usize = 65_535;
/// A report's stop rank where nothing stopped the job.
pub(crate) const NO_RANK: u8 = 255;

/// The header of a sheet, and where its board table starts.
pub(crate) const HEADER_BYTES: u16 = 16;
/// Where a sheet's CRC stands.
pub(crate) const CRC_AT: usize = 14;
/// A board entry of edition 1, and one of edition 2.
pub(crate) const BOARD_BYTES: usize = 8;
pub(crate) const SECOND_BOARD_BYTES: usize = 10;
pub(crate) const OPERATION_BYTES: usize = 16;

pub(crate) const REPORT_HEADER_BYTES: usize = 16;
/// A board row of edition 1, and one of edition 2.
pub(crate) const BOARD_ROW_BYTES: usize = 8;
pub(crate) const SECOND_BOARD_ROW_BYTES: usize = 12;
pub(crate) const OPERATION_ROW_BYTES: usize = 12;

/// The length of a sheet of edition 1.
pub const fn sheet_length(boards: usize, operations: usize, payload: usize) -> usize {
    Edition::First.sheet_length(boards, operations, payload)
}

/// The length of a report of edition 1: the report room that `follow` and `run`
/// need.
pub const fn report_room(boards: usize, operations: usize) -> usize {
    Edition::First.report_room(boards, operations)
}

/// The room that `run` needs for the order that it writes down.
pub const fn order_room(operations: usize) -> usize {
    operations.saturating_mul(2)
}
