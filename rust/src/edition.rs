//! The two editions of sheets and reports, and the sizes in which they differ
//! (document 02, K6).

use crate::limits::{
    BOARD_BYTES, BOARD_ROW_BYTES, HEADER_BYTES, OPERATION_BYTES, OPERATION_ROW_BYTES,
    REPORT_HEADER_BYTES, SECOND_BOARD_BYTES, SECOND_BOARD_ROW_BYTES,
};

/// The edition of a sheet, and of its report (document 02, K6). In edition 2
/// each board has a [standard room](crate::Board::standard_room), and its row
/// tells how full that is.
///
/// A sheet tells its edition by the offset of its operation table, which is
/// behind a board table of one edition or of the other; since a sheet has at
/// least one board, no sheet is of both.
///
/// The sizes are total: one above `usize` is given as `usize::MAX`.
///
/// ```
/// use jamturret::Edition;
///
/// // Two boards, four operations and four bytes of payload.
/// assert_eq!(Edition::First.sheet_length(2, 4, 4), 100);
/// assert_eq!(Edition::Second.sheet_length(2, 4, 4), 104);
/// assert_eq!(Edition::First.report_room(2, 4), 80);
/// assert_eq!(Edition::Second.report_room(2, 4), 88);
/// ```
#[derive(Clone, Copy, Debug, Default, PartialEq, Eq, Hash)]
pub enum Edition {
    /// Without standard rooms.
    #[default]
    First = 1,
    /// With standard rooms.
    Second = 2,
}

impl Edition {
    const ALL: [Edition; 2] = [Edition::First, Edition::Second];

    /// The length of a sheet.
    pub const fn sheet_length(self, boards: usize, operations: usize, payload: usize) -> usize {
        self.payload_start(boards, operations)
            .saturating_add(payload)
    }

    /// The length of a report: the report room that `follow` and `run` need.
    pub const fn report_room(self, boards: usize, operations: usize) -> usize {
        let board_rows = table_end(REPORT_HEADER_BYTES, boards, self.board_row_bytes());
        table_end(board_rows, operations, OPERATION_ROW_BYTES)
    }

    /// The edition of a sheet of so many boards whose operation table starts
    /// here, if it is one.
    pub(crate) fn of_sheet(boards: usize, operation_table: usize) -> Option<Edition> {
        let mut all = Edition::ALL.into_iter();
        all.find(|edition| edition.operation_table(boards) == operation_table)
    }

    /// The edition of a report of so many boards and operations that has this
    /// length, if it is one.
    pub(crate) fn of_report(boards: usize, operations: usize, length: usize) -> Option<Edition> {
        let mut all = Edition::ALL.into_iter();
        all.find(|edition| edition.report_room(boards, operations) == length)
    }

    /// Where the operation table of a sheet starts.
    pub(crate) const fn operation_table(self, boards: usize) -> usize {
        table_end(HEADER_BYTES as usize, boards, self.board_bytes())
    }

    /// Where the payload of a sheet starts.
    pub(crate) const fn payload_start(self, boards: usize, operations: usize) -> usize {
        table_end(self.operation_table(boards), operations, OPERATION_BYTES)
    }

    /// The bytes of a board entry.
    pub(crate) const fn board_bytes(self) -> usize {
        match self {
            Edition::First => BOARD_BYTES,
            Edition::Second => SECOND_BOARD_BYTES,
        }
    }

    /// The bytes of a board row.
    pub(crate) const fn board_row_bytes(self) -> usize {
        match self {
            Edition::First => BOARD_ROW_BYTES,
            Edition::Second => SECOND_BOARD_ROW_BYTES,
        }
    }
}

const fn table_end(start: usize, count: usize, size: usize) -> usize {
    start.saturating_add(count.saturating_mul(size))
}
