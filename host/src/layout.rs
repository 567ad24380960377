//! Where the fields of a sheet and the rows of a report stand, and the limits of
//! the fields (document 01, The sheet, byte by byte, and The report; the most
//! operations: document 02, K11; probes and queries: K9; the second edition:
//! K6), and what a buffered message costs (K2).
//! All numbers are little-endian.

pub const HEADER_BYTES: usize = 16;
pub const OPERATION_BYTES: usize = 16;
/// A report's header and its operation rows.
pub const REPORT_HEADER_BYTES: usize = 16;
pub const OPERATION_ROW_BYTES: usize = 12;

/// The two editions of sheets and their reports (document 02, K6). Boards of the
/// second have a room for standard sends, and an account of it in their rows.
#[derive(Clone, Copy, Debug, Default, PartialEq, Eq)]
pub enum Edition {
    #[default]
    First,
    Second,
}

impl Edition {
    pub const BOTH: [Edition; 2] = [Edition::First, Edition::Second];

    /// A board's entry in a sheet.
    pub const fn entry_bytes(self) -> usize {
        match self {
            Edition::First => 8,
            Edition::Second => 10,
        }
    }

    /// A board's row in a report.
    pub const fn board_row_bytes(self) -> usize {
        match self {
            Edition::First => 8,
            Edition::Second => 12,
        }
    }

    /// Where a board's entry starts.
    pub const fn entry_at(self, rank: usize) -> usize {
        HEADER_BYTES + self.entry_bytes() * rank
    }

    /// Where an operation starts in a sheet of `boards` boards.
    pub const fn operation_at(self, boards: usize, index: usize) -> usize {
        self.entry_at(boards) + OPERATION_BYTES * index
    }

    /// Where a board's row starts in a report.
    pub const fn board_row_at(self, rank: usize) -> usize {
        REPORT_HEADER_BYTES + self.board_row_bytes() * rank
    }

    /// Where an operation's row starts in a report on `boards` boards.
    pub const fn operation_row_at(self, boards: usize, index: usize) -> usize {
        self.board_row_at(boards) + OPERATION_ROW_BYTES * index
    }

    /// A whole report.
    pub const fn report_bytes(self, boards: usize, operations: usize) -> usize {
        self.operation_row_at(boards, operations)
    }

    /// The edition of a sheet whose operation table has this offset. There is a
    /// board at least, so no offset is that of both.
    pub fn told_by(boards: usize, operation_table: usize) -> Option<Edition> {
        let of = |edition: &Edition| edition.entry_at(boards) == operation_table;
        Edition::BOTH.into_iter().find(of)
    }
}

pub const MOST_BOARDS: usize = 16;
pub const MOST_COMMUNICATORS: usize = 8;
pub const MOST_OPERATIONS: usize = 2048;
pub const MOST_PAYLOAD: usize = 16_384;
pub const MOST_ATTACHED: usize = 16_384;
pub const MOST_ROOM: usize = 16_384;
pub const MOST_INBOX_TOTAL: usize = 16_384;
pub const MOST_LENGTH: u16 = 4096;
pub const MOST_TAG: u16 = 32_767;
pub const SLOTS: usize = 32;
/// A buffered message is charged its length and this.
pub const BSEND_OVERHEAD: usize = 32;
/// Any source in the peer of a receive or a probe, any tag in its tag.
pub const ANY: u16 = 65_535;

/// Places in the header.
pub mod header {
    pub const BOARDS: usize = 0;
    pub const COMMUNICATORS: usize = 2;
    pub const OPERATIONS: usize = 4;
    pub const BOARD_TABLE: usize = 6;
    pub const OPERATION_TABLE: usize = 8;
    pub const PAYLOAD: usize = 10;
    pub const PAYLOAD_LENGTH: usize = 12;
    pub const CRC: usize = 14;
}

/// Places in a board entry.
pub mod board {
    pub const FIRST: usize = 0;
    pub const COUNT: usize = 2;
    pub const ATTACHED: usize = 4;
    pub const INBOX: usize = 6;
    /// The room for standard sends, in edition 2.
    pub const ROOM: usize = 8;
}

/// Places in a board's row of a report.
pub mod board_row {
    pub const FINISHED: usize = 0;
    pub const IN_USE: usize = 2;
    pub const PEAK: usize = 4;
    pub const STATE: usize = 6;
    /// The account of standard sends, in edition 2.
    pub const STANDARD_USE: usize = 8;
    pub const STANDARD_PEAK: usize = 10;
}

/// Places in an operation.
pub mod operation {
    pub const KIND: usize = 0;
    pub const FLAG: usize = 1;
    pub const PEER: usize = 2;
    pub const COMMUNICATOR: usize = 4;
    pub const ZERO: usize = 6;
    pub const TAG: usize = 8;
    pub const OFFSET: usize = 10;
    pub const LENGTH: usize = 12;
    pub const SLOT: usize = 14;
}

/// The kinds of operations.
pub mod kind {
    pub const STANDARD: u8 = 1;
    pub const BUFFERED: u8 = 2;
    pub const SYNCHRONOUS: u8 = 3;
    pub const READY: u8 = 4;
    pub const RECEIVE: u8 = 5;
    pub const WAIT: u8 = 6;
    pub const PROBE: u8 = 7;
    pub const QUERY: u8 = 8;
}

/// The 16-bit number at `at`.
pub fn word(bytes: &[u8], at: usize) -> u16 {
    u16::from_le_bytes([bytes[at], bytes[at + 1]])
}
